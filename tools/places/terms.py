"""Brackets in a term of antt."""

from typing import List

OPENING, CLOSING = "([{⌜", ")]}⌝"


def depth_after(character: str, depth: int) -> int:
    """How deep in brackets a text is behind a character."""
    return depth + (character in OPENING) - (character in CLOSING)


def inside(text: str, at: int) -> str:
    """What stands in the bracket that opens at a position."""
    depth = 0
    for end in range(at, len(text)):
        depth = depth_after(text[end], depth)
        if depth == 0:
            return text[at + 1:end]
    return text[at + 1:]


def parts(text: str) -> List[str]:
    """What stands between the commas that are in no bracket."""
    found, depth = [""], 0
    for character in text:
        depth = depth_after(character, depth)
        if character == "," and depth == 0:
            found.append("")
        else:
            found[-1] += character
    return [part for part in found if part.strip()]
