"""Long lines of antt, broken where a reader would break them.

Only the breaks are made here: `rt fmt` gives each line its place, and puts each part of a broken tuple, record or list on a line of its
own. So a text is broken and formatted by turns, until no line is left that is too long and can be broken."""

import re
from dataclasses import dataclass
from typing import Iterator, List, Optional

from places.terms import depth_after

# below the 160 that the gate allows: a later edit may make a line a little longer before it has to be broken anew
WIDTH = 150
# What a break costs: for each bracket around it, for the room that it leaves in the line, and by what stands beside it.
DEEPER, EMPTY = 15, 16
BEFORE = {"→": 1, "×": 3, "⊎": 3, "↔": 3, "≡": 6, "≢": 6, "≤": 6, "<": 6}
OTHER_OPERATOR, BETWEEN_ARGUMENTS, LAST_RESORT, NEVER = 8, 14, 60, 999

USE = re.compile(r"(?P<start>\s*(?:pub |ghost )*use [^{}]+\.\{)(?P<names>[^{}]*)(?P<end>\};?)")
COMMENT = re.compile(r"(?P<start>\s*(?:--|//[/!]?) )(?P<words>.*)")
OPERATOR = re.compile(r"[^\w\s()\[\]{}⌜⌝,;.?'\"]+")
# words that no line ends in, and words that none begins with
OPENS = frozenset(["let", "use", "module", "record", "λ", "←", ":", "pub", "abbrev", "unfoldable", "ghost", "search"])
CLOSES = frozenset(["=", ":", "in", "at", "where", "{", "⌜", "⌝", "}", "};"])
PROJECTION = re.compile(r"\.[\w\-·]+")


@dataclass(frozen=True)
class Gap:
    """A space where a line may be broken: its place, how deep in brackets it is, and the words beside it."""

    at: int
    depth: int
    left: str
    right: str
    binder: bool

    def in_list(self) -> bool:
        """Whether it is between parts of a tuple, a record or a list."""
        return self.left[-1] in ",;" or self.left == "{"

    def cost(self) -> int:
        """How much the two sides belong together."""
        if self.binder or self.left.lstrip("([{") in OPENS or self.right in CLOSES:
            return NEVER
        if self.left == "{" and self.right == "λ":
            return NEVER
        if self.in_list() or self.left == "in" or self.left == "=" and self.depth == 0:
            return 0
        if self.right in BEFORE:
            return BEFORE[self.right]
        if OPERATOR.fullmatch(self.left):
            return NEVER
        if OPERATOR.fullmatch(self.right):
            return OTHER_OPERATOR
        if PROJECTION.match(self.right) or self.right == "(search":
            return LAST_RESORT
        return BETWEEN_ARGUMENTS


def wrapped(text: str, width: int = WIDTH) -> str:
    """The text with each line that is too long broken, where it can be."""
    return "\n".join(line for long in text.split("\n") for line in broken(long, width))


def broken(line: str, width: int) -> List[str]:
    """The line, or several for one that is too long; a line with a string in it is left as it is."""
    if len(line) <= width or '"' in line:
        return [line]
    for form, breaks in ((USE, broken_use), (COMMENT, broken_comment)):
        found = form.fullmatch(line)
        if found:
            return breaks(found, width)
    return broken_term(line, width)


def broken_use(found: "re.Match[str]", width: int) -> List[str]:
    """A line of names from a module as several lines from the same module."""
    start, end = found.group("start"), found.group("end")
    names = [name.strip() for name in found.group("names").split(",") if name.strip()]
    return [start + part + end for part in filled(names, ", ", width - len(start) - len(end))]


def broken_comment(found: "re.Match[str]", width: int) -> List[str]:
    start = found.group("start")
    return [start + part for part in filled(found.group("words").split(" "), " ", width - len(start))]


def filled(words: List[str], between: str, room: int) -> List[str]:
    """The words on lines, as many on each as fit."""
    lines: List[str] = []
    for word in words:
        if lines and len(lines[-1]) + len(between) + len(word) <= room:
            lines[-1] += between + word
        else:
            lines.append(word)
    return lines


def broken_term(line: str, width: int) -> List[str]:
    """A line of a declaration in several, each within the width where there is a place to break it: behind the `=` of a clause and
    each `in` of its lets, and then where it costs least."""
    indent = len(line) - len(line.lstrip())
    gaps = [gap for gap in gaps_in(line) if gap.cost() < NEVER]
    outermost = min((gap.depth for gap in gaps), default=0)
    ends = "in" if line.lstrip().startswith("let ") else "="
    first = next((gap for gap in gaps if gap.depth == 0 and gap.left == ends), None)
    best = first or cheapest(gaps, outermost, indent, width)
    if best is None:
        return [line]
    rest = " " * (indent + 4) + line[best.at + 1:]
    if len(rest) >= len(line):
        return [line]
    if best.depth > 0 and best.in_list():
        # the formatter breaks the whole list first
        return [line[:best.at], rest]
    return [*broken(line[:best.at], width), *broken(rest, width)]


def cheapest(gaps: List[Gap], outermost: int, indent: int, width: int) -> Optional[Gap]:
    """The best gap within the width."""
    def cost(gap: Gap) -> float:
        empty = 1 - (gap.at - indent) / (width - indent)
        return DEEPER * (gap.depth - outermost) + gap.cost() + EMPTY * empty

    return min((gap for gap in gaps if indent + 4 < gap.at <= width), key=cost, default=None)


def gaps_in(line: str) -> Iterator[Gap]:
    """The spaces of a line between words; a comment at its end has none."""
    depth, binder, left = 0, False, ""
    for word in re.finditer(r"\S+", line):
        if word.group(0).startswith("--"):
            return
        if left:
            binder = not left.endswith(".") and (binder or left.endswith("λ"))
            yield Gap(word.start() - 1, depth, left, word.group(0), binder)
        left = word.group(0)
        for character in left:
            depth = depth_after(character, depth)
