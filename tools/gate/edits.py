"""A file of wrong programs, must-fail/SET.edit: its blocks, the facts that each block names, and what its edits make of the crate.

A block is a line '# LABEL', words on what is wrong, lines 'refused at: FILE NAME' or 'refused at: fn FUNCTION GOAL', and edits:
'file: FILE', and after it pairs of 'old: TEXT' and 'new: TEXT'."""

import re
from pathlib import Path
from typing import Dict, List, NamedTuple, Optional, Sequence, Tuple

from . import repository

LABEL = re.compile(r"# ([a-z0-9_]+)")
KEYED = re.compile(r"(refused at|file|old|new)\b *:")


class BadEdit(Exception):
    """Why a block, or a file of them, cannot be tried, in one line."""


class Fact(NamedTuple):
    place: str  # a file below the crate, or 'fn FUNCTION' for a function with goals that the check did not prove
    name: str  # a declaration of that file, or such a goal

    def __str__(self) -> str:
        return f"{self.place} {self.name}"


class Edit(NamedTuple):
    file: str
    old: str
    new: str


class Block(NamedTuple):
    label: str
    facts: Tuple[Fact, ...]
    edits: Tuple[Edit, ...]
    text: str  # as it stands in the file


class Set(NamedTuple):
    name: str
    blocks: List[Block]


def sets(crate: Path) -> Tuple[List[Set], List[str]]:
    """The sets of wrong programs of a crate; and of each file that cannot be read, why."""
    found: List[Set] = []
    faults: List[str] = []
    for path in repository.sets(crate):
        try:
            found.append(Set(path.stem, blocks(path.read_text("utf-8"))))
        except (BadEdit, UnicodeDecodeError) as bad:
            faults.append(f"{crate.name}/must-fail/{path.name}: {bad}")
    return found, faults


def blocks(text: str) -> List[Block]:
    """The blocks of a file of wrong programs."""
    starts = [at.start() for at in re.finditer(r"^# ", text, re.M)]
    if text[: starts[0] if starts else None].strip():
        raise BadEdit("it does not begin with a label")
    if not starts:
        raise BadEdit("it has no block")
    return [block(text[begin:end]) for begin, end in zip(starts, [*starts[1:], len(text)])]


def block(text: str) -> Block:
    first, *lines = text.rstrip("\n").split("\n")
    label = LABEL.fullmatch(first)
    if not label:
        raise BadEdit(f"'{first}' is no label of small letters, digits and _")
    facts: List[Fact] = []
    edits: List[Edit] = []
    file: Optional[str] = None
    old: Optional[str] = None
    for line in lines:
        bad = BadEdit(f"{label[1]}: the line '{line}' has no place there")
        if old is not None and not line.startswith("new:"):
            raise bad
        if line.startswith("refused at: ") and file is None:
            facts.append(fact(line))
        elif line.startswith("file: "):
            file = line[len("file: ") :]
        elif line.startswith("old: ") and file is not None:
            old = line[len("old: ") :]
        elif line.startswith("new:") and file is not None and old is not None:
            edits.append(Edit(file, old, re.sub("^ ", "", line[len("new:") :])))
            old = None
        elif KEYED.match(line) or (line and file is not None):
            raise bad
    if old is not None:
        raise BadEdit(f"{label[1]}: an 'old:' has no 'new:'")
    return Block(label[1], tuple(facts), tuple(edits), text)


def fact(line: str) -> Fact:
    words = line.split()[2:]
    if len(words) == 3 and words[0] == "fn":
        return Fact(f"fn {words[1]}", words[2])
    if len(words) == 2 and words[0] != "fn":
        return Fact(words[0], words[1])
    raise BadEdit(f"'{line}' names no fact: FILE NAME, or fn FUNCTION GOAL")


def edited(crate: Path, edits: Sequence[Edit]) -> Dict[str, str]:
    """The files that the edits change, as they are then. As `rt` has it, each old text stands once in its file."""
    was: Dict[str, str] = {}
    now: Dict[str, str] = {}
    for edit in edits:
        if not re.match(r"(src|specs)/", edit.file) or ".." in edit.file or not (crate / edit.file).is_file():
            raise BadEdit(f"{edit.file} is no file of the crate's src/ or specs/")
        if edit.file not in now:
            now[edit.file] = was[edit.file] = (crate / edit.file).read_text("utf-8")
        times = now[edit.file].count(edit.old)
        if times != 1:
            raise BadEdit(f"'{edit.old}' stands {times} times in {edit.file}, not once")
        now[edit.file] = now[edit.file].replace(edit.old, edit.new)
    unchanged = [file for file in now if now[file] == was[file]]
    if unchanged or not edits:
        raise BadEdit(f"it changes nothing in {unchanged[0]}" if unchanged else "it edits nothing")
    return now
