"""The errors in the toolchain's log of a wrong program: where each stands, and what it names."""

import re
from typing import FrozenSet, List, NamedTuple

from .edits import Fact

AT_A_PLACE = re.compile(r"(\S+):\d+:\d+: error: `([^`]*)`")
UNPROVED = re.compile(r"fn (\S+): (?:no proof: |not proved$)")
NOT_CLOSED = re.compile(r"`search` did not prove ([^;]*)")
OPEN = re.compile(r"note: (?:\./)?src/\S+:\d+:\d+: it is not proved .*?\(`([^`]*)`\)")  # a goal of the function that is named next
# what only waits for a fact that failed elsewhere: declarations that cite it, and functions that call one that is not proved
WAITS = re.compile(r".*: error: .*(?:that depends? on .* not checked|w(?:as|ere) not admitted)|fn \S+: no proof: it calls (?!.*did not prove)")
SO_FAR = "so far: "  # what a part of a long check says early; it is said again at the end
# an error of names, or of a proof's shape or text: it refuses no fact. The check adds of some names that it prints that they are not in
# scope here, so that what is shown could not be pasted
SHAPE = re.compile(r"not in scope(?! here, so)|has no `|has no field|is no name|operand is missing|expected the end|cannot continue")


class Error(NamedTuple):
    place: str  # as of a fact; '' where it stands at no place of the crate
    names: FrozenSet[str]
    said: str

    def names_fact(self, fact: Fact) -> bool:
        return self.place == fact.place and fact.name in self.names

    def refuses(self, fact: Fact) -> bool:
        return self.names_fact(fact) and not self.of_shape()

    def of_shape(self) -> bool:
        return SHAPE.search(self.said) is not None


def errors(log: str) -> List[Error]:
    """The errors of a log of `rt check`, in order, but for those that wait."""
    lines = [line for line in log.splitlines() if not line.startswith(SO_FAR)]
    found: List[Error] = []
    goals: List[str] = []
    for line, after in zip(lines, [*lines[1:], ""]):
        if OPEN.match(line):
            goals += OPEN.findall(line)
        elif line.startswith("fn "):
            found += unproved(line, goals)
            goals = []
        elif ": error: " in line and not WAITS.match(line):
            found.append(error(whole_line(line, after)))
    return found


def unproved(line: str, goals: List[str]) -> List[Error]:
    """The error of a function's line, with its open goals. It has none where the function is proved, only waits for another, or fails
    by errors at places alone."""
    function = UNPROVED.match(line)
    if not function or WAITS.match(line):
        return []
    named = NOT_CLOSED.search(line)
    goals = goals + re.findall("`([^`]*)`", named[1] if named else "")
    return [Error(f"fn {function[1]}", frozenset(goals), line)] if goals or "no proof" in line else []


def whole_line(line: str, after: str) -> str:
    """A line with the next one, where the check broke it in two: that is set in, as what it says further of an error is."""
    return f"{line} {after.strip()}" if not line.startswith(" ") and after.startswith("  ") else line


def error(line: str) -> Error:
    found = AT_A_PLACE.match(line)
    return Error(inside(found[1]), frozenset([found[2]]), line) if found else Error("", frozenset(), line)


def inside(place: str) -> str:
    """A file below the crate, in whose folder it was checked; '' for any other."""
    place = re.sub(r"^\./", "", place)
    return "" if place.startswith("/") or ".." in place.split("/") else place


def refused(log: str) -> bool:
    """The check came to its end, and said no."""
    return "logic=not-proved" in log.splitlines()
