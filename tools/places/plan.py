"""The places of a function, read from the module `Lts` that the kit writes of it.

Each place is a record with a field `before`, the place before it, and a field of its own; the first is `Start`, which has no
`before`. Each need says by the type of its `c` at which place it stands."""

import re
from dataclasses import dataclass
from typing import Dict, FrozenSet, List, Optional, Sequence

START = "Start"
# About how many records `search` enters at a place: few where the kit writes the place's own record out in `Lts`, more at a call,
# which has the last values of what it was lent and what it ensures.
LIGHT, HEAVY = 2, 30

RECORD = re.compile(r" +pub record (\S+) ")
BEFORE = re.compile(r" +pub before : (\S+)")
NEED = re.compile(r" +Need-(\S+) =")
STANDS = re.compile(r"\(c : ([^\s)]+)\)")


@dataclass(frozen=True)
class Plan:
    """What is before each place, where each need stands, and the places whose own record is small."""

    before: Dict[str, str]
    needs: Dict[str, str]
    light: FrozenSet[str]

    def __contains__(self, place: str) -> bool:
        return place == START or place in self.before

    def way(self, place: str) -> List[str]:
        """The places from `place` back to the function's start."""
        way = [place]
        while way[-1] in self.before:
            way.append(self.before[way[-1]])
        return way

    def weight(self, places: Sequence[str]) -> int:
        """About how many records `search` enters at these places."""
        return sum(LIGHT if place == START or place in self.light else HEAVY for place in places)


def name_of(place: str) -> str:
    """The name that a proof has for a place: `After-search` is `after-search`."""
    return "entry" if place == START else place[0].lower() + place[1:]


def read(text: str) -> Plan:
    """The plan that a module `Lts` holds."""
    before: Dict[str, str] = {}
    needs: Dict[str, str] = {}
    light = set()
    record: Optional[str] = None
    need: Optional[str] = None
    for line in text.splitlines():
        found = RECORD.match(line)
        if found:
            record, need = found.group(1), None
            if record.endswith("·own"):
                light.add(record[:-len("·own")])
            continue
        found = BEFORE.match(line)
        if found and record is not None:
            before[record] = found.group(1)
        found = NEED.match(line)
        if found:
            record, need = None, found.group(1)
        found = STANDS.search(line)
        if need is not None and found:
            needs[need], need = found.group(1), None
    return Plan(before, needs, frozenset(light))
