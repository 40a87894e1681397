"""Reads what the measurement printed, and makes ratios of it: each within one round of one plot, so that a machine that drifts
drifts for both sides. A ratio's spread is over the plots and rounds of a kind."""

import collections
import statistics
from typing import DefaultDict, Dict, Iterable, List, Tuple

NAMES = {
    "call": "proved, test in each call",
    "core": "proved cores",
    "adaptive": "C++ heap, same algorithm",
    "astar": "A\\* anew (Rust)",
    "dstar": "D\\* Lite (C++)",
    "tcod": "libtcod's A\\*",
    "boost": "Boost's astar_search",
}
BASE = "adaptive"

Times = Dict[Tuple[str, str], Dict[str, int]]


class Spread:
    """The median of some ratios, and their quartiles."""

    def __init__(self, ratios: Iterable[float]) -> None:
        ordered = sorted(ratios)
        self.middle = statistics.median(ordered)
        self.low, _, self.high = statistics.quantiles(ordered, n=4, method="inclusive")

    def __str__(self) -> str:
        return f"{short(self.middle)} ({short(self.low)}–{short(self.high)})"


def short(x: float) -> str:
    if x >= 9.95:
        return f"{x:,.0f}"
    if x >= 0.095:
        return f"{x:.2f}" if x < 1.995 else f"{x:.1f}"
    return f"{x:.2g}" if x >= 0.001 else "<0.001"


def lines(path: str) -> List[List[str]]:
    with open(path, encoding="utf-8") as f:
        return [line.rstrip("\n").split("\t") for line in f]


class Figures:
    def __init__(self, folder: str) -> None:
        self.about: Dict[str, str] = {name: words for name, words in lines(f"{folder}/about.tsv")}
        # what -> kind -> (plot, round) -> contestant -> time; "plans" and "moves" are those parts of a drive, apart
        self.times: DefaultDict[str, Dict[str, Times]] = collections.defaultdict(dict)
        # what -> kind -> for each plot: plans, reports, moves, cells expanded, cells expanded if all were planned anew, most waiting
        self.has: DefaultDict[str, Dict[str, List[List[int]]]] = collections.defaultdict(dict)
        # what -> kind -> (plot, round) -> work -> ticks; "call", "replan", and "repeated": the least of many on one state
        self.works: DefaultDict[str, Dict[str, List[Dict[str, float]]]] = collections.defaultdict(dict)
        for fields in lines(f"{folder}/figures.tsv"):
            self.take(*fields)

    def take(self, what: str, kind: str, plot: str, *rest: str) -> None:
        if what in ("call", "replan", "repeated"):
            ticks = (field.split("=") for field in rest[2:])
            self.works[what].setdefault(kind, []).append({work: int(t) / int(rest[1]) for work, t in ticks})
        elif what.endswith("-has"):
            self.has[what[:-4]].setdefault(kind, []).append([int(x) for x in rest])
        else:
            rounds = self.times[what].setdefault(kind, {})
            rounds.setdefault((plot, rest[0]), {})[rest[1]] = int(rest[2])

    def kinds(self, what: str) -> List[str]:
        return list(self.times[what])

    def contestants(self) -> List[str]:
        first = next(iter(self.times["drive"].values()))
        present = next(iter(first.values()))
        return [who for who in NAMES if who in present]

    def ratio(self, what: str, kind: str, who: str, to: str = BASE) -> Spread:
        return Spread(r[who] / r[to] for r in self.times[what][kind].values())

    def microseconds(self, what: str, kind: str, who: str) -> float:
        return statistics.median(r[who] for r in self.times[what][kind].values()) / 1000

    def mean(self, what: str, kind: str, k: int) -> float:
        return statistics.mean(row[k] for row in self.has[what][kind])

    def work_ratio(self, what: str, kind: str, top: str, bottom: List[str]) -> Spread:
        """The ratio of a work to a sum of works, for each round."""
        return Spread(r[top] / sum(r[w] for w in bottom) for r in self.works[what][kind])

    def work_ticks(self, what: str, kind: str, work: str) -> float:
        return statistics.median(r[work] for r in self.works[what][kind])
