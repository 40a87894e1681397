"""Sentences that are computed from the figures: the bounds one by one, and where a peer wins."""

from typing import Dict, List

from figures import NAMES, Figures, Spread, short


def plots(figures: Figures) -> List[str]:
    """The kinds that the bounds are over: all but the serpentine, which has one of its own."""
    return [kind for kind in figures.works["call"] if not kind.startswith("serpentine")]


def verdict(name: str, figures: Figures, what: str, top: str, bottom: List[str], bound: float) -> str:
    found = sorted((figures.work_ratio(what, k, top, bottom).middle, k) for k in plots(figures))
    (low, _), (high, _) = found[0], found[-1]
    over = [kind for ratio, kind in found if ratio > bound]
    met = "met" if not over else "**not met** on " + ", ".join(over)
    return f"- {name}: {short(low)} to {short(high)}; bound {bound:g}: {met}."


def serpentine(figures: Figures) -> str:
    rounds = figures.works["replan"]
    pairs = list(zip(rounds["serpentine, cut"], rounds["serpentine"]))
    lent, own = (Spread(cut[work] / whole[work] for cut, whole in pairs) for work in ("core", "own"))
    met = "met" if max(lent.middle, own.middle) <= 3 else "**not met**"
    return f"- Serpentine cut just before the goal, to the uncut one: {lent} with the space lent, {own} with its own; bound 3: {met}."


def verdicts(figures: Figures) -> str:
    found = [verdict("Soundness test, to the C flags", figures, "call", "sound", ["flags"], 1)]
    for work, space in (("core", "lent"), ("own", "its own")):
        for what, how in (("replan", "in passing"), ("repeated", "repeated on each state")):
            name = f"Replan without the test, working space {space}, {how}, to the C++ heap"
            found.append(verdict(name, figures, what, work, ["heap"], 1.3))
    found.append(serpentine(figures))
    for call, core, bound in (("plan", "core", 1.25), ("report", "block", 1.2), ("move", "advance", 1.2)):
        name = f"The call {call} over a record, to the sum of test, core and codec in C"
        found.append(verdict(name, figures, "call", f"record-{call}", ["sound", core, "codec"], bound))
    return "\n".join(found)


def winners(figures: Figures, what: str, against: str) -> str:
    """For each peer, the kinds on which it takes less than `against`, with the ratio."""
    out = []
    for who in figures.contestants():
        if who in ("call", "core"):
            continue
        ratios = [(k, figures.ratio(what, k, who, against).middle) for k in figures.kinds(what)]
        won = [f"{k} ({short(r)})" for k, r in ratios if r < 1]
        where = "every plot: " if len(won) == len(ratios) else ""
        out.append(f"- {NAMES[who]}: {where}{', '.join(won) if won else 'nowhere'}.")
    return "\n".join(out)


def scale(figures: Figures) -> str:
    kind = "random 25 %"
    call, core = (figures.microseconds("drive", kind, who) for who in ("call", "core"))
    calls = sum(figures.mean("drive", kind, k) for k in range(3))
    return (
        f"For scale, on this machine: a drive on {kind} is {calls:.0f} calls, and takes some {call:,.0f} µs with the test in each call, "
        f"{call / calls:.1f} µs a call, and some {core:,.0f} µs by the cores."
    )


def span(parts: List[float]) -> str:
    return f"{100 * min(parts):.0f} to {100 * max(parts):.0f} %"


def test_share(figures: Figures) -> str:
    """How much of plan's call is the test."""
    return span([figures.work_ticks("call", k, "sound") / figures.work_ticks("call", k, "call") for k in plots(figures)])


def share_beside(figures: Figures, core: str) -> str:
    """How much of a call is the test, where the call is the test and this core."""
    ticks = [[figures.work_ticks("call", k, work) for work in ("sound", core)] for k in plots(figures)]
    return span([test / (test + rest) for test, rest in ticks])


def walk_share(figures: Figures) -> str:
    """How much of the C++ heap's drive are its moves, which ask whether the route stands."""

    def total(what: str, kind: str) -> int:
        return sum(r["adaptive"] for r in figures.times[what][kind].values())

    parts = [(total("moves", k), total("plans", k)) for k in figures.kinds("drive")]
    return span([moves / (moves + plans) for moves, plans in parts])


def most_waiting(figures: Figures) -> str:
    return str(max(row[5] for kinds in figures.has.values() for rows in kinds.values() for row in rows))


def against_heap(figures: Figures) -> str:
    """How the cores stand to the C++ heap on a drive's plans."""
    ratios = [figures.ratio("plans", k, "core").middle for k in figures.kinds("plans")]
    return f"{short(min(ratios))} to {short(max(ratios))}"


def sentences(figures: Figures) -> Dict[str, str]:
    return {
        "verdicts": verdicts(figures),
        "drives-call": winners(figures, "drive", "call"),
        "drives-core": winners(figures, "drive", "core"),
        "plans-core": winners(figures, "plans", "core"),
        "searches-call": winners(figures, "search", "call"),
        "searches-core": winners(figures, "search", "core"),
        "scale": scale(figures),
        "test-share": test_share(figures),
        "report-share": share_beside(figures, "block"),
        "move-share": share_beside(figures, "advance"),
        "walk-share": walk_share(figures),
        "most-waiting": most_waiting(figures),
        "against-heap": against_heap(figures),
    }
