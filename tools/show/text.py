"""The drive for a terminal, in plain characters: what the cart knew and planned at each plan of a small plot, the ground with
the path at the end, and the counts."""

from typing import Dict, Iterator, Set

from .cart import Plan
from .plot import Plot
from .replay import Drive, many

# a plot with sides or plans beyond these has its last map only
WIDEST, HIGHEST, MOST_PLANS = 40, 24, 12
ARROWS = {1: ">", 2: "v", 3: "<", 4: "^"}
# the terminal's own sixteen colours; the characters alone say the same
COLOURS = {
    "#": "1", ":": "2", "+": "36", "*": "34;1", "@": "31;1", "G": "33;1", "S": "32;1", "o": "35;1", "X": "31;1",
    ">": "31", "v": "31", "<": "31", "^": "31",
}
AT_PLANS = "@ cart  G goal  * route  + expanded  # known blocked  : not known yet"
AT_END = "S start  G goal  > v < ^ driven  o planned again  # seen  : never seen"


def view(drive: Drive, name: str, colour: bool) -> Iterator[str]:
    """The lines of the whole view."""
    plot = drive.plot
    small = plot.width <= WIDEST and plot.height <= HIGHEST and len(drive.plans) <= MOST_PLANS
    if small and drive.plans:
        yield AT_PLANS
        yield ""
        for number, (plan, path, known) in enumerate(drive.until_plans(), 1):
            answer = "no way" if plan.length is None else f"length {plan.length}"
            yield f"plan {number}, after {many(len(path) - 1, 'move')}: {answer}, expanded {len(plan.expanded)}"
            yield from framed(plot, at_plan(plot, plan, known), colour)
            yield ""
    yield AT_END
    yield ""
    yield f"{name}: " + ("arrived" if drive.arrived else "no way from X")
    yield from framed(plot, at_end(drive), colour)
    yield ""
    for words, number in drive.counts():
        yield f"{number:>6} {words}"


def at_plan(plot: Plot, plan: Plan, known: Set[int]) -> Dict[int, str]:
    """A character for each cell when the cart planned."""
    drawn = {cell: ":" for cell in range(plot.cells) if plot.blocked[cell]}
    drawn.update((cell, "+") for cell in plan.expanded)
    # the cart counts what it has not seen as free, and plans right through it
    drawn.update((cell, "*") for cell in plan.route)
    drawn.update((cell, "#") for cell in known)
    drawn[plot.goal] = "G"
    drawn[plan.cell] = "@"
    return drawn


def at_end(drive: Drive) -> Dict[int, str]:
    """A character for each cell after the drive: of a cell that the cart was on twice, the last way it left."""
    plot = drive.plot
    drawn = {cell: ":" for cell in range(plot.cells) if plot.blocked[cell]}
    drawn.update((cell, "#") for cell in drive.known)
    for before, after in zip(drive.path, drive.path[1:]):
        drawn[before] = next(ARROWS[direction] for direction, beside in plot.steps(before) if beside == after)
    drawn.update((plan.cell, "o") for plan in drive.plans[1:])
    drawn[plot.goal] = "G"
    drawn[plot.start] = "S"
    if not drive.arrived:
        drawn[drive.path[-1]] = "X"
    return drawn


def framed(plot: Plot, drawn: Dict[int, str], colour: bool) -> Iterator[str]:
    edge = "+" + "-" * plot.width + "+"
    yield edge
    for row in range(plot.height):
        cells = (drawn.get(row * plot.width + column, ".") for column in range(plot.width))
        yield "|" + "".join(painted(cell, colour) for cell in cells) + "|"
    yield edge


def painted(cell: str, colour: bool) -> str:
    return f"\033[{COLOURS[cell]}m{cell}\033[0m" if colour and cell in COLOURS else cell
