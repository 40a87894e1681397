"""The lower part of the picture: small maps of what the cart knew when it planned, the route that it planned and the cells
that it expanded for it."""

from typing import Iterator, List, Tuple

from . import lane
from .replay import Drive, Knowing, many
from .shapes import (
    DRIVEN, HEAT, INK, KNOWN, LINE, PAPER, QUIET, ROUTE,
    area, box, cross, diamond, disc, outline, short, stroke, words,
)

ENOUGH, GAP, ABOVE, BELOW = 8, 20, 37, 22
EXPANDED, NOT_KNOWN = HEAT[1][1], "url(#fine)"


def strip(drive: Drive, x: float, y: float, wide: float) -> Tuple[List[str], float]:
    """The small maps in rows, from `y` down; and where they end."""
    if not drive.plans:
        return [], y
    plot = drive.plot
    side = max(1.5, min(200 / plot.width, 200 / plot.height, 24))
    each, each_high = max(plot.width * side, 190), ABOVE + plot.height * side + BELOW
    columns = max(1, int((wide + GAP) // (each + GAP)))
    chosen = choose(list(enumerate(drive.until_plans(), 1)), columns * -(-ENOUGH // columns))
    few = len(chosen) == len(drive.plans)
    head = "What the cart knew and planned, " + ("at each plan" if few else f"at {len(chosen)} of its {len(drive.plans)} plans")
    parts = [f'<path d="M{short(x)} {short(y)}h{short(wide)}" stroke="{LINE}"/>', words(x, y + 30, head, 16, bold=True)]
    key, y = legend(x, y + 54, wide)
    parts += key
    y += 24
    for place, (number, told) in enumerate(chosen):
        row, column = divmod(place, columns)
        parts += small(drive, number, told, x + column * (each + GAP), y + row * each_high, side)
    rows = (len(chosen) + columns - 1) // columns
    return parts, y + rows * each_high - BELOW


def choose(plans: List[Tuple[int, Knowing]], most: int) -> List[Tuple[int, Knowing]]:
    """All of them, or as many as fill whole rows, from the first to the last, evenly spread."""
    if len(plans) <= most:
        return plans
    return [plans[place * (len(plans) - 1) // (most - 1)] for place in range(most)]


def small(drive: Drive, number: int, told: Knowing, x: float, y: float, side: float) -> Iterator[str]:
    plan, path, known = told
    plot = drive.plot
    blocked = {cell for cell in range(plot.cells) if plot.blocked[cell]}
    moves = "at the start" if len(path) == 1 else f"after {many(len(path) - 1, 'move')}"
    answer = "no way" if plan.length is None else f"length {plan.length}"
    yield words(x, y + 12, f"Plan {number}, {moves}", 13, bold=True)
    yield words(x, y + 29, f"{answer}, {len(plan.expanded)} expanded", 12.5, QUIET)
    y += ABOVE
    yield '<g shape-rendering="crispEdges">' + box(x, y, plot.width * side, plot.height * side, PAPER)
    yield area(plot, plan.expanded, x, y, side, EXPANDED)
    yield area(plot, blocked - known, x, y, side, NOT_KNOWN)
    yield area(plot, known, x, y, side, KNOWN)
    yield box(x, y, plot.width * side, plot.height * side, "none", "#9a9a9a") + "</g>"
    if len(path) > 1:
        yield stroke(outline(lane.lane(plot, path, x, y, side, 0.12)), DRIVEN, max(1.2, side * 0.16))
    if plan.route:
        line = outline(lane.lane(plot, plan.route, x, y, side))
        yield stroke(line, PAPER, max(3, side * 0.36)) + stroke(line, ROUTE, max(1.6, side * 0.2), "4 3")
    yield diamond(*lane.centre(plot, plot.goal, x, y, side), max(4.5, side * 0.5))
    at = lane.centre(plot, plan.cell, x, y, side)
    yield disc(*at, max(3.4, side * 0.42), DRIVEN, INK, 1) if plan.route else cross(*at, max(3, side * 0.4))


def legend(x: float, y: float, wide: float) -> Tuple[List[str], float]:
    """What the small maps' shapes mean, in as many lines as it takes; and where the last stands."""
    entries = [
        (box(x, y - 10, 18, 12, KNOWN), "known blocked"),
        (box(x, y - 10, 18, 12, NOT_KNOWN), "blocked, not known yet"),
        (box(x, y - 10, 18, 12, EXPANDED), "expanded"),
        (stroke(f"M{short(x)} {short(y - 4)}h20", ROUTE, 2.2, "4 3"), "route planned"),
        (stroke(f"M{short(x)} {short(y - 4)}h20", DRIVEN, 2.2), "driven so far"),
        (disc(x + 9, y - 4, 5, DRIVEN, INK, 1), "cart"),
    ]
    parts, along, first = [], 0, y
    for shape, text in entries:
        long = 25 + len(text) * 6.8
        if along + long > wide:
            along, y = 0, y + 22
        said = words(x + 25, first, text, 12, QUIET)
        parts.append(f'<g transform="translate({short(along)} {short(y - first)})">{shape}{said}</g>')
        along += long + 18
    return parts, y
