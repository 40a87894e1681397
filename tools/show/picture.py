"""The picture of a whole drive as one SVG: the ground with the path driven and the cells expanded, the counts and a legend,
and below it what the cart knew and planned at each plan."""

from collections import defaultdict
from html import escape
from typing import Iterator, List, Tuple

from . import lane, plans
from .plot import Plot
from .replay import Drive, many
from .shapes import (
    DEFINITIONS, DRIVEN, FONT, GOAL, HEAT, INK, KNOWN, LINE, PAPER, QUIET, START, Point,
    area, box, cross, diamond, disc, grid, heat, outline, short, stroke, words,
)

EDGE, TOP, GAP, PANEL = 24, 74, 28, 236
ASIDE = 0.16
ABOUT = "Nothing is known at first. The cart sees the four cells beside it, and plans where no route stands."
# room for the line below the title; the smallest cell that has room for a plan's number
NARROWEST, NUMBERED = 720, 18


def picture(drive: Drive, name: str) -> str:
    """The SVG's text."""
    plot = drive.plot
    side = cell_side(plot)
    wide = max(EDGE + plot.width * side + GAP + PANEL + EDGE, NARROWEST)
    panel = EDGE + plot.width * side + GAP
    beside, panel_end = counts(drive, panel, TOP)
    key, key_end = legend(drive, panel, panel_end + 18)
    end = max(TOP + plot.height * side, key_end) + GAP
    below, end = plans.strip(drive, EDGE, end, wide - 2 * EDGE)
    high = end + EDGE
    parts = [
        f'<svg xmlns="http://www.w3.org/2000/svg" viewBox="0 0 {short(wide)} {short(high)}"',
        f' width="{short(wide)}" height="{short(high)}" font-family="{FONT}" role="img">',
        f"<title>{escape(title(drive, name))}</title>",
        DEFINITIONS,
        box(0.5, 0.5, wide - 1, high - 1, PAPER, "#cfcfcf", 8),
        words(EDGE, 36, title(drive, name), 20, bold=True),
        words(EDGE, 58, ABOUT, 13, QUIET),
        *ground(drive, EDGE, TOP, side), *marks(drive, EDGE, TOP, side), *beside, *key, *below, "</svg>",
    ]
    return "\n".join(part for part in parts if part) + "\n"


def title(drive: Drive, name: str) -> str:
    ending = "arrived" if drive.arrived else "no way"
    return f"{name}: {ending} after {many(len(drive.path) - 1, 'move')}"


def ground(drive: Drive, x: float, y: float, side: float) -> Iterator[str]:
    """The true ground, how often each cell was expanded, and the path driven."""
    plot = drive.plot
    levels = defaultdict(list)
    for cell, times in drive.times.items():
        levels[heat(times)].append(cell)
    blocked = {cell for cell in range(plot.cells) if plot.blocked[cell]}
    yield '<g shape-rendering="crispEdges">'
    for _, colour in HEAT:
        yield area(plot, levels[colour], x, y, side, colour)
    yield area(plot, blocked - drive.known, x, y, side, "url(#hatch)")
    yield grid(plot, x, y, side)
    yield area(plot, drive.known, x, y, side, KNOWN)
    yield "</g>"
    yield from driven(drive, x, y, side)


def driven(drive: Drive, x: float, y: float, side: float) -> Iterator[str]:
    """The path's line with its arrowheads, set off from the cells by a white edge."""
    plot, path = drive.plot, drive.path
    if len(path) == 1:
        return
    line, thick = outline(lane.lane(plot, path, x, y, side, ASIDE)), max(2.2, side * 0.11)
    yield '<g id="driven">' + stroke(line, PAPER, thick + 2) + stroke(line, DRIVEN, thick)
    marked = {plot.start, plot.goal, *(plan.cell for plan in drive.plans)}
    heads = lane.arrows(plot, path, x, y, side, ASIDE, 3 if side >= NUMBERED else 6, marked)
    shape = "".join(outline(head) + "Z" for head in heads)
    yield (f'<path d="{shape}" fill="{DRIVEN}" stroke="{PAPER}" stroke-width="0.8"/>' if shape else "") + "</g>"


def marks(drive: Drive, x: float, y: float, side: float) -> Iterator[str]:
    """The start, the goal, where the cart planned again, and where it found no way."""
    plot, places = drive.plot, defaultdict(list)
    for number, plan in enumerate(drive.plans, 1):
        if number > 1 and plan.route:
            places[plan.cell].append(str(number))
    radius = side * 0.4
    at = {cell: lane.centre(plot, cell, x, y, side) for cell in {plot.start, plot.goal, drive.path[-1], *places}}
    yield diamond(*at[plot.goal], max(radius * 1.15, 6))
    yield letter(at[plot.goal], "G", INK, side)
    yield disc(*at[plot.start], max(radius, 5), START)
    yield letter(at[plot.start], "S", PAPER, side)
    for cell, numbers in places.items():
        yield replanned(at[cell], ",".join(numbers), side)
    if not drive.arrived:
        yield cross(*at[drive.path[-1]], max(radius * 0.7, 4))


def letter(place: Point, text: str, fill: str, side: float) -> str:
    size = max(side * 0.46, 8)
    return words(place[0], place[1] + size * 0.36, text, size, fill, bold=True, anchor="middle")


def replanned(place: Point, numbers: str, side: float) -> str:
    """The plan's number where there is room for it, else a ring."""
    if side < NUMBERED:
        return disc(*place, side * 0.3, PAPER, INK, 1.2)
    size = side * 0.42
    half = max(side * 0.34, len(numbers) * size * 0.3 + size * 0.28)
    pill = box(place[0] - half, place[1] - side * 0.34, 2 * half, side * 0.68, PAPER, INK, side * 0.34)
    return pill + words(place[0], place[1] + size * 0.36, numbers, size, INK, bold=True, anchor="middle")


def counts(drive: Drive, x: float, y: float) -> Tuple[List[str], float]:
    """The drive in numbers, one under the other; and where they end."""
    parts = []
    for name, number in drive.counts():
        parts.append(words(x + 52, y + 16, str(number), 18, bold=True, anchor="end"))
        parts.append(words(x + 62, y + 16, name, 13, QUIET))
        y += 28
    return parts, y


def legend(drive: Drive, x: float, y: float) -> Tuple[List[str], float]:
    parts = [f'<path d="M{short(x)} {short(y - 10)}h{PANEL}" stroke="{LINE}"/>']
    middle, wide = x + 18, 36
    rows = [
        (disc(middle, y + 12, 10, START) + letter((middle, y + 12), "S", PAPER, 24), "start"),
        (diamond(middle, y + 40, 11.5) + letter((middle, y + 40), "G", INK, 24), "goal"),
        (sample_line(x, y + 68, wide), "path driven, keeping right"),
        (replanned((middle, y + 96), "2", 26 if cell_side(drive.plot) >= NUMBERED else 16), "planned again here"),
        (box(middle - 11, y + 113, 22, 22, KNOWN), "blocked, seen by the cart"),
        (box(middle - 11, y + 141, 22, 22, "url(#hatch)"), "blocked, never seen"),
    ]
    if not drive.arrived:
        rows.append((cross(middle, y + 180, 7), "no way from here"))
    for place, (shape, text) in enumerate(rows):
        parts += [shape, words(x + wide + 12, y + 17 + 28 * place, text)]
    y += 28 * len(rows) + 14
    parts.append(words(x, y + 10, "times expanded, over all plans", 13, QUIET))
    for place, (text, colour) in enumerate(HEAT):
        parts.append(box(x + place * 58, y + 20, 54, 18, colour, "#bcd3e2"))
        parts.append(words(x + place * 58 + 27, y + 53, text, 11, QUIET, anchor="middle"))
    return parts, y + 58


def cell_side(plot: Plot) -> int:
    """Room for the marks even in the largest plot, and no more than a small one needs."""
    return max(13, min(48, 640 // plot.width, 480 // plot.height))


def sample_line(x: float, y: float, wide: int) -> str:
    line = stroke(f"M{short(x)} {short(y)}h{wide}", DRIVEN, 3)
    tip = x + wide / 2 + 5
    return line + f'<path d="M{short(tip)} {short(y)}l-10 -6v12Z" fill="{DRIVEN}" stroke="{PAPER}" stroke-width="0.8"/>'
