"""The line of a path through cells. It keeps to the right of each cell's middle, as carts do in an aisle, so that
the way there and the way back stay apart."""

from typing import List, Optional, Sequence, Set, Tuple

from .plot import Plot
from .shapes import Point

# columns and rows gone
Way = Tuple[int, int]


def centre(plot: Plot, cell: int, x: float, y: float, side: float) -> Point:
    row, column = plot.place(cell)
    return x + (column + 0.5) * side, y + (row + 0.5) * side


def headings(plot: Plot, path: Sequence[int]) -> List[Way]:
    """Each step of the path."""
    # in a plot one cell wide every step is down or up, and the later entries stand
    gone = {1: (1, 0), -1: (-1, 0), plot.width: (0, 1), -plot.width: (0, -1)}
    return [gone[after - before] for before, after in zip(path, path[1:])]


def lane(plot: Plot, path: Sequence[int], x: float, y: float, side: float, aside: float = 0.0) -> List[Point]:
    """The points of the path's line, each `aside` of a cell to the right of the way that the cart goes."""
    ways = headings(plot, path)
    points = []
    for place, cell in enumerate(path):
        middle = centre(plot, cell, x, y, side)
        came = ways[place - 1] if place else None
        goes = ways[place] if place < len(ways) else None
        for right, down in corner(came, goes):
            points.append((middle[0] + right * aside * side, middle[1] + down * aside * side))
    return points


def corner(came: Optional[Way], goes: Optional[Way]) -> List[Way]:
    """How far the line's points in one cell lie off its middle, in lane widths."""
    way = came or goes
    if way is None:
        return [(0, 0)]
    if came is None or goes is None or came == goes:
        return [to_the_right(way)]
    first, second = to_the_right(came), to_the_right(goes)
    if came == (-goes[0], -goes[1]):
        return [first, second]
    return [(first[0] + second[0], first[1] + second[1])]


def to_the_right(way: Way) -> Way:
    return -way[1], way[0]


def arrows(plot: Plot, path: Sequence[int], x: float, y: float, side: float, aside: float, every: int,
           marked: Set[int]) -> List[List[Point]]:
    """Arrowheads on the line, between two cells, some `every` steps apart and clear of marked cells."""
    long, half = max(side * 0.16, 3), max(side * 0.17, 3.2)
    heads, since = [], every // 2
    for place, (right, down) in enumerate(headings(plot, path)):
        since += 1
        if since < every or path[place] in marked or path[place + 1] in marked:
            continue
        since = 0
        a, b = centre(plot, path[place], x, y, side), centre(plot, path[place + 1], x, y, side)
        middle = (a[0] + b[0]) / 2 - down * aside * side, (a[1] + b[1]) / 2 + right * aside * side
        tip = middle[0] + right * long, middle[1] + down * long
        back = middle[0] - right * long, middle[1] - down * long
        heads.append([tip, (back[0] - down * half, back[1] + right * half), (back[0] + down * half, back[1] - right * half)])
    return heads
