"""Draws the ratios as an SVG: a row for each kind, a mark for each contestant, a bar for its quartiles, on a scale by powers."""

import math
from typing import Iterator, List

from figures import BASE, NAMES, Figures

# the colours of Okabe and Ito, and a shape for each, so that colour alone tells nothing
STYLE = {
    "call": ("#000000", "square"),
    "core": ("#0072B2", "circle"),
    "astar": ("#E69F00", "up"),
    "dstar": ("#009E73", "diamond"),
    "tcod": ("#CC79A7", "down"),
    "boost": ("#D55E00", "cross"),
}
LEFT, WIDE, ROW, TOP = 150, 640, 34, 112


def mark(shape: str, x: float, y: float, colour: str) -> str:
    r = 4
    points = {
        "square": [(-r, -r), (r, -r), (r, r), (-r, r)],
        "up": [(0, -r - 1), (r + 1, r), (-r - 1, r)],
        "down": [(0, r + 1), (r + 1, -r), (-r - 1, -r)],
        "diamond": [(0, -r - 2), (r + 2, 0), (0, r + 2), (-r - 2, 0)],
    }
    if shape == "circle":
        return f'<circle cx="{x:.1f}" cy="{y:.1f}" r="{r + 0.5}" fill="{colour}"/>'
    if shape == "cross":
        return f'<path d="M{x - r:.1f} {y - r:.1f}l{2 * r} {2 * r}m0 {-2 * r}l{-2 * r} {2 * r}" stroke="{colour}" stroke-width="3" fill="none"/>'
    corners = " ".join(f"{x + a:.1f},{y + b:.1f}" for a, b in points[shape])
    return f'<polygon points="{corners}" fill="{colour}"/>'


def text(x: float, y: float, words: str, anchor: str = "start", size: int = 13, weight: str = "normal") -> str:
    return f'<text x="{x:.1f}" y="{y:.1f}" text-anchor="{anchor}" font-size="{size}" font-weight="{weight}">{words}</text>'


class Scale:
    def __init__(self, low: float, high: float) -> None:
        self.low, self.high = math.floor(math.log10(low)), math.ceil(math.log10(high))

    def at(self, ratio: float) -> float:
        part = (math.log10(max(ratio, 10**self.low)) - self.low) / (self.high - self.low)
        return LEFT + WIDE * part

    def lines(self, top: int, bottom: int) -> Iterator[str]:
        for power in range(self.low, self.high + 1):
            for k in (1, 2, 5):
                if power == self.high and k > 1:
                    continue
                x = self.at(k * 10.0**power)
                strong = k == 1 and power == 0
                colour, wide = ("#444444", 1.5) if strong else ("#d0d0d0", 1 if k == 1 else 0.5)
                yield f'<line x1="{x:.1f}" y1="{top}" x2="{x:.1f}" y2="{bottom}" stroke="{colour}" stroke-width="{wide}"/>'
                yield text(x, bottom + 16, f"{k * 10.0**power:g}", "middle", 11)


def panel(figures: Figures, what: str, title: str, top: int, scale: Scale, names: List[str]) -> Iterator[str]:
    kinds = figures.kinds(what)
    bottom = top + 10 + ROW * len(kinds)
    yield text(LEFT, top - 10, title, weight="bold")
    yield from scale.lines(top, bottom)
    for k, kind in enumerate(kinds):
        y = top + 10 + ROW * (k + 0.5)
        if k % 2 == 0:
            yield f'<rect x="10" y="{y - ROW / 2:.1f}" width="{LEFT + WIDE - 10}" height="{ROW}" fill="#000000" fill-opacity="0.045"/>'
        yield text(LEFT - 12, y + 4, kind.replace("&", "&amp;"), "end")
        for i, who in enumerate(names):
            s, (colour, shape) = figures.ratio(what, kind, who), STYLE[who]
            v = y + (i - (len(names) - 1) / 2) * 4.6
            yield f'<line x1="{scale.at(s.low):.1f}" y1="{v:.1f}" x2="{scale.at(s.high):.1f}" y2="{v:.1f}" stroke="{colour}" stroke-width="2"/>'
            yield mark(shape, scale.at(s.middle), v, colour)


def legend(names: List[str]) -> Iterator[str]:
    for i, who in enumerate(names):
        x, y = LEFT + (i % 3) * 215, 46 + (i // 3) * 20
        colour, shape = STYLE[who]
        yield mark(shape, x, y - 4, colour)
        yield text(x + 13, y, NAMES[who].replace("\\", ""))


def draw(figures: Figures) -> str:
    names = [who for who in figures.contestants() if who != BASE]
    spreads = [figures.ratio(w, k, who) for w in ("drive", "search") for k in figures.kinds(w) for who in names]
    scale = Scale(max(0.1, min(s.low for s in spreads)), max(s.high for s in spreads))
    second = TOP + 10 + ROW * len(figures.kinds("drive")) + 66
    high = second + 10 + ROW * len(figures.kinds("search")) + 50
    parts = [
        f'<svg xmlns="http://www.w3.org/2000/svg" width="{LEFT + WIDE + 30}" height="{high}" font-family="sans-serif" fill="#000000">',
        f'<rect width="{LEFT + WIDE + 30}" height="{high}" fill="#ffffff"/>',
        text(LEFT, 22, "Time, in times of the C++ heap of the same algorithm (1; left of it is faster)", size=14),
        *legend(names),
        *panel(figures, "drive", "Full drives", TOP, scale, names),
        *panel(figures, "search", "Single long searches", second, scale, names),
        text(LEFT, high - 10, "Marks are medians, bars quartiles, over plots and rounds. A mark at the left edge is there or beyond.", size=11),
        "</svg>",
    ]
    return "\n".join(parts) + "\n"
