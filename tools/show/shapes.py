"""Colours and small shapes of the SVG pictures. The colours are Okabe and Ito's, which colour-blind people can tell apart;
whatever matters differs in shape, hatch or lightness too."""

from html import escape
from typing import Iterable, Tuple

from .plot import Plot

Point = Tuple[float, float]

INK, QUIET, LINE, PAPER = "#222222", "#5a5a5a", "#e2e2e2", "#ffffff"
KNOWN, UNKNOWN = "#3d3d3d", "#8c8c8c"
DRIVEN, ROUTE, START, GOAL = "#D55E00", "#0072B2", "#009E73", "#F0E442"
# how often a cell was expanded, from once on: light to dark, so that it reads without colour too
HEAT = (("1", "#DDEFFB"), ("2", "#B0D9F5"), ("3 to 5", "#79BFEC"), ("6 or more", "#3A96D0"))
FONT = "system-ui, -apple-system, 'Segoe UI', Helvetica, Arial, 'DejaVu Sans', sans-serif"


def hatch(name: str, gap: float, thick: float, colour: str) -> str:
    """A hatch with nothing between its lines, so that one sees below it whether a cell was expanded."""
    return (
        f'<pattern id="{name}" width="{gap}" height="{gap}" patternUnits="userSpaceOnUse" patternTransform="rotate(45)">'
        f'<rect width="{thick}" height="{gap}" fill="{colour}"/></pattern>'
    )


DEFINITIONS = "<defs>" + hatch("hatch", 5, 1.6, UNKNOWN) + hatch("fine", 3, 1.1, "#b4b4b4") + "</defs>"


def heat(times: int) -> str:
    return HEAT[0 if times < 2 else 1 if times < 3 else 2 if times < 6 else 3][1]


def short(number: float) -> str:
    """A coordinate with at most two decimals."""
    return f"{number:.2f}".rstrip("0").rstrip(".")


def words(x: float, y: float, text: str, size: float = 13, fill: str = INK, bold: bool = False, anchor: str = "start") -> str:
    weight = ' font-weight="600"' if bold else ""
    place = "" if anchor == "start" else f' text-anchor="{anchor}"'
    return f'<text x="{short(x)}" y="{short(y)}" font-size="{short(size)}" fill="{fill}"{weight}{place}>{escape(text)}</text>'


def box(x: float, y: float, width: float, height: float, fill: str, stroke: str = "none", round_by: float = 0) -> str:
    corner = f' rx="{short(round_by)}"' if round_by else ""
    edge = "" if stroke == "none" else f' stroke="{stroke}"'
    size = f'width="{short(width)}" height="{short(height)}"'
    return f'<rect x="{short(x)}" y="{short(y)}" {size}{corner} fill="{fill}"{edge}/>'


def disc(x: float, y: float, radius: float, fill: str, stroke: str = PAPER, thick: float = 1.5) -> str:
    edge = f'stroke="{stroke}" stroke-width="{short(thick)}"'
    return f'<circle cx="{short(x)}" cy="{short(y)}" r="{short(radius)}" fill="{fill}" {edge}/>'


def diamond(x: float, y: float, radius: float) -> str:
    """The goal's mark."""
    corners = ((x, y - radius), (x + radius, y), (x, y + radius), (x - radius, y))
    return f'<path d="{outline(corners)}Z" fill="{GOAL}" stroke="{INK}" stroke-width="{short(max(1, radius / 8))}"/>'


def cross(x: float, y: float, radius: float) -> str:
    """The mark of a cart that has no way."""
    arms = "".join(outline(((x - radius, y - down), (x + radius, y + down))) for down in (radius, -radius))
    return stroke(arms, PAPER, radius / 1.6 + 3) + stroke(arms, INK, radius / 1.6)


def outline(points: Iterable[Point]) -> str:
    return "M" + "L".join(f"{short(x)} {short(y)}" for x, y in points)


def stroke(path: str, colour: str, thick: float, dashes: str = "") -> str:
    dashed = f' stroke-dasharray="{dashes}"' if dashes else ""
    line = f'stroke="{colour}" stroke-width="{short(thick)}" stroke-linejoin="round" stroke-linecap="round"'
    return f'<path d="{path}" fill="none" {line}{dashed}/>'


def area(plot: Plot, cells: Iterable[int], x: float, y: float, side: float, fill: str) -> str:
    """Whole cells in one fill; those that touch in a row are one piece, so that no seam shows between them."""
    pieces, ordered = [], sorted(cells)
    while ordered:
        first = last = ordered.pop(0)
        while ordered and ordered[0] == last + 1 and ordered[0] % plot.width:
            last = ordered.pop(0)
        row, column = plot.place(first)
        wide = short((last - first + 1) * side)
        pieces.append(f"M{short(x + column * side)} {short(y + row * side)}h{wide}v{short(side)}h-{wide}z")
    return f'<path d="{"".join(pieces)}" fill="{fill}"/>' if pieces else ""


def grid(plot: Plot, x: float, y: float, side: float) -> str:
    across, down = plot.width * side, plot.height * side
    lines = [f"M{short(x + k * side)} {short(y)}v{short(down)}" for k in range(plot.width + 1)]
    lines += [f"M{short(x)} {short(y + k * side)}h{short(across)}" for k in range(plot.height + 1)]
    return f'<path d="{"".join(lines)}" stroke="{LINE}" fill="none"/>'
