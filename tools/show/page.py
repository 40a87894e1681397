"""The page of a drive: one HTML file with a slider over its steps, which opens without a server or a network."""

import json
from html import escape
from pathlib import Path
from typing import Dict, List, Union

from .cart import Plan
from .lane import headings
from .picture import title
from .plot import Plot
from .replay import Drive

HERE = Path(__file__).parent
DIRECTIONS = {(1, 0): "1", (0, 1): "2", (-1, 0): "3", (0, -1): "4"}


def page(drive: Drive, name: str) -> str:
    """The page's text. The parts are put in by one pass each, the drive last, so that no part is read for another."""
    text = (HERE / "page.html").read_text(encoding="utf-8")
    script = "".join((HERE / part).read_text(encoding="utf-8") for part in ("steps.js", "map.js", "page.js"))
    text = text.replace("@STYLE@", (HERE / "page.css").read_text(encoding="utf-8")).replace("@SCRIPT@", script)
    text = text.replace("@STEPS@", str(len(drive.steps))).replace("@TITLE@", escape(title(drive, name)))
    return text.replace("@DRIVE@", told(drive))


def told(drive: Drive) -> str:
    """The drive as the page's script reads it."""
    plot = drive.plot
    data = {
        "width": plot.width,
        "height": plot.height,
        "start": plot.start,
        "goal": plot.goal,
        "ground": "".join("#" if blocked else "." for blocked in plot.blocked),
        "lines": [step.line for step in drive.steps],
        "plans": [told_plan(plot, plan) for plan in drive.plans],
        "fewest": drive.counts()[1][1],
    }
    return json.dumps(data, separators=(",", ":"))


def told_plan(plot: Plot, plan: Plan) -> Dict[str, Union[str, int, List[int], None]]:
    """A plan in few characters: the route by its directions, cells by how far each lies after the one before it."""
    learned = sorted(plan.learned.items())
    gaps = between([cell for cell, _ in learned])
    return {
        "route": "".join(DIRECTIONS[way] for way in headings(plot, plan.route)),
        "stop": plan.stop,
        "expanded": runs(sorted(plan.expanded)),
        "learned": [number for gap, (_, value) in zip(gaps, learned) for number in (gap, value)],
    }


def between(cells: List[int]) -> List[int]:
    return [cell - before for before, cell in zip([0] + cells, cells)]


def runs(cells: List[int]) -> List[int]:
    """Cells in order as pairs: how far after the last run's end, and how many in a row."""
    pairs: List[int] = []
    end = 0
    for cell in cells:
        if pairs and cell == end:
            pairs[-1] += 1
        else:
            pairs += [cell - end, 1]
        end = cell + 1
    return pairs
