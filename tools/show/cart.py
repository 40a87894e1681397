"""What a cart keeps and does, from document 01's definitions: layout, report, plan and move.
Written to be compared with what the proved program prints, not to stand in for it."""

import heapq
from dataclasses import dataclass
from typing import Dict, List, Optional, Tuple

from .plot import Plot

UNSEEN, WAITING, EXPANDED = 0, 1, 2
UNSEEN_COST = 65535


@dataclass
class Plan:
    """One plan's answer. Length and stop None are "no way", and then the route is empty and nothing is learned."""

    cell: int
    length: Optional[int]
    stop: Optional[int]
    expanded: List[int]
    route: List[int]
    learned: Dict[int, int]


class Cart:
    """Document 01's head and its three buffers; the scratch of the last plan stays to be looked at."""

    def __init__(self, plot: Plot) -> None:
        self.plot = plot
        self.cell, self.goal = plot.start, plot.goal
        row, column = plot.place(plot.goal)
        places = [plot.place(cell) for cell in range(plot.cells)]
        self.ground = [0] * plot.cells
        self.learned = [abs(r - row) + abs(c - column) for r, c in places]
        self.link = [0] * plot.cells
        self.mark: List[int] = []
        self.cost: List[int] = []
        self.trail: List[int] = []

    def step(self, cell: int, direction: int) -> int:
        return cell + (0, 1, self.plot.width, -1, -self.plot.width)[direction]

    def report(self, blocked: int) -> None:
        self.ground[blocked] = 1
        self.link[blocked] = 0
        for _, beside in self.plot.steps(blocked):
            if self.link[beside] and self.step(beside, self.link[beside]) == blocked:
                self.link[beside] = 0

    def listed(self, cell: int) -> List[int]:
        """The cells from `cell` to the goal along links, learned falling by exactly 1 at each step; else none."""
        route = [cell]
        while cell != self.goal:
            direction = self.link[cell]
            after = self.step(cell, direction)
            if not direction or self.learned[after] != self.learned[cell] - 1:
                return []
            route.append(after)
            cell = after
        return route

    def move(self) -> None:
        before = self.cell
        self.cell = self.step(before, self.link[before])
        self.link[before] = 0

    def plan(self) -> Plan:
        stop, taken = self.search()
        # a cell counts once, and only where its mark says so at the end
        expanded = [cell for cell in dict.fromkeys(taken) if self.mark[cell] == EXPANDED]
        if stop is None:
            return Plan(self.cell, None, None, expanded, [], {})
        length = self.cost[stop] + self.learned[stop]
        raised = {}
        for cell in expanded:
            if self.learned[cell] != length - self.cost[cell]:
                raised[cell] = self.learned[cell] = length - self.cost[cell]
        self.link_trail(stop)
        return Plan(self.cell, length, stop, expanded, self.listed(self.cell), raised)

    def search(self) -> Tuple[Optional[int], List[int]]:
        """The cell at which the search stops, or None, and the cells that it took before, in order."""
        cells = self.plot.cells
        self.mark, self.cost, self.trail = [UNSEEN] * cells, [UNSEEN_COST] * cells, [0] * cells
        self.mark[self.cell], self.cost[self.cell] = WAITING, 0
        # smallest cost + learned, then the larger cost, then the lower number
        waiting = [(self.learned[self.cell], 0, self.cell)]
        taken: List[int] = []
        while waiting:
            _, cost, cell = heapq.heappop(waiting)
            # an entry that a cheaper one has overtaken
            if self.mark[cell] != WAITING or self.cost[cell] != -cost:
                continue
            if self.listed(cell):
                return cell, taken
            taken.append(cell)
            self.expand(cell, waiting)
        return None, taken

    def expand(self, cell: int, waiting: List[Tuple[int, int, int]]) -> None:
        self.mark[cell] = EXPANDED
        cost = self.cost[cell] + 1
        for direction, beside in self.plot.steps(cell):
            if not self.ground[beside] and cost < self.cost[beside]:
                self.mark[beside], self.cost[beside], self.trail[beside] = WAITING, cost, direction
                heapq.heappush(waiting, (cost + self.learned[beside], -cost, beside))

    def link_trail(self, cell: int) -> None:
        while cell != self.cell:
            direction = self.trail[cell]
            cell = self.step(cell, (0, 3, 4, 1, 2)[direction])
            self.link[cell] = direction
