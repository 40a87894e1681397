"""A drive replayed turn by turn beside the lines that the drive program printed: every line must agree, so that a picture
shows nothing that the program did not do."""

from collections import Counter, deque
from dataclasses import dataclass
from typing import Iterator, List, Optional, Set, Tuple, Union

from .cart import Cart, Plan
from .plot import Plot

# a plan, with the path driven before it and the cells known blocked then
Knowing = Tuple[Plan, List[int], Set[int]]


class Disagreement(Exception):
    """Where the program's lines and document 01 part, in one line."""


@dataclass
class Step:
    """One printed line: its words, the cart's cell after it, the cell that it reports, and the plan that it answers."""

    line: str
    cell: int
    reported: Optional[int] = None
    plan: Optional[Plan] = None


def turns(plot: Plot) -> Iterator[Step]:
    """Document 01's drive: look, report, end or plan, move."""
    cart, moves = Cart(plot), 0
    while True:
        for _, beside in plot.steps(cart.cell):
            if plot.blocked[beside] and not cart.ground[beside]:
                cart.report(beside)
                yield Step(f"blocked {beside}", cart.cell, reported=beside)
        if cart.cell == cart.goal:
            yield Step(f"arrived {moves}", cart.cell)
            return
        if not cart.listed(cart.cell):
            plan = cart.plan()
            if plan.length is None:
                yield Step(f"no way {len(plan.expanded)}", cart.cell, plan=plan)
                return
            yield Step(f"plan {plan.length} {len(plan.expanded)}", cart.cell, plan=plan)
        cart.move()
        moves += 1
        yield Step(f"move {cart.cell}", cart.cell)


def replay(plot: Plot, printed: str) -> "Drive":
    """The whole drive, once each line of `printed` is found to be the one that document 01 gives."""
    lines = printed.split("\n")
    steps: List[Step] = []
    ended = lines[-1] == ""
    if ended:
        lines.pop()
    for place, step in enumerate(turns(plot), 1):
        line = lines[place - 1] if place <= len(lines) else None
        if line != step.line:
            said = "nothing" if line is None else ascii(line[:40])
            raise Disagreement(f"line {place}: drive printed {said}, and document 01 gives '{step.line}'")
        steps.append(step)
    if len(lines) > len(steps):
        said = ascii(lines[len(steps)][:40])
        raise Disagreement(f"line {len(steps) + 1}: drive printed {said}, and document 01 gives nothing more")
    if not ended:
        raise Disagreement(f"line {len(steps)}: drive printed no line feed at its end")
    return Drive(plot, steps)


class Drive:
    """A drive's steps, and what a reader wants to know of it as a whole."""

    def __init__(self, plot: Plot, steps: List[Step]) -> None:
        self.plot, self.steps = plot, steps
        self.path = [plot.start] + [step.cell for step in steps if step.line.startswith("move")]
        self.known = {step.reported for step in steps if step.reported is not None}
        self.plans = [step.plan for step in steps if step.plan]
        self.arrived = self.path[-1] == plot.goal
        self.times = Counter(cell for plan in self.plans for cell in plan.expanded)

    def counts(self) -> List[Tuple[str, Union[int, str]]]:
        """Words and numbers, in the order in which every view shows them."""
        moves, shortest = len(self.path) - 1, fewest(self.plot)
        return [
            ("move" if moves == 1 else "moves", moves),
            ("fewest if all were known", "none" if shortest is None else shortest),
            ("plan" if len(self.plans) == 1 else "plans", len(self.plans)),
            ("blocked cells reported", len(self.known)),
            ("cells expanded, in all plans", sum(self.times.values())),
        ]

    def until_plans(self) -> Iterator[Knowing]:
        """Each plan, with what the cart had driven and knew then."""
        path = [self.plot.start]
        known: Set[int] = set()
        for step in self.steps:
            if step.plan:
                yield step.plan, list(path), set(known)
            elif step.reported is not None:
                known.add(step.reported)
            elif step.cell != path[-1]:
                path.append(step.cell)


def many(number: int, thing: str) -> str:
    return f"{number} {thing}" if number == 1 else f"{number} {thing}s"


def fewest(plot: Plot) -> Optional[int]:
    """The fewest steps over the true ground, or None."""
    far, waiting = {plot.start: 0}, deque([plot.start])
    while waiting:
        cell = waiting.popleft()
        for _, beside in plot.steps(cell):
            if beside not in far and not plot.blocked[beside]:
                far[beside] = far[cell] + 1
                waiting.append(beside)
    return far.get(plot.goal)
