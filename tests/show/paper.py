"""The replay is document 01's: its example, P1 to P9 as data, and the drive program's lines on random plots."""

import random

import common
import drawings
from drawings import EXAMPLE, EXAMPLE_LINES
from show import cart, plot, replay


def fresh(width: int, height: int, start: int, goal: int) -> cart.Cart:
    return cart.Cart(plot.Plot(width, height, start, goal, (False,) * (width * height)))


def lines(drawing: bytes) -> str:
    return "".join(step.line + "\n" for step in replay.turns(plot.read(drawing)))


class Examples(common.Case):
    def test_the_drive_of_document_01(self) -> None:
        self.assertEqual(lines(EXAMPLE), EXAMPLE_LINES)
        self.assertEqual(self.bench.printed(EXAMPLE), EXAMPLE_LINES)

    def test_p1(self) -> None:
        self.assertEqual(fresh(1, 1, 0, 0).learned, [0])
        self.assertEqual(lines(b"1 1 0 0\n.\n"), "arrived 0\n")

    def test_p2_p3_p4(self) -> None:
        one = fresh(3, 1, 0, 2)
        plan = one.plan()
        self.assertEqual((plan.length, len(plan.expanded), plan.route), (2, 2, [0, 1, 2]))
        self.assertEqual((one.learned, one.link), ([2, 1, 0], [1, 1, 0]))
        self.assertEqual((one.mark, one.cost, one.trail), ([2, 2, 1], [0, 1, 2], [0, 1, 1]))
        again = one.plan()
        self.assertEqual((again.length, again.expanded), (2, []))
        self.assertEqual((one.mark, one.cost), ([1, 0, 0], [0, 65535, 65535]))
        one.move()
        self.assertEqual((one.cell, one.link), (1, [0, 1, 0]))

    def test_p5_p6(self) -> None:
        one = fresh(3, 1, 0, 2)
        one.report(1)
        plan = one.plan()
        self.assertEqual((plan.length, len(plan.expanded), plan.route), (None, 1, []))
        self.assertEqual((one.learned, one.mark), ([2, 1, 0], [2, 0, 0]))
        one = fresh(3, 1, 0, 2)
        one.plan()
        one.report(1)
        self.assertEqual((one.link, one.listed(0)), ([0, 0, 0], []))

    def test_p7(self) -> None:
        one = fresh(3, 2, 0, 2)
        one.report(1)
        plan = one.plan()
        self.assertEqual((one.learned, one.link), ([4, 1, 0, 3, 2, 1], [2, 0, 0, 1, 1, 4]))
        self.assertEqual((plan.route, plan.learned), ([0, 3, 4, 5, 2], {0: 4}))

    def test_p8(self) -> None:
        one = fresh(2, 2, 0, 3)
        plan = one.plan()
        self.assertEqual((plan.length, len(plan.expanded)), (2, 2))
        self.assertEqual((one.link, one.mark), ([1, 2, 0, 0], [2, 2, 1, 1]))

    def test_p9(self) -> None:
        one = fresh(3, 2, 3, 2)
        plan = one.plan()
        self.assertEqual((plan.length, len(plan.expanded), one.link), (3, 3, [1, 1, 0, 4, 0, 0]))


class Drives(common.Case):
    def test_random_plots(self) -> None:
        chance, ways = random.Random(20261115), {"arrived": 0, "no": 0}
        for drawing in drawings.random_ones(chance, 240):
            said = self.bench.printed(drawing)
            self.assertEqual(lines(drawing), said, drawing.decode())
            ways[said.splitlines()[-1].split()[0]] += 1
        self.assertGreater(min(ways.values()), 20, "drives of both endings are wanted")

    def test_sample_plots(self) -> None:
        for path in sorted(common.PLOTS.glob("*.txt")):
            with self.subTest(path.name):
                self.assertEqual(lines(path.read_bytes()), self.bench.printed(path.read_bytes()))

    def test_an_old_link_that_no_longer_leads_down(self) -> None:
        # a maze in which a search meets links that lead to the goal while the learned values on them do not fall by 1
        drawing = (common.ROOT / "tests" / "show" / "old-link.txt").read_bytes()
        self.assertEqual(lines(drawing), self.bench.printed(drawing))

    def test_the_samples_learn(self) -> None:
        for name in ("rows", "nursery"):
            drawing = (common.PLOTS / f"{name}.txt").read_bytes()
            drive = self.bench.driven(drawing)
            self.assertTrue(drive.arrived)
            self.assertGreater(len(drive.path), replay.fewest(drive.plot) + 1, "it turns back somewhere")
            self.assertTrue(any(plan.stop != drive.plot.goal for plan in drive.plans), "an older route is met")
