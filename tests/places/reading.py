"""Tests of what is read from the module `Lts`."""

import unittest

from common import PLAN
from places import plan


class Reading(unittest.TestCase):
    def test_each_place_has_the_one_before_it(self) -> None:
        self.assertEqual(PLAN.way("Else1"), ["Else1", "After-lay", "After-slice-known", "Start"])

    def test_a_need_stands_at_the_place_of_its_c(self) -> None:
        self.assertEqual(PLAN.needs, {"add-i": "After-lay", "same-length": "After-mark", "returns": "After-mark", "returns-2": "After-heap"})

    def test_a_call_weighs_more_than_a_step(self) -> None:
        self.assertLess(PLAN.weight(["After-slice-known"]), PLAN.weight(["After-lay"]))

    def test_its_own_record_is_no_place(self) -> None:
        self.assertNotIn("Else1·own", PLAN)
        self.assertIn("Start", PLAN)

    def test_names(self) -> None:
        self.assertEqual([plan.name_of(place) for place in ("Start", "After-lay", "Else1")], ["entry", "after-lay", "else1"])
