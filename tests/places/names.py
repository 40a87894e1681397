"""Tests of proofs with their places named."""

import unittest

from common import PLAN, USES, need, steps
from places.naming import HEAD, rewrite

ENTRY = HEAD + "\nabbrev entry : tie.Start → tie.Start\nentry p = p\n\n"


class Names(unittest.TestCase):
    maxDiff = None

    def assert_named(self, proof: str, expected: str, kept: bool = False) -> None:
        named = rewrite(proof, PLAN, kept)
        self.assertEqual(named, expected)
        self.assertEqual(rewrite(named, PLAN, kept), named, "a second run changes something")

    def test_a_path_becomes_a_name(self) -> None:
        self.assert_named(USES + need("returns", f"law ({steps(5)} .pre) (c .mark .ensures)"),
                          USES + ENTRY + need("returns", "law (entry (search c) .pre) (c .mark .ensures)"))

    def test_a_path_of_two_steps_stays(self) -> None:
        proof = USES + need("returns", f"law ({steps(2)} .if1 .left)")
        self.assert_named(proof, proof)

    def test_a_path_of_two_steps_to_a_named_place_is_named(self) -> None:
        named = rewrite(USES + need("add-i", f"law ({steps(2)} .pre)") + "\n" + need("returns", f"law ({steps(5)} .pre)"), PLAN)
        self.assertIn(need("add-i", "law (entry (search c) .pre)"), named)

    def test_brackets_around_a_path_go(self) -> None:
        self.assert_named(USES + need("returns", f"law (({steps(5)} .pre) .passed)"),
                          USES + ENTRY + need("returns", "law (entry (search c) .pre .passed)"))

    def test_other_names_that_end_in_c_are_no_paths(self) -> None:
        proof = USES + need("returns", "law (abc .before .before .before .pre) (x.c .before .before .before .pre)")
        self.assert_named(proof, proof)

    def test_what_the_types_are_given_goes_with_them(self) -> None:
        given = " Inv-loop μ-loop"
        named = rewrite(USES + need("returns", f"{steps(5)} .pre", given), PLAN)
        self.assertIn(f"abbrev entry : tie.Start{given} → tie.Start{given}\n", named)

    def test_a_name_that_is_used_is_added(self) -> None:
        self.assertIn("abbrev after-lay : tie.After-lay → tie.After-lay\nafter-lay p = p\n",
                      rewrite(USES + need("returns", "after-lay (search c) .lay .ensures"), PLAN))

    def test_a_name_that_is_not_used_any_more_goes(self) -> None:
        named = rewrite(USES + need("returns", f"{steps(5)} .pre"), PLAN)
        bare = named.replace("entry (search c) .pre", "refl")
        self.assertEqual(rewrite(bare, PLAN), USES + need("returns", "refl"))

    def test_a_far_place_is_reached_by_steps(self) -> None:
        named = rewrite(USES + need("returns-2", f"law ({steps(8)} .pre) ({steps(5)} .if1)"), PLAN)
        self.assertIn("returns-2 c = law (entry (search past) .pre) (else1 (search past) .if1)", named)
        self.assertIn("abbrev else1-back : tie.Else1 → tie.Start\nelse1-back p = search p\n", named)
        self.assertNotIn(".before", named)

    def test_a_stop_is_made_on_a_way_that_is_too_long(self) -> None:
        named = rewrite(USES + need("returns-2", f"law ({steps(8)} .pre)"), PLAN)
        self.assertIn("abbrev after-mark-back : tie.After-mark → tie.Start\n", named)
        self.assertIn("ruleset past = (after-mark-back)\n", named)
        self.assertEqual(rewrite(named, PLAN), named)

    def test_a_rewrite_by_a_path_gets_a_let(self) -> None:
        self.assert_named(USES + need("returns", f"rw (refl, {steps(5)} .pre) law"),
                          USES + need("returns", "let entry : tie.Start = search c in rw (refl, entry .pre) law"))

    def test_lets_reach_far_places_by_steps(self) -> None:
        named = rewrite(USES + need("returns-2", f"rw (refl, {steps(8)} .pre) law"), PLAN)
        self.assertIn(HEAD + "\nabbrev after-mark-back : tie.After-mark → tie.Start\n", named)
        self.assertIn("= let entry : tie.Start = search past in rw (refl, entry .pre) law\n", named)
        self.assertEqual(rewrite(named, PLAN), named)

    def test_a_rewrite_at_a_path_gets_a_let(self) -> None:
        named = rewrite(USES + need("returns", f"rw law at ({steps(5)} .pre)"), PLAN)
        self.assertIn("= let entry : tie.Start = search c in rw law at (entry .pre)\n", named)

    def test_what_a_call_kept_is_found_by_its_type(self) -> None:
        proof = USES + need("same-length", f"{steps(3)} .lay .kept .1 .1 .1 .0")
        self.assertIn("same-length c = after-lay (search c) .lay .kept .1 .1 .1 .0\n", rewrite(proof, PLAN))
        self.assertIn("same-length c = search (after-lay (search c) .lay .kept)\n", rewrite(proof, PLAN, kept=True))

    def test_the_kept_in_a_larger_answer_stays(self) -> None:
        answer = "law (c .mark .kept .1 .1 .1 .0)"
        self.assertIn(answer, rewrite(USES + need("same-length", answer), PLAN, kept=True))

    def test_a_helper_that_takes_a_place_is_named_too(self) -> None:
        helper = "known : (c : tie.After-mark) → {} .args ≡ 0\nknown c = law ({} .pre)\n"
        self.assert_named(USES + helper.format(steps(5), steps(5)),
                          USES + ENTRY + helper.format("entry (search c)", "entry (search c)"))

    def test_a_declaration_behind_the_block_stays(self) -> None:
        own = "abbrev twice : ℕ → ℕ\ntwice n = n + n\n\n"
        proof = USES + ENTRY + own + need("returns", "entry (search c) .pre")
        self.assertEqual(rewrite(proof, PLAN), USES + own + ENTRY + need("returns", "entry (search c) .pre"))
