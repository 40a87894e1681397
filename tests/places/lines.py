"""Tests of long lines that are broken."""

import io
import tempfile
import unittest
from contextlib import redirect_stderr
from pathlib import Path
from typing import List
from unittest import mock

from places import files, wrap
from places.terms import inside, parts


class Lines(unittest.TestCase):
    def assert_broken(self, line: str, *expected: str, width: int = 40) -> None:
        self.assertEqual(wrap.wrapped(line, width), "\n".join(expected))

    def test_a_line_that_fits_stays(self) -> None:
        self.assert_broken("law c = refl", "law c = refl")

    def test_behind_the_equals_sign_first(self) -> None:
        self.assert_broken("returns c = a-law-of-two (c .pre .passed) refl", "returns c =", "    a-law-of-two (c .pre .passed) refl")

    def test_between_arguments(self) -> None:
        self.assert_broken("    law (c .pre .passed) (c .loop .inv) (c .if1 .left)",
                           "    law (c .pre .passed) (c .loop .inv)", "        (c .if1 .left)")

    def test_before_an_arrow_and_not_before_a_closer_sign(self) -> None:
        self.assert_broken("law : (a b : ℕ) → a ≡ b → suc a ≡ suc b",
                           "law : (a b : ℕ) → a ≡ b", "    → suc a ≡ suc b", width=36)

    def test_behind_a_comma(self) -> None:
        self.assert_broken("    omega (arith, c .pre .passed .few, c .loop .inv)",
                           "    omega (arith, c .pre .passed .few,", "        c .loop .inv)")

    def test_a_list_is_broken_by_the_formatter_first(self) -> None:
        self.assert_broken("    record { first = refl; second = refl; third = a-law-of refl; fourth = refl }",
                           "    record { first = refl; second = refl;", "        third = a-law-of refl; fourth = refl }", width=44)
        self.assert_broken("    both (a-law-of refl, a-law-of refl, a-law-of refl, a-law-of refl)",
                           "    both (a-law-of refl,", "        a-law-of refl, a-law-of refl, a-law-of refl)", width=30)

    def test_a_path_is_kept_whole(self) -> None:
        self.assert_broken("    a-law (after-lay (search past) .lay .kept .1 .1 .0)",
                           "    a-law", "        (after-lay (search past) .lay .kept .1 .1 .0)", width=53)

    def test_a_path_without_any_other_place_is_broken(self) -> None:
        lines = wrap.wrapped("    entry .kept .1 .1 .1 .1 .1 .1 .1 .1 .1 .1 .0", 40).split("\n")
        self.assertTrue(all(len(line) <= 40 for line in lines), lines)

    def test_behind_each_let(self) -> None:
        self.assert_broken("    let a : A = search c in let b : B = search c in law a b",
                           "    let a : A = search c in", "        let b : B = search c in", "            law a b", width=34)

    def test_no_break_behind_a_lambda(self) -> None:
        lines = wrap.wrapped("    law (λ one two three. body of the law that is long)", 30).split("\n")
        self.assertIn("λ one two three.", lines[0] + lines[1])

    def test_names_of_a_module_go_on_lines_of_their_own(self) -> None:
        self.assert_broken("use Rattle·lay.Laws.{first, second, third}",
                           "use Rattle·lay.Laws.{first, second}", "use Rattle·lay.Laws.{third}")
        self.assert_broken("ghost use Rattle·lay.Laws.{first, second, third};",
                           "ghost use Rattle·lay.Laws.{first, second};", "ghost use Rattle·lay.Laws.{third};", width=43)

    def test_comments_stay_comments(self) -> None:
        self.assert_broken("-- one two three four five six seven eight", "-- one two three four five six seven", "-- eight")

    def test_a_string_is_left(self) -> None:
        line = '    write(b"one two three four five six seven eight nine")'
        self.assert_broken(line, line)

    def test_what_is_broken_is_not_broken_again(self) -> None:
        once = wrap.wrapped("returns c = law (c .pre .passed) (c .loop .inv) (c .if1 .left) (λ x. refl)", 40)
        self.assertEqual(wrap.wrapped(once, 40), once)


class Terms(unittest.TestCase):
    def test_inside(self) -> None:
        self.assertEqual(inside("f (a (b) c) d", 2), "a (b) c")

    def test_parts(self) -> None:
        self.assertEqual(parts("a, (b, c), d,"), ["a", " (b, c)", " d"])


class Files(unittest.TestCase):
    def setUp(self) -> None:
        room = tempfile.TemporaryDirectory(prefix="places-")
        self.addCleanup(room.cleanup)
        self.root = Path(room.name).resolve()
        self.file = self.root / "crates" / "laws" / "proofs" / "Laws.antt"
        self.file.parent.mkdir(parents=True)
        (self.root / "crates" / "other").mkdir()
        self.file.write_text("law a b = other-law a b refl refl\n", encoding="utf-8")

    def test_broken_and_formatted_until_nothing_changes(self) -> None:
        with mock.patch.object(files, "formatted", return_value=0) as formatted:
            self.assertEqual(files.wrap(self.root, [self.file], 28), 0)
        self.assertEqual(self.file.read_text(encoding="utf-8"), "law a b =\n    other-law a b refl refl\n")
        self.assertEqual(formatted.mock_calls, 2 * [mock.call([self.root / "crates" / "laws"])])

    def test_a_refusal_of_the_formatter_is_the_status(self) -> None:
        with mock.patch.object(files, "formatted", return_value=1):
            self.assertEqual(files.wrap(self.root, [self.file], 28), 1)

    def test_lines_that_change_in_every_round(self) -> None:
        def joined(crates: List[Path]) -> int:
            self.file.write_text(self.file.read_text(encoding="utf-8").replace("\n    ", " "), encoding="utf-8")
            return 0

        with mock.patch.object(files, "formatted", side_effect=joined) as formatted, redirect_stderr(io.StringIO()) as said:
            self.assertEqual(files.wrap(self.root, [self.file], 28), 1)
        self.assertEqual(formatted.call_count, files.ROUNDS)
        self.assertEqual(said.getvalue(), f"{self.file}: lines still change after {files.ROUNDS} rounds\n")

    def test_what_is_left_is_named(self) -> None:
        self.assertEqual(files.too_long(self.file, 30), [f"{self.file}:1: 33 characters"])
