"""The stages `listing` and `layout`."""

import shutil

from common import InARoom
from gate import layout, listing
from wrong_programs import ADD, TAKE

WRONG = {"crates/sums/must-fail/borders.edit": ADD}


class Listing(InARoom):
    def test_a_library_and_a_program(self):
        self.write({**WRONG, "crates.txt": "sums staticlib:\nshow: # a program\n", "crates/show/src/main.rt": "", "crates/show/stdout": "1\n"})
        self.assertEqual((0, "5 passed, 0 failed"), (self.said(listing.run)[0], self.said(listing.run)[1][-1]))

    def test_what_is_missing(self):
        faults = {
            "crate sums has wrong programs: there is none": {},
            "crate more is listed: it has no line of its own": {**WRONG, "crates/more/src/lib.rt": ""},
            "crate gone is listed, and has no folder": {**WRONG, "crates.txt": "sums:\ngone:\n"},
            "sums/must-fail/notes.txt is no file of wrong programs": {**WRONG, "crates/sums/must-fail/notes.txt": ""},
            "sums/must-fail/more/1.edit is no file": {**WRONG, "crates/sums/must-fail/more/1.edit": ""},
            "program show has a stored output: there is none": {**WRONG, "crates/show/src/main.rt": "", "crates/show/stdout": ""},
        }
        for words, files in faults.items():
            with self.subTest(words):
                self.write(files)
                status, lines = self.said(listing.run)
                self.assertEqual(1, status)
                self.assert_one(lines, words)
                self.doCleanups()
                self.setUp()

    def cannot_be_tried(self, **sets: str) -> str:
        """Why the wrong programs of the crate cannot be tried; no log is there."""
        self.write({f"crates/sums/must-fail/{name}.edit": text for name, text in sets.items()})
        status, lines = self.said(listing.run)
        [told] = [line for line in lines if "the wrong programs of sums can be tried" in line]
        self.assertEqual((1, "2 passed, 1 failed") if "FAILED" in told else (0, "3 passed, 0 failed"), (status, lines[-1]))
        return told.partition("can be tried")[2][2:]

    def test_wrong_programs_that_can_be_tried(self):
        self.assertEqual("", self.cannot_be_tried(borders=f"{ADD}\n{TAKE}"))

    def test_an_edit_that_does_not_apply(self):
        for old, times in (("a + 9", 0), ("1", 2)):
            with self.subTest(old):
                why = self.cannot_be_tried(borders=ADD.replace("old: a + 1", f"old: {old}"), other=TAKE)
                self.assertEqual(f"borders/one_more: '{old}' stands {times} times in src/lib.rt, not once", why)

    def test_all_that_cannot_be_tried_is_named(self):
        why = self.cannot_be_tried(borders=ADD.replace("a + 1", "gone"), last="words\n", other=TAKE.replace("refused at: ", ""))
        self.assertIn("sums/must-fail/last.edit: it does not begin with a label; borders/one_more: 'gone' stands 0 times", why)
        self.assertTrue(why.endswith("; other/one_less: it names no fact"), why)

    def test_a_file_without_a_block(self):
        self.assertEqual("sums/must-fail/last.edit: it has no block", self.cannot_be_tried(borders=ADD, last="\n"))

    def test_edits_that_do_not_apply_one_after_the_other(self):
        second = TAKE.replace("old: a - 1", "old: a + 1").replace("new: a - 2", "new: a + 3")
        self.assertEqual("", self.cannot_be_tried(borders=ADD, other=second))
        (self.room / "crates/sums/must-fail/other.edit").unlink()
        why = self.cannot_be_tried(borders=f"{ADD}\n{second}")
        self.assertEqual("borders: its edits cannot be made together: 'a + 1' stands 0 times in src/lib.rt, not once", why)

    def test_a_fact_that_two_of_a_set_name(self):
        why = self.cannot_be_tried(borders=f"{ADD}\n{TAKE.replace('proofs/take', 'proofs/add')}")
        self.assertIn("borders/one_less: another block of its set names proofs/add/Answers.antt returns", why)


class Layout(InARoom):
    def test_characters_are_counted_and_not_bytes(self):
        self.write({"crates/sums/specs/Long.antt": "-- " + "ℕ" * 157 + "\n"})
        self.assertEqual(["gate: no line of 6 files is longer than 160 characters", "1 passed, 0 failed"], self.said(layout.run)[1])

    def test_a_long_line(self):
        for name in ("src/long.rt", "proofs/deep/er/Long.antt"):
            self.write({f"crates/sums/{name}": "\n" + "x" * 161 + "\n"})
        status, lines = self.said(layout.run)
        self.assertEqual((1, "0 passed, 2 failed"), (status, lines[-1]))
        self.assert_one(lines, "crates/sums/proofs/deep/er/Long.antt:2 is longer than 160 characters")

    def test_what_rt_keeps_is_not_looked_at(self):
        self.write({"crates/sums/out/rlib/sums.rlib/lang/src/lib.rt": "x" * 161 + "\n"})
        self.assertEqual((0, "1 passed, 0 failed"), (self.said(layout.run)[0], self.said(layout.run)[1][-1]))

    def test_nothing_to_look_at(self):
        shutil.rmtree(self.room / "crates")
        self.assertEqual((1, ["0 passed, 0 failed"]), self.said(layout.run))
