"""A drawing that is not in document 01's form, or cannot be read, is refused with status 2 and one line that says where."""

from pathlib import Path

import common
import drawings
from show import plot

BAD = tuple((drawing, words) for _, drawing, words in drawings.bad())


class Bad(common.Case):
    def refused(self, path: Path, words: str) -> None:
        status, printed, said = common.show(path, "--drive", self.bench.drive(), "--out", self.bench.room / "bad")
        self.assertEqual((status, printed), (2, ""), said)
        self.assertEqual(said.count("\n"), 1, said)
        self.assertTrue(said.startswith(f"show: {path}: "), said)
        self.assertIn(words, said)
        self.assertFalse((self.bench.room / "bad").exists(), "nothing is written")

    def test_where_a_drawing_is_bad(self) -> None:
        for drawing, words in BAD:
            with self.subTest(words):
                with self.assertRaises(plot.BadDrawing) as bad:
                    plot.read(plot.load(self.bench.drawn("bad.txt", drawing)))
                self.assertIn(words, str(bad.exception))
                self.assertNotIn("\n", str(bad.exception))

    def test_the_drive_program_says_bad_input(self) -> None:
        for drawing, words in BAD:
            with self.subTest(words):
                self.assertEqual(self.bench.printed(drawing), "bad input\n")

    def test_the_command_says_it(self) -> None:
        for drawing, words in BAD[::5]:
            with self.subTest(words):
                self.refused(self.bench.drawn("bad.txt", drawing), words)

    def test_no_such_file(self) -> None:
        self.refused(self.bench.room / "nowhere.txt", "No such file")

    def test_a_folder(self) -> None:
        self.refused(self.bench.room, "Is a directory")

    def test_nowhere_to_write(self) -> None:
        taken = self.bench.drawn("taken", b"")
        status, printed, said = common.show("--drive", self.bench.drive(), "--out", taken)
        self.assertEqual((status, printed, said.count("\n")), (2, "", 1), said)

    def test_no_program(self) -> None:
        status, printed, said = common.show("--drive", self.bench.room / "no-program")
        self.assertEqual((status, printed, said.count("\n")), (2, "", 1), said)
