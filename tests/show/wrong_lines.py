"""A drive program that prints anything else than document 01 gives is refused with status 1, and no picture is made of it."""

import re
from pathlib import Path
from typing import Tuple

import common

ARRIVES, SHUT = common.PLOTS / "rows.txt", common.PLOTS / "shut.txt"


class WrongLines(common.Case):
    def shown(self, path: Path, text: str, status: int = 0) -> Tuple[int, str, str]:
        return common.show(path, "--drive", self.bench.printing(text, status), "--out", self.bench.room / "wrong")

    def refused(self, path: Path, text: str, words: str, status: int = 0) -> None:
        ended, printed, said = self.shown(path, text, status)
        self.assertEqual((ended, printed, said.count("\n")), (1, "", 1), said)
        self.assertIn(words, said)
        self.assertFalse((self.bench.room / "wrong").exists(), "nothing is written")

    def setUp(self) -> None:
        self.arrives, self.shut = (self.bench.printed(path.read_bytes()) for path in (ARRIVES, SHUT))

    def test_true_lines_are_shown(self) -> None:
        # the same program with nothing changed: what is refused below is refused for the change alone
        for path, text in ((ARRIVES, self.arrives), (SHUT, self.shut)):
            ended, _, said = common.show(path, "--text", "--drive", self.bench.printing(text))
            self.assertEqual((ended, said), (0, ""))

    def test_one_number_changed(self) -> None:
        kinds = [
            (ARRIVES, self.arrives, r"^blocked (\d+)$"),
            (ARRIVES, self.arrives, r"^plan (\d+) \d+$"),
            (ARRIVES, self.arrives, r"^plan \d+ (\d+)$"),
            (ARRIVES, self.arrives, r"^move (\d+)$"),
            (ARRIVES, self.arrives, r"^arrived (\d+)$"),
            (SHUT, self.shut, r"^no way (\d+)$"),
        ]
        for path, text, kind in kinds:
            found = list(re.finditer(kind, text, re.MULTILINE))
            for place in {0, len(found) // 2, len(found) - 1}:
                at = found[place]
                changed = text[:at.start(1)] + str(int(at[1]) + 1) + text[at.end(1):]
                with self.subTest(kind=kind, place=place):
                    self.refused(path, changed, f"line {text.count(chr(10), 0, at.start()) + 1}: ")

    def test_lines_lost_added_and_exchanged(self) -> None:
        lines = self.arrives.splitlines(keepends=True)
        half = len(lines) // 2
        self.refused(ARRIVES, "", "line 1: drive printed nothing")
        self.refused(ARRIVES, "".join(lines[:-1]), f"line {len(lines)}: drive printed nothing")
        self.refused(ARRIVES, "".join(lines[:half] + lines[half + 1:]), f"line {half + 1}: ")
        self.refused(ARRIVES, self.arrives + "arrived 83\n", f"line {len(lines) + 1}: ")
        self.refused(ARRIVES, self.arrives + "\n", f"line {len(lines) + 1}: ")
        self.refused(ARRIVES, self.arrives[:-1], "no line feed")
        self.refused(ARRIVES, self.arrives.replace("move", "Move", 1), "'Move")
        self.refused(ARRIVES, self.arrives.replace("\n", "\r\n"), "line 1: ")

    def test_bad_input_said_of_a_good_drawing(self) -> None:
        self.refused(ARRIVES, "bad input\n", "line 1: drive printed 'bad input'")

    def test_a_drive_over_a_bad_drawing(self) -> None:
        bad = self.bench.drawn("start-blocked.txt", b"3 2 1 2\n.#.\n...\n")
        self.refused(bad, "arrived 0\n", "line 2, column 2: the start, cell 1, is on '#'")

    def test_a_program_that_fails(self) -> None:
        self.refused(ARRIVES, self.arrives, "status 3", status=3)
        bad = self.bench.drawn("no-row.txt", b"3 2 0 2\n...\n")
        self.refused(bad, "bad input\n", "status 3", status=3)
