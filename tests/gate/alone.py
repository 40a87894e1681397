"""The stage `each`, over a command `rt` that refuses what a test says."""

from typing import List, Tuple

from gate import each
from trying import WithRt
from wrong_programs import ADD, AT_ADD, AT_TAKE, TAKE


class Alone(WithRt):
    def setUp(self) -> None:
        super().setUp()
        self.write({"crates/sums/must-fail/borders.edit": f"{ADD}\n{TAKE}"})

    def tried(self, more: List[str], less: List[str]) -> Tuple[int, List[str]]:
        """What the stage says, where these are the errors of the one wrong program and of the other."""
        self.refuses({"a + 2": more, "a - 2": less})
        return self.said(each.run, "sums", "--jobs", "1")

    def test_none_leans(self):
        status, lines = self.tried([AT_ADD], [AT_TAKE])
        self.assertEqual((0, "2 passed, 0 failed"), (status, lines[-1]))
        self.assertIn(AT_TAKE, (self.room / "out/each/sums/one_less.log").read_text("utf-8"))

    def test_one_that_alone_is_not_refused(self):
        status, lines = self.tried([AT_ADD], [])
        self.assertEqual((1, "1 passed, 1 failed"), (status, lines[-1]))
        self.assert_one(lines, "FAILED: sums/one_less alone is refused at its facts, and breaks no other's of borders: its set was not")

    def test_one_that_breaks_another_ones_fact(self):
        status, lines = self.tried([AT_ADD, AT_TAKE], [AT_TAKE])
        self.assertEqual((1, "1 passed, 1 failed"), (status, lines[-1]))
        self.assert_one(lines, "alone it breaks proofs/take/Answers.antt returns too, which one_less names")

    def test_a_second_time(self):
        for _ in range(2):
            self.assertEqual(0, self.tried([AT_ADD], [AT_TAKE])[0])
