"""The judge of wrong programs: what it lets pass, and everything that it refuses."""

from pathlib import Path
from typing import Dict, Iterator, List
from unittest import mock

from common import InARoom
from gate import facts, tries

ADD = "# one_more\nTwo are added.\nrefused at: proofs/add/Answers.antt returns\nfile: src/lib.rt\nold: a + 1\nnew: a + 2\n"
TAKE = "# one_less\nTwo are taken.\nrefused at: proofs/take/Answers.antt returns\nfile: src/lib.rt\nold: a - 1\nnew: a - 2\n"
SUM = "# sum_of_two\nAnother sum.\nrefused at: proofs/Laws.antt sum-is\nfile: specs/Sum.antt\nold: n + 1\nnew: n + 2\n"

AT_ADD = "./proofs/add/Answers.antt:2:11: error: `returns`: the two types differ"
AT_TAKE = "./proofs/take/Answers.antt:2:11: error: `returns`: the two types differ"
AT_SUM = "./proofs/Laws.antt:2:10: error: `sum-is`: the two types differ"
NO_PROOF = "fn sums::add: no proof: expected answers in ./proofs/add/Answers.antt"
END = "logic=not-proved"


class Judged(InARoom):
    def judged(self, sets: Dict[str, str], logs: Dict[str, List[str]]) -> Dict[str, str]:
        """What the stage says of each wrong program, '' where it is well refused; and under '' what it says besides. `logs` is what
        the check of each set says."""
        for name, text in sets.items():
            self.write({f"crates/sums/must-fail/{name}.edit": text})
        verdicts = {}
        for line in self.told(logs)[:-1]:
            words = line.replace("gate: FAILED: ", "").replace("gate: ", "")
            label, told, why = words.partition(" is refused at the facts that it names")
            verdicts[label.replace("sums/", "") if told else ""] = why[2:] if told else words
        return verdicts

    def told(self, logs: Dict[str, List[str]], why: str = "") -> List[str]:
        """The lines of the stage; `why` is why the crate is not proved as it stands."""

        def tried(root: Path, wanted: List[tries.Try], jobs: int, kept: Path) -> Iterator[str]:
            return iter(["".join(f"{line}\n" for line in logs.get(it.name, [])) for it in wanted])

        with mock.patch.object(tries, "prepare", lambda *_: why), mock.patch.object(tries, "tried", tried):
            return self.said(facts.run)[1]

    def why(self, text: str, log: List[str], label: str = "one_more") -> str:
        return self.judged({"borders": text}, {"borders": log})[label]


class Refused(Judged):
    def test_a_set_of_three(self):
        told = self.judged({"borders": f"{ADD}\n{TAKE}\n{SUM}"}, {"borders": [AT_ADD, AT_TAKE, AT_SUM, END]})
        self.assertEqual({"one_more": "", "one_less": "", "sum_of_two": ""}, told)

    def test_what_waits_does_not_count(self):
        for waits in (
            "./proofs/add/Answers.antt:1:1: error: 1 declaration that depends on `returns`, which was rejected, was not checked: more",
            "fn sums::more: no proof: it calls `sums::add`, which is not proved",
        ):
            with self.subTest(waits):
                self.assertEqual("", self.why(ADD, [waits, AT_ADD, END]))

    def test_a_goal_of_a_function_that_the_check_did_not_prove(self):
        text = ADD.replace("proofs/add/Answers.antt returns", "fn sums::add returns-then-a-eq0")
        line = f"{NO_PROOF}; `search` did not prove `returns`, `returns-then-a-eq0`; it calls `sums::take`"
        self.assertEqual("", self.why(text, [line, END]))

    def test_two_facts(self):
        text = ADD.replace("returns\n", "returns\nrefused at: proofs/Laws.antt sum-is\n")
        later = [AT_ADD, "proofs/Laws.antt:1:1: error: `other`: it differs", AT_SUM, END]
        self.assertEqual("", self.why(text, later))
        self.assertIn("no error at proofs/Laws.antt sum-is", self.why(text, [AT_ADD, END]))


class NotRefused(Judged):
    def test_the_first_error_is_at_another_fact(self):
        self.assertIn("at no fact that a block names", self.why(ADD, [AT_SUM, AT_ADD, END]))
        other = "proofs/add/Answers.antt:1:1: error: `helper`: it differs"
        told = self.judged({"borders": f"{ADD}\n{TAKE}"}, {"borders": [AT_TAKE, other, AT_ADD, END]})
        self.assertIn("no error at proofs/add/Answers.antt returns, but", told["one_more"])
        self.assertEqual("", told["one_less"])

    def test_the_first_error_is_outside_the_crate(self):
        self.assertIn("at no fact", self.why(ADD, ["../../other/proofs/add/Answers.antt:2:11: error: `returns`: it differs", AT_ADD, END]))

    def test_an_error_of_names_only(self):
        for words in ("`gone` is not in scope", "the module has no `Need-gone`", "record `Else1` has no field `gone`"):
            with self.subTest(words):
                shape = f"proofs/add/Answers.antt:2:11: error: `returns`: {words}"
                self.assertIn("at no fact", self.why(ADD, [shape, END]))
                told = self.judged({"borders": f"{ADD}\n{TAKE}"}, {"borders": [AT_TAKE, shape, AT_ADD, END]})
                self.assertIn("of names or of a proof's shape", told["one_more"])

    def test_a_goal_whose_answer_names_what_is_gone(self):
        text = ADD.replace("proofs/add/Answers.antt returns", "fn sums::add returns")
        gone = "./proofs/{}/Answers.antt:2:11: error: `returns-2`: `goal.returns-2`: module `Goals` has no `returns-2` that can be named"
        line = f"{NO_PROOF}; `search` did not prove `returns`"
        for folder, wanted in (("add", "may only lack its answer"), ("added", ""), ("take", "")):
            with self.subTest(folder):
                told = self.judged({"borders": f"{TAKE}\n{text}"}, {"borders": [AT_TAKE, gone.format(folder), line, END]})
                self.assertIn(wanted, told["one_more"])
                self.assertEqual(wanted == "", told["one_more"] == "")

    def test_only_one_of_a_set_is_refused(self):
        told = self.judged({"borders": f"{ADD}\n{TAKE}"}, {"borders": [AT_ADD, END]})
        self.assertEqual({"one_more": "", "one_less": "no error at proofs/take/Answers.antt returns"}, told)

    def test_a_goal_that_only_a_callee_has(self):
        text = ADD.replace("proofs/add/Answers.antt returns", "fn sums::add sums::take")
        line = f"{NO_PROOF}; `search` did not prove `returns`; it calls `sums::take`, which is not proved"
        self.assertIn("at no fact", self.why(text, [line, END]))

    def test_a_check_without_a_verdict(self):
        self.assertEqual("its set was not refused", self.why(ADD, [AT_ADD]))

    def test_a_refusal_without_an_error(self):
        self.assertEqual("the log of its set has no error", self.why(ADD, [END]))


class BadlyWritten(Judged):
    def test_a_fact_named_twice(self):
        twice = ADD.replace("returns\n", "returns\nrefused at: proofs/add/Answers.antt returns\n")
        self.assertIn("returns 2 times", self.why(twice, [AT_ADD, END]))

    def test_a_fact_that_two_blocks_name(self):
        both = TAKE.replace("proofs/take", "proofs/add")
        told = self.judged({"borders": f"{ADD}\n{both}"}, {"borders": [AT_ADD, END]})
        for label in ("one_more", "one_less"):
            self.assertEqual("another block of its set names proofs/add/Answers.antt returns", told[label])

    def test_a_fact_that_a_block_of_another_set_names(self):
        both = TAKE.replace("proofs/take", "proofs/add")
        self.assertEqual({"one_more": "", "one_less": ""}, self.judged({"a": ADD, "b": both}, {"a": [AT_ADD, END], "b": [AT_ADD, END]}))

    def test_no_fact(self):
        self.assertEqual("it names no fact", self.why(ADD.replace("refused at: ", "refused there "), [AT_ADD, END]))

    def test_a_block_without_an_edit(self):
        for text in (ADD.partition("file:")[0], ADD.partition("old:")[0]):
            self.assertEqual("it edits nothing", self.why(text, [AT_ADD, END]))

    def test_an_edit_that_changes_nothing(self):
        self.assertIn("it changes nothing in src/lib.rt", self.why(ADD.replace("a + 2", "a + 1"), [AT_ADD, END]))
        back = ADD + "old: a + 2\nnew: a + 1\n"
        self.assertIn("it changes nothing in src/lib.rt", self.why(back, [AT_ADD, END]))

    def test_an_old_text_that_does_not_stand_once(self):
        self.assertIn("stands 0 times in src/lib.rt", self.why(ADD.replace("a + 1", "a + 9"), [AT_ADD, END]))
        self.assertIn("stands 2 times in src/lib.rt", self.why(ADD.replace("old: a + 1", "old: 1"), [AT_ADD, END]))

    def test_an_edit_of_a_proof_or_of_no_file(self):
        for file in ("proofs/Laws.antt", "src/../proofs/Laws.antt", "src/gone.rt", "/src/lib.rt"):
            with self.subTest(file):
                why = self.why(ADD.replace("file: src/lib.rt", f"file: {file}"), [AT_ADD, END])
                self.assertEqual(f"{file} is no file of the crate's src/ or specs/", why)

    def test_a_fact_in_a_file_that_the_set_edits(self):
        text = SUM.replace("proofs/Laws.antt sum-is", "specs/Sum.antt sum")
        self.assertIn("a file that its set edits", self.why(text, ["specs/Sum.antt:1:1: error: `sum`: it differs", END], "sum_of_two"))

    def test_two_blocks_that_are_the_same_edit(self):
        again = ADD.replace("one_more", "again").replace("old: a", "old:     a").replace("new: a", "new:     a")
        told = self.judged({"a": ADD, "b": again}, {"a": [AT_ADD, END], "b": [AT_ADD, END]})
        self.assertEqual({"one_more": "", "again": "it is the same edit as one_more"}, told)

    def test_a_label_of_two_blocks(self):
        told = self.judged({"a": ADD, "b": TAKE.replace("one_less", "one_more")}, {"a": [AT_ADD, END], "b": [AT_TAKE, END]})
        self.assertEqual({"one_more": "2 wrong programs of the crate have this label"}, told)


class BadlyTried(Judged):
    def test_a_crate_that_is_not_proved_as_it_stands(self):
        self.write({"crates/sums/must-fail/borders.edit": ADD})
        lines = self.told({"borders": [AT_ADD, END]}, "`rt all check` did not end well")
        self.assertEqual(["gate: FAILED: `rt all check` did not end well", "0 passed, 1 failed"], lines)

    def test_a_set_that_was_not_tried(self):
        self.assertEqual("its set was not refused", self.judged({"borders": ADD}, {})["one_more"])


class Unreadable(Judged):
    def test_lines_that_have_no_place(self):
        texts = {
            "it does not begin with a label": "words\n" + ADD,
            "is no label": ADD.replace("one_more", "One more"),
            "names no fact": ADD.replace("Answers.antt returns", "Answers.antt"),
            "'old:' has no 'new:'": ADD.partition("new:")[0],
            "'old: a + 9'": ADD.replace("new:", "old: a + 9\nnew:"),
            "'new: a + 2'": ADD.replace("old: a + 1\n", ""),
            "'old: a + 1'": ADD.replace("file: src/lib.rt\n", ""),
            "'old:a + 1'": ADD.replace("old: ", "old:"),
            "'and more'": ADD + "and more\n",
        }
        for why, text in texts.items():
            with self.subTest(why):
                self.assertIn(why, self.judged({"borders": text}, {})[""])

    def test_a_file_without_a_block(self):
        self.assertIn("it has no block", self.judged({"borders": "\n"}, {})[""])
