"""How wrong programs are tried: where, over what, and what is left behind. The command `rt` is made up: it refuses texts that a test
names."""

import contextlib
import io
import json
import os
import tempfile
import unittest
from pathlib import Path
from typing import Dict, List
from unittest import mock

from common import InARoom
from gate import edits, facts, tries
from wrong_programs import ADD, AT_ADD, AT_SUM, AT_TAKE, SUM, TAKE

# It notes how and where it was called. The errors are those of each text that src/ or specs/ has; what was kept is printed, and added to.
# Where a test says so, it proves all, and says what it is to say.
RT = """\
#!/usr/bin/env python3
import json, pathlib, sys
room, here = pathlib.Path({room!r}), pathlib.Path.cwd()
with open(room / "called", "a") as called:
    print(*sys.argv[1:], "in", here, file=called)
if (room / "says").is_file():
    sys.exit(print((room / "says").read_text("utf-8"), end=""))
text = "".join(path.read_text("utf-8") for part in ("src", "specs") for path in here.glob(f"**/{{part}}/*") if path.is_file())
errors = [line for wrong, lines in json.loads((room / "refused").read_text("utf-8")).items() if wrong in text for line in lines]
if (here / "out" / "incremental").is_dir():
    print("kept:", *sorted(path.name for path in (here / "out" / "incremental").iterdir()))
    (here / "out" / "incremental" / "more.oantt").write_text("")
print(*errors, "logic=not-proved" if errors else "logic=proved", sep="\\n")
sys.exit(1 if errors else 0)
"""


class WithRt(InARoom):
    def setUp(self) -> None:
        super().setUp()
        self.write({"bin/rt": RT.format(room=str(self.room))})
        (self.room / "bin" / "rt").chmod(0o755)
        (self.room / "tmp").mkdir()
        path = {"PATH": f"{self.room / 'bin'}:{os.environ['PATH']}"}
        for patch in (mock.patch.dict(os.environ, path), mock.patch.object(tempfile, "tempdir", str(self.room / "tmp"))):
            patch.start()
            self.addCleanup(patch.stop)
        self.refuses({})

    def refuses(self, wrong: Dict[str, List[str]]) -> None:
        """From now on rt refuses the texts, with these errors."""
        self.write({"refused": json.dumps(wrong)})

    def says(self, text: str) -> None:
        """From now on rt says this, and ends well."""
        self.write({"says": text})

    def called(self) -> List[str]:
        return (self.room / "called").read_text("utf-8").splitlines()


class Tries(WithRt):
    def setUp(self) -> None:
        super().setUp()
        self.refuses({"a + 2": [AT_ADD], "a - 2": [AT_TAKE], "n + 2": [AT_SUM]})

    def logs(self, *texts: str) -> List[str]:
        """The logs of these blocks, each of which is tried alone."""
        blocks = [block for text in texts for block in edits.blocks(text)]
        return list(tries.tried(self.room, [tries.Try("sums", it.label, it.edits) for it in blocks], 1, self.room / "out"))

    def test_each_is_tried_by_itself(self):
        end = "logic=not-proved\n"
        self.assertEqual([f"{AT_ADD}\n{end}", f"{AT_SUM}\n{end}", f"{AT_TAKE}\n{end}"], self.logs(ADD, SUM, TAKE))

    def test_it_is_tried_outside_the_repository(self):
        self.logs(ADD)
        [words] = self.called()
        self.assertIn(f"check --jobs 1 in {self.room}/tmp/salenduro-tries-", words)
        self.assertTrue(words.endswith("/0/crates/sums"), words)
        self.assertNotIn("a + 2", (self.room / "crates/sums/src/lib.rt").read_text("utf-8"))
        self.assertEqual([], list((self.room / "tmp").iterdir()))

    def test_each_begins_with_what_was_kept_here(self):
        kept = self.room / "crates/sums/out/incremental"
        self.write({str(kept / "some.oantt"): "", str(kept / "judged"): ""})
        for log in self.logs(ADD, TAKE):
            self.assertEqual("kept: judged some.oantt", log.splitlines()[0])
        self.assertEqual(["judged", "some.oantt"], sorted(path.name for path in kept.iterdir()))

    def test_the_libraries_that_were_built_here_are_there(self):
        stamp = self.room / "crates/sums/out/rlib/stamp"
        self.write({str(stamp): "sum"})
        lane = tries.copied(self.room, self.room / "tmp" / "0")
        self.assertEqual("sum", (lane / "crates/sums/out/rlib/stamp").read_text("utf-8"))
        self.assertEqual(stamp.stat().st_ino, (lane / "crates/sums/out/rlib/stamp").stat().st_ino)

    def test_edits_that_cannot_be_made_are_not_tried(self):
        self.assertEqual(["", f"{AT_TAKE}\nlogic=not-proved\n"], self.logs(ADD.replace("a + 1", "gone"), TAKE))

    def test_the_logs_are_kept_and_no_older_ones(self):
        self.write({"out/sums/gone.log": "", "out/other/gone.log": ""})
        [log] = self.logs(ADD)
        self.assertEqual(log, (self.room / "out/sums/one_more.log").read_text("utf-8"))
        self.assertEqual(["one_more.log"], [path.name for path in (self.room / "out/sums").iterdir()])
        self.assertTrue((self.room / "out/other/gone.log").is_file())


class Lanes(unittest.TestCase):
    def test_as_many_as_are_asked_for(self):
        for said, wanted in (("3", 3), ("12", 12)):
            with mock.patch.dict(os.environ, {"RT_JOBS": said}):
                self.assertEqual(wanted, tries.lanes())
        for said in ("", "0", "many"):
            with mock.patch.dict(os.environ, {"RT_JOBS": said}):
                self.assertTrue(1 <= tries.lanes() <= len(os.sched_getaffinity(0)))


class Facts(WithRt):
    def test_a_stage_from_its_words_to_its_count(self):
        self.write({"crates/sums/must-fail/borders.edit": f"{ADD}\n{TAKE}", "crates/sums/must-fail/other.edit": SUM})
        self.refuses({"a + 2": [AT_ADD], "a - 2": [AT_TAKE], "n + 2": [AT_TAKE]})
        status, lines = self.said(facts.run, "--jobs", "2")
        self.assertEqual((1, "2 passed, 1 failed"), (status, lines[-1]))
        self.assert_one(lines, "FAILED: sums/sum_of_two is refused at the facts that it names: the first error of its set is at no fact")
        first, *rest = self.called()
        self.assertEqual(f"all check --jobs 2 in {self.room}", first)
        self.assertEqual(2, len(rest))

    def test_some_crates(self):
        self.write({"crates/sums/must-fail/borders.edit": ADD, "crates/more/must-fail/other.edit": SUM, "crates.txt": "sums:\nmore:\n"})
        self.refuses({"a + 2": [AT_ADD]})
        self.assertEqual("1 passed, 0 failed", self.said(facts.run, "sums")[1][-1])
        self.assertEqual(f"check in {self.room}/crates/sums", self.called()[0])
        with self.assertRaises(SystemExit), contextlib.redirect_stderr(io.StringIO()):
            self.said(facts.run, "gone")

    def test_a_crate_that_is_not_proved_as_it_stands(self):
        self.write({"crates/sums/must-fail/borders.edit": ADD})
        self.refuses({"a + 1": [AT_ADD]})
        status, lines = self.said(facts.run, "sums")
        self.assertEqual((1, "0 passed, 1 failed"), (status, lines[-1]))
        self.assert_one(lines, "FAILED: `rt check` in sums did not end well: out/facts/as-it-stands.log has what it said")
        self.assertIn(AT_ADD, (self.room / "out/facts/as-it-stands.log").read_text("utf-8"))
