"""What the toolchain says of axioms and of what was trusted, beside docs/TRUST.md."""

from typing import List, Tuple

from common import ROOT
from gate import trust
from trying import WithRt

PAPER = """\
| Word | What it says |
|---|---|
| `native=nat` | words |
| `logic-built=trusted` | words of `another` |

| Crate | Axioms |
|---|---|
| `show` | `libc::read`, `os::c::rattle_errno` |
"""
PROVED = "fn sums::add: proved\nlogic=proved functions=3 sum=064d native=nat logic-built=trusted\n"
AXIOMS = """\
axioms libc: libc::read (1 of the 50 declared)
axioms os: os::c::rattle_errno (1 of the 22 declared)
axioms std: none reached of the 2 declared
"""
PROGRAM = AXIOMS + PROVED.replace(" sum", " axioms=2 target=x86_64-unknown-linux-gnu cpu=x86-64-v2 sum")


def section(name: str, log: str) -> str:
    """How `rt ci` tells of a crate that it proves."""
    return f"== {name}\n{log}rt: {name} proved\n"


class Trusted(WithRt):
    def setUp(self) -> None:
        super().setUp()
        self.write({"docs/TRUST.md": PAPER, "crates.txt": "sums:\nshow:\n"})

    def judged(self, **logs: str) -> Tuple[int, List[str]]:
        """The stage, where `rt ci` proved the crates and said this of them."""
        found = {"sums": PROVED, "show": PROGRAM, **logs}
        self.write({"ci": "".join(section(name, log) for name, log in found.items()) + "2 passed, 0 failed\n"})
        return self.said(trust.run, str(self.room / "ci"))

    def test_as_the_paper_says(self):
        status, lines = self.judged()
        self.assertEqual((0, "2 passed, 0 failed"), (status, lines[-1]))

    def test_any_change(self):
        changes = {
            "its log says logic-built=trusted native=nat,char": ("sums", PROVED.replace("nat ", "nat,char ")),
            "its log says native=nat, the paper": ("sums", PROVED.replace(" logic-built=trusted", "")),
            "pinned=no": ("sums", PROVED.replace("native", "pinned=no native")),
            "foreign=sums::write": ("sums", PROVED.replace("native", "foreign=sums::write native")),
            "it rests on an earlier run: cache=trusted": ("sums", PROVED.replace("native", "cache=trusted native")),
            "it rests on an earlier run: incremental=trusted": ("sums", PROVED.strip() + " incremental=trusted\n"),
            "it rests on the axioms libc::read, os::c::rattle_errno, by the paper none": ("sums", PROGRAM),
            "it rests on the axioms none": ("show", PROVED),
            "it rests on the axioms libc::open, os::c::rattle_errno": ("show", PROGRAM.replace("read", "open")),
            "its log counts 3 axioms, and the paper names 2": ("show", PROGRAM.replace("axioms=2", "axioms=3")),
            "its log has 0 lines": ("sums", "logic=not-proved\n"),
            "its log has 2 lines": ("sums", PROVED + PROVED),
        }
        for words, (crate, log) in changes.items():
            with self.subTest(words):
                status, lines = self.judged(**{crate: log})
                self.assertEqual((1, "1 passed, 1 failed"), (status, lines[-1]))
                self.assert_one(lines, words)

    def kept(self, said: str) -> Tuple[int, List[str]]:
        """The stage, where `rt ci` took a proof of `sums` that it had kept, and `rt check` says this of it."""
        self.says(f"logic=proved functions=1 of=another\n{said}")
        self.write({"ci": "rt: sums is kept: an earlier run on this machine proved the same files\n" + section("show", PROGRAM)})
        return self.said(trust.run, str(self.room / "ci"))

    def test_what_rt_ci_kept_is_checked_again(self):
        status, lines = self.kept(PROVED.strip() + " incremental=trusted\n")
        self.assert_one(lines, "gate: what sums rests on is what docs/TRUST.md says")
        self.assertIn(f"check --jobs 1 in {self.room}/crates/sums", self.called())
        for said in (PROVED.replace("native", "foreign=sums::write native"), PROVED.strip() + " cache=trusted\n", PROGRAM):
            with self.subTest(said):
                self.assert_one(self.kept(said)[1], "FAILED: what sums rests on")

    def test_nothing_said_and_no_crate(self):
        self.write({"crates.txt": "sums:\nmore:\n"})
        lines = self.judged()[1]
        self.assert_one(lines, "more rests on is what docs/TRUST.md says: nothing was said of it")
        self.assert_one(lines, "docs/TRUST.md has a row for show, which is no crate")

    def test_the_archive(self):
        for said, wanted in ((f"{PROVED}{PROVED.strip()} incremental=trusted\n", 0), (PROGRAM, 1), ("", 1)):
            with self.subTest(said):
                self.write({"target/examples/library.log": said})
                self.assertEqual(wanted, self.said(trust.run, "--archive")[0])

    def test_the_paper_of_this_repository(self):
        paper = trust.promised((ROOT / trust.PAPER).read_text("utf-8"))
        self.assertIn("logic-built=trusted", paper.words)
        self.assertEqual(frozenset(), paper.axioms[trust.ARCHIVE])
