"""`.ci/run`: which stages it runs, and how it counts."""

import os
import re
import shutil
import subprocess
from typing import List, Tuple

from common import ROOT, InARoom

STAGES = ["layout", "listing", "proofs", "facts", "papers", "tools", "examples", "second", "bindings", "drive", "show"]


class Stages(InARoom):
    def setUp(self) -> None:
        super().setUp()
        (self.room / ".ci").mkdir()
        shutil.copy(ROOT / ".ci" / "run", self.room / ".ci" / "run")

    def script(self, name: str, body: str) -> None:
        self.write({name: f"#!/bin/sh\n{body}\n"})
        (self.room / name).chmod(0o755)

    def gate(self, *arguments: str, **variables: str) -> Tuple[int, List[str]]:
        """The status and the lines; a command in bin/ goes before any other of its name."""
        words = [str(self.room / ".ci" / "run"), *arguments]
        variables = {**os.environ, "PATH": f"{self.room / 'bin'}:{os.environ['PATH']}", **variables}
        ended = subprocess.run(words, env=variables, stdout=subprocess.PIPE, stderr=subprocess.STDOUT)
        return ended.returncode, ended.stdout.decode().splitlines()

    def ended(self, *arguments: str) -> Tuple[int, str]:
        """The status and the last line."""
        status, lines = self.gate(*arguments)
        return status, lines[-1]

    def helped(self) -> List[str]:
        """The stages that --help names."""
        status, lines = self.gate("--help")
        self.assertEqual(0, status)
        return [line.split()[0] for line in lines if re.match("  [a-z]", line)]

    def test_help_names_every_stage(self):
        self.assertEqual(STAGES + ["each"], self.helped())

    def test_the_readme_names_every_stage(self):
        section = (ROOT / "README.md").read_text("utf-8").partition("\n## Changing it\n")[2].partition("\n## ")[0]
        rows = re.findall(r"^\| `(\w+)` \|", section, re.M)
        beside = re.findall(r"`\.ci/run (\w+)`", section)
        self.assertEqual(self.helped(), rows + [name for name in beside if name not in rows])

    def test_a_stage_that_is_not_there(self):
        for words in (["nope"], ["show", "nope"], ["rm"], [""]):
            with self.subTest(words):
                self.assertEqual(2, self.gate(*words)[0])

    def test_a_suite_is_one_thing(self):
        for body, wanted in {
            "echo 3 passed, 0 failed": (0, "1 passed, 0 failed"),
            "echo 3 passed, 1 failed; exit 1": (1, "0 passed, 1 failed"),
            "echo 3 passed, 1 failed": (1, "0 passed, 1 failed"),
            "echo 3 passed, 0 failed; exit 1": (1, "0 passed, 1 failed"),
            "echo 0 passed, 0 failed": (1, "0 passed, 1 failed"),
            "echo done": (1, "0 passed, 1 failed"),
            "echo 3 passed, 0 failed; echo more": (1, "0 passed, 1 failed"),
            "echo 3 passed, 0 failed and more": (1, "0 passed, 1 failed"),
        }.items():
            with self.subTest(body):
                self.script("tests/show/run", body)
                self.assertEqual(wanted, self.ended("show"))

    def test_what_the_gates_tools_count_is_added_up(self):
        for body, wanted in {
            "print('3 passed, 0 failed')": (0, "6 passed, 0 failed"),
            "print('3 passed, 2 failed'); raise SystemExit(1)": (1, "6 passed, 4 failed"),
            "print('3 passed, 0 failed'); raise SystemExit(1)": (1, "6 passed, 2 failed"),
            "print('done')": (1, "0 passed, 2 failed"),
        }.items():
            with self.subTest(body):
                self.write({"tools/gate/__main__.py": body})
                self.assertEqual(wanted, self.ended("listing", "papers"))

    def test_what_is_skipped_counts_in_bindings_alone(self):
        said = "echo 3 passed, 0 failed, 2 skipped"
        for machine, stage, script, wanted in [
            ("aarch64", "bindings", "bindings/rust/run", (0, "1 passed, 0 failed")),
            ("x86_64", "bindings", "bindings/rust/run", (1, "0 passed, 1 failed")),
            ("aarch64", "show", "tests/show/run", (1, "0 passed, 1 failed")),
            ("aarch64", "proofs", "bin/rt", (1, "2 passed, 2 failed")),
        ]:
            with self.subTest(machine=machine, stage=stage):
                self.script("bin/uname", f"echo {machine}")
                self.script(script, said)
                self.tools_pass()
                self.assertEqual(wanted, self.ended(stage))
        self.script("tests/show/run", said)
        self.assertEqual((1, "1 passed, 1 failed"), self.ended("bindings", "show"))

    def tools_pass(self) -> None:
        """The gate's own tools count one thing that holds."""
        self.write({"tools/gate/__main__.py": "print('1 passed, 0 failed')"})

    def test_proofs(self):
        self.tools_pass()
        well = "echo 'rt: ok; handles allowed: none; must-fail edits: 4 refused, 1 of them only by a limit; every proof'"
        for body, wanted in {
            f"{well}; echo 5 passed, 0 failed": (0, "8 passed, 0 failed"),
            f"{well}; echo 5 passed, 1 failed; exit 1": (1, "8 passed, 1 failed"),
            f"{well}; echo 5 passed, 0 failed; exit 2": (1, "8 passed, 1 failed"),
            f"{well.replace('; every', ', 1 bad; every')}; echo 5 passed, 0 failed": (1, "7 passed, 1 failed"),
            "echo 5 passed, 0 failed": (1, "7 passed, 1 failed"),
            "echo rt: bad crates.txt; exit 2": (1, "2 passed, 2 failed"),
            f"{well}; echo logic=proved cache=trusted; echo 5 passed, 0 failed": (1, "7 passed, 1 failed"),
            f"{well}; echo logic=proved incremental=trusted; echo 5 passed, 0 failed": (1, "7 passed, 1 failed"),
        }.items():
            with self.subTest(body):
                self.script("bin/rt", f'[ "$*" = ci ] || exit 9\n[ ! -e out ] || exit 8\n{body}')
                self.assertEqual(wanted, self.ended("proofs"))
                self.assertIn("passed" if "passed" in body else "rt: bad", (self.room / "out/ci.log").read_text("utf-8"))
                shutil.rmtree(self.room / "out")

    def test_what_rt_ci_says_is_handed_on(self):
        self.write({"tools/gate/__main__.py": "import sys; assert sys.argv[1:] == ['trust', 'out/ci.log']; print('1 passed, 0 failed')"})
        self.script("bin/rt", "echo 'rt: ok; more'; echo 5 passed, 0 failed")
        self.assertEqual((0, "8 passed, 0 failed"), self.ended("proofs"))

    def test_no_variable_chooses_another_library(self):
        names = ["SALENDURO_ARCHIVE", "SALENDURO_INCLUDE", "SALENDURO_MORE"]
        self.script("tests/show/run", f"echo {' '.join(f'${{{name}-none}}' for name in names)}; echo 1 passed, 0 failed")
        lines = self.gate("show", **{name: "other" for name in names})[1]
        self.assertIn("none none none", lines)

    def test_the_second_planners_drive_is_built_first(self):
        self.script("tests/second/run", "mkdir -p target/second; echo >target/second/drive; echo 1 passed, 0 failed")
        self.script("tests/drive/run", "test -e target/second/drive && echo 5 passed, 0 failed")
        self.assertEqual((0, "2 passed, 0 failed"), self.ended("drive"))
        self.assertEqual((0, "1 passed, 0 failed"), self.ended("drive"))
