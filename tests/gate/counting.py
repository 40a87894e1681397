"""tests/runner.py: how it counts the tests of a folder."""

import subprocess
import sys
from typing import Tuple

from common import ROOT, InARoom

PASSES = """\
import unittest
class Passes(unittest.TestCase):
    def test_one(self): pass
"""
FAILS = """\
import unittest
class Fails(unittest.TestCase):
    def test_parts(self):
        for part in range(3):
            with self.subTest(part):
                self.assertEqual(1, part)
    def test_whole(self): raise ValueError
    def test_well(self): pass
"""


class Counted(InARoom):
    def ended(self, **modules: str) -> Tuple[int, str]:
        """The status and the last line, of the modules in a folder."""
        self.write({f"folder/{name}.py": text for name, text in modules.items()})
        words = f"import runner, sys; sys.exit(runner.run({str(self.room / 'folder')!r}))"
        ended = subprocess.run([sys.executable, "-B", "-c", words], cwd=ROOT / "tests", stdout=subprocess.PIPE, stderr=subprocess.STDOUT)
        return ended.returncode, ended.stdout.decode().splitlines()[-1]

    def test_modules_are_found(self):
        self.assertEqual((0, "2 passed, 0 failed"), self.ended(first=PASSES, second=PASSES, common="ROOT = 1\n"))

    def test_a_test_with_failed_parts_is_one(self):
        self.assertEqual((1, "2 passed, 2 failed"), self.ended(first=PASSES, second=FAILS))

    def test_a_module_that_cannot_be_read(self):
        self.assertEqual((1, "1 passed, 1 failed"), self.ended(first=PASSES, second="import gone\n"))

    def test_no_test(self):
        self.assertEqual((1, "0 passed, 0 failed"), self.ended(common="ROOT = 1\n"))
