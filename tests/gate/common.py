"""A small repository in a folder of its own for each test, and what a stage says of it."""

import contextlib
import io
import shutil
import tempfile
import unittest
from pathlib import Path
from typing import Callable, Dict, List, Tuple

ROOT = Path(__file__).resolve().parents[2]

# a crate with two functions and a definition, each with a proof
CRATE = {
    "src/lib.rt": "pub fn add(a: u8) -> u8 {\n    a + 1\n}\n\npub fn take(a: u8) -> u8 {\n    a - 1\n}\n",
    "specs/Sum.antt": "pub sum : ℕ → ℕ\nsum n = n + 1\n",
    "proofs/add/Answers.antt": "pub returns : goal.returns\nreturns = refl\n",
    "proofs/take/Answers.antt": "pub returns : goal.returns\nreturns = refl\n",
    "proofs/Laws.antt": "pub sum-is : Law\nsum-is = refl\n",
}


class InARoom(unittest.TestCase):
    def setUp(self) -> None:
        self.room = Path(tempfile.mkdtemp(prefix="gate-"))
        self.addCleanup(shutil.rmtree, self.room)
        self.write({"crates.txt": "# the crates\nsums:\n", **{f"crates/sums/{name}": text for name, text in CRATE.items()}})

    def write(self, files: Dict[str, str]) -> None:
        for name, text in files.items():
            path = self.room / name
            path.parent.mkdir(parents=True, exist_ok=True)
            path.write_text(text, "utf-8")

    def said(self, stage: Callable[..., int], *arguments: str) -> Tuple[int, List[str]]:
        """The status of a stage, and its lines."""
        out = io.StringIO()
        with contextlib.redirect_stdout(out):
            status = stage(self.room, list(arguments))
        return status, out.getvalue().splitlines()

    def assert_one(self, lines: List[str], words: str) -> None:
        """One line has the words."""
        self.assertEqual(1, len([line for line in lines if words in line]), f"'{words}' in {lines}")
