"""Tests of tools/name-places as a command, over a command `rt` that is made up."""

import os
import subprocess
import tempfile
import unittest
from pathlib import Path
from typing import Tuple

from common import HERE, USES, need, steps

TOOL = HERE.parents[1] / "tools" / "name-places"
LTS = "Rattle-lay-proofs/lay/Lts.antt"
# `rt check --generated=DIR` writes what the folder of the variable WRITES has; each command is for the folder of a crate
RT = """\
#!/bin/sh
case $PWD in */crates/lay) ;; *) exit 8 ;; esac
[ "$1" != fmt ] || exit 0
case "$1 $2" in "check --generated="*) ;; *) exit 9 ;; esac
cp -R "$WRITES/." "${2#--generated=}/"
echo first
echo rt: the last line
exit 1
"""


class Commands(unittest.TestCase):
    def setUp(self) -> None:
        room = tempfile.TemporaryDirectory(prefix="places-")
        self.addCleanup(room.cleanup)
        self.room = Path(room.name)
        self.proof = self.write("crates/lay/proofs/lay/Proof.antt", USES + need("returns", f"law ({steps(5)} .pre)"))
        self.write("bin/rt", RT).chmod(0o755)
        (self.room / "written").mkdir()

    def write(self, name: str, text: str) -> Path:
        path = self.room / name
        path.parent.mkdir(parents=True, exist_ok=True)
        path.write_text(text, encoding="utf-8")
        return path

    def run_tool(self, *words: str) -> Tuple[int, str]:
        """Its status, and all that it said."""
        path = f"{self.room / 'bin'}:{os.environ['PATH']}"
        variables = {**os.environ, "PATH": path, "WRITES": str(self.room / "written"), "PYTHONIOENCODING": "utf-8"}
        command = [str(TOOL), "--root", str(self.room), *words]
        ended = subprocess.run(command, env=variables, stdout=subprocess.PIPE, stderr=subprocess.STDOUT)
        return ended.returncode, ended.stdout.decode("utf-8").strip()

    def test_places_are_named(self) -> None:
        self.write(f"written/{LTS}", (HERE / "lts.txt").read_text(encoding="utf-8"))
        path = self.proof.read_text(encoding="utf-8")
        for words in (["lay"], ["lay", "lay"], ["lay", "lay/"]):
            self.proof.write_text(path, encoding="utf-8")
            self.assertEqual(self.run_tool(*words)[0], 0)
            self.assertIn("law (entry (search c) .pre)", self.proof.read_text(encoding="utf-8"))

    def test_a_function_that_is_not_there(self) -> None:
        self.assertEqual(self.run_tool("lay", "lay", "gone"), (2, "name-places: gone: lay has no proof of such a function"))

    def test_a_crate_that_is_not_there(self) -> None:
        self.assertEqual(self.run_tool("gone", "lay"), (2, "name-places: gone: no such crate"))

    def test_the_kit_wrote_nothing(self) -> None:
        self.assertEqual(self.run_tool("lay"), (1, "name-places: the kit wrote no Lts of lay: rt: the last line"))
        none = str(self.room / "written")
        self.assertEqual(self.run_tool("lay", "--generated", none), (1, f"name-places: the kit wrote no Lts of lay: {none} has none"))

    def test_the_kit_wrote_no_lts_of_one(self) -> None:
        self.write(f"written/{LTS}".replace("/lay/", "/other/"), "")
        status, said = self.run_tool("lay")
        self.assertEqual(status, 0)
        self.assertIn("crates/lay/proofs/lay/Proof.antt: left as it is: the kit wrote no Lts of it", said)

    def test_a_crate_without_proofs(self) -> None:
        self.proof.unlink()
        self.assertEqual(self.run_tool("lay"), (0, ""))
