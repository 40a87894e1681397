"""What the tests share: the drive program under test, ./show as a command, and programs that print a given text."""

import os
import shlex
import subprocess
import unittest
from dataclasses import dataclass
from pathlib import Path
from typing import Tuple, Union

from show import plot, program, replay

ROOT = Path(__file__).resolve().parents[2]
PLOTS = ROOT / "examples" / "plots"


@dataclass(frozen=True)
class Bench:
    """The words that start the drive program under test, and a folder for the tests' files."""

    words: Tuple[str, ...]
    room: Path

    def printed(self, drawing: bytes) -> str:
        return program.printed(self.words, drawing)

    def driven(self, drawing: bytes) -> replay.Drive:
        return replay.replay(plot.read(drawing), self.printed(drawing))

    def script(self, name: str, body: str) -> str:
        path = self.room / name
        path.write_text("#!/bin/sh\n" + body)
        path.chmod(0o755)
        return str(path)

    def drive(self) -> str:
        """The program under test as one file, however many words start it."""
        return self.script("drive", "exec " + " ".join(shlex.quote(word) for word in self.words) + "\n")

    def printing(self, text: str, status: int = 0) -> str:
        """A program that prints `text` whatever it is given."""
        lines = self.drawn("lines", text.encode("latin-1"))
        return self.script("printing", f"cat >{shlex.quote(os.devnull)}\ncat {shlex.quote(str(lines))}\nexit {status}\n")

    def drawn(self, name: str, drawing: bytes) -> Path:
        """A file that holds a drawing."""
        path = self.room / name
        path.write_bytes(drawing)
        return path


class Case(unittest.TestCase):
    """A test with the bench of all; tests/show/run makes it."""

    bench: Bench


def show(*arguments: Union[str, Path]) -> Tuple[int, str, str]:
    """./show's status, what it printed, and what it said of faults."""
    ended = subprocess.run([str(ROOT / "show"), *map(str, arguments)], stdout=subprocess.PIPE, stderr=subprocess.PIPE)
    return ended.returncode, ended.stdout.decode(), ended.stderr.decode()
