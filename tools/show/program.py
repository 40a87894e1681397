"""The drive program: the proved one, built by the kit where it is missing or older than the crates, or one that is named;
and what it prints for a drawing."""

import os
import shutil
import subprocess
import sys
from pathlib import Path
from typing import List, Sequence

BUILT = Path("crates", "drive", "out", "drive")
# far more than any drive takes under an emulator
PATIENCE = 600
BAD_INPUT = "bad input\n"


class NoProgram(Exception):
    """Why there is no drive program to start, in one line."""


class Failed(Exception):
    """How the drive program ended other than it should, in one line."""


def proved(root: Path) -> List[str]:
    """The words that start the proved program, over the kit's loader and C library."""
    if not shutil.which("rt"):
        raise NoProgram("the Rattle kit's command 'rt' is not here; --drive PROGRAM names another drive program")
    kit, program = str(root / "tools" / "kit.sh"), root / BUILT
    if subprocess.run([kit, "fresh", str(program)]).returncode != 0:
        build(root)
    return said(root, kit, "words", str(program)).splitlines()


def build(root: Path) -> None:
    words = "show: building the proved drive program (rt run in crates/drive), which takes some minutes from nothing"
    print(words, file=sys.stderr, flush=True)
    # that runs it too: on no input, for which it prints that this is bad
    said(root / "crates" / "drive", "rt", "run")
    program = root / BUILT
    if not program.exists():
        raise NoProgram(f"'rt run' in crates/drive wrote no {BUILT}")
    # rt goes by what files hold, and leaves a program that is still right as it was: it is as new as the crates now
    program.touch()


def said(folder: Path, *words: str) -> str:
    """What a command says in a folder, or NoProgram where it fails."""
    ended = subprocess.run(words, cwd=folder, stdin=subprocess.DEVNULL, stdout=subprocess.PIPE, stderr=subprocess.STDOUT)
    text = ended.stdout.decode("utf-8", "replace").strip()
    if ended.returncode != 0:
        last = text.splitlines()[-1] if text else "it said nothing"
        raise NoProgram(f"'{' '.join(words)}' ended with status {ended.returncode}: {last}")
    return text


def named(program: str) -> List[str]:
    """The words that start a program named on the command line; a name without a slash is a file here too."""
    if not os.path.isfile(program) or not os.access(program, os.X_OK):
        raise NoProgram(f"{program}: no program that can be started")
    return [os.path.abspath(program)]


def printed(words: Sequence[str], drawing: bytes) -> str:
    """What the program prints for a drawing."""
    try:
        ended = subprocess.run(words, input=drawing, stdout=subprocess.PIPE, stderr=subprocess.PIPE, timeout=PATIENCE)
    except OSError as error:
        raise NoProgram(f"{words[-1]}: {error.strerror}") from None
    except subprocess.TimeoutExpired:
        raise Failed(f"drive did not end within {PATIENCE} seconds") from None
    if ended.returncode != 0:
        raise Failed(f"drive ended with status {ended.returncode}")
    return ended.stdout.decode("latin-1")
