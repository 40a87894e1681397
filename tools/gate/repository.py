"""Where the crates of the repository stand: the names in crates.txt, the folders, and the files of wrong programs."""

import os
from pathlib import Path
from typing import Iterator, List

PARTS = ("src", "specs", "proofs")  # what a check reads of a crate
MADE = ("out", "target")  # folders of what is built


def listed(root: Path) -> List[str]:
    """The crates that crates.txt lists, in its order; behind a name `staticlib` may stand."""
    lines = (line.split("#")[0] for line in (root / "crates.txt").read_text("utf-8").splitlines())
    return [name for line in lines if ":" in line for name in line.split(":")[0].split()[:1]]


def folders(root: Path) -> List[Path]:
    return sorted(path for path in (root / "crates").iterdir() if path.is_dir())


def walk(folder: Path) -> Iterator[Path]:
    """The files and folders below a folder, but for what is built."""
    for at, folders, files in os.walk(folder):
        folders[:] = sorted(name for name in folders if name not in MADE)
        yield from (Path(at, name) for name in [*folders, *sorted(files)])


def sets(crate: Path) -> List[Path]:
    """The files of wrong programs of a crate."""
    return sorted((crate / "must-fail").glob("*.edit"))
