"""Files with long lines: broken and formatted in rounds, until nothing changes."""

import subprocess
import sys
from pathlib import Path
from typing import Iterable, List

from places.wrap import WIDTH, wrapped

# far more than it takes
ROUNDS = 40


def wrap(root: Path, files: Iterable[Path], width: int = WIDTH) -> int:
    """Breaks the long lines of some files of a repository. 0; or the status of a formatter that refused one; or 1 where lines still
    change after the last round."""
    left = [file.resolve() for file in files]
    crates = [crate for crate in sorted((root / "crates").resolve().iterdir()) if any(crate in file.parents for file in left)]
    for _ in range(ROUNDS):
        left = [file for file in left if changed(file, width)]
        status = formatted(crates)
        if status != 0 or not left:
            return status
    print(f"{left[0]}: lines still change after {ROUNDS} rounds", file=sys.stderr)
    return 1


def changed(file: Path, width: int) -> bool:
    """Whether the file has lines that were broken now."""
    text = file.read_text(encoding="utf-8")
    new = wrapped(text, width)
    if new != text:
        file.write_text(new, encoding="utf-8")
    return new != text


def formatted(crates: Iterable[Path]) -> int:
    """0, or the status of the formatter, which works on one crate, at the first that it refused."""
    for crate in crates:
        ended = subprocess.run(["rt", "fmt"], cwd=crate, stdout=subprocess.PIPE, stderr=subprocess.STDOUT)
        if ended.returncode != 0:
            print(ended.stdout.decode("utf-8", "replace").strip(), file=sys.stderr)
            return ended.returncode
    return 0


def too_long(file: Path, width: int) -> List[str]:
    """The lines of a file that are still too long, as FILE:LINE: LENGTH."""
    lines = file.read_text(encoding="utf-8").split("\n")
    return [f"{file}:{number}: {len(line)} characters" for number, line in enumerate(lines, 1) if len(line) > width]
