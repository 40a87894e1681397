"""The stage `layout`: no line of a .rt or .antt file is longer than 160 characters. That `rt fmt` laid them out is for `rt ci` to say."""

from pathlib import Path
from typing import List, Optional

from . import repository
from .report import Report

LONGEST = 160


def long_lines(path: Path) -> List[int]:
    lines = path.read_text("utf-8").split("\n")
    return [number for number, line in enumerate(lines, 1) if len(line) > LONGEST]


def run(root: Path, arguments: Optional[List[str]] = None) -> int:
    report = Report()
    files = [path for path in repository.walk(root / "crates") if path.suffix in (".rt", ".antt")]
    for path in files:
        for number in long_lines(path):
            report.bad(f"{path.relative_to(root)}:{number} is longer than {LONGEST} characters")
    if files and not report.failed:
        report.ok(f"no line of {len(files)} files is longer than {LONGEST} characters")
    return report.end()
