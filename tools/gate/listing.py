"""The stage `listing`: crates.txt and crates/ have the same crates, each has what rules wrong programs out, and no file is passed over.
Every wrong program can be tried, by its text and the crate's: its edits fit, and it names facts of its own."""

from pathlib import Path
from typing import Iterator, List, Optional

from . import edits, judge, repository
from .report import Report


def judge_crate(crate: Path, report: Report) -> None:
    if (crate / "src" / "main.rt").is_file():
        stored = crate / "stdout"
        report.judge(f"program {crate.name} has a stored output", "" if stored.is_file() and stored.stat().st_size else "there is none")
    else:
        report.judge(f"crate {crate.name} has wrong programs", "" if repository.sets(crate) else "there is none")
    wrong = crate / "must-fail"
    for path in sorted(wrong.rglob("*")):
        if path.parent != wrong or path.suffix != ".edit" or not path.is_file():
            report.bad(f"{path.relative_to(crate.parent)} is no file of wrong programs")
    if repository.sets(crate):
        report.judge(f"the wrong programs of {crate.name} can be tried", "; ".join(faults(crate)))


def faults(crate: Path) -> Iterator[str]:
    """Why wrong programs of a crate cannot be tried; no log is read."""
    found, unread = edits.sets(crate)
    yield from unread
    for one, whys in zip(found, judge.written(crate, [one.blocks for one in found])):
        told = [f"{one.name}/{block.label}: {why}" for block, why in zip(one.blocks, whys) if why]
        yield from told
        why = judge.together(crate, one.blocks)
        if why and not told:
            yield f"{one.name}: {why}"


def run(root: Path, arguments: Optional[List[str]] = None) -> int:
    report = Report()
    listed, folders = repository.listed(root), repository.folders(root)
    for crate in folders:
        report.judge(f"crate {crate.name} is listed", "" if listed.count(crate.name) == 1 else "it has no line of its own in crates.txt")
        judge_crate(crate, report)
    for name in listed:
        if name not in [crate.name for crate in folders]:
            report.bad(f"crate {name} is listed, and has no folder")
    return report.end()
