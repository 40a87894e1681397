"""The stage `each`, outside the gate: every wrong program is tried alone. It is refused at the facts that it names, and no fact that
another of its set names fails, so none leans on another. `each [CRATE..] [--jobs N]`; the logs are then below out/each."""

from pathlib import Path
from typing import Iterator, List, Optional

from . import edits, judge, log, tries
from .report import Report

LOGS = Path("out", "each")


def judge_alone(crate: Path, one: edits.Set, faults: List[str], logs: Iterator[str], report: Report) -> None:
    for block, fault in zip(one.blocks, faults):
        said = next(logs)
        why = fault or judge.ended(said)
        if not why:
            errors = log.errors(said)
            why = judge.stray([block], errors) or judge.unbroken(block, errors) or judge.leaning(block, one.blocks, errors)
        report.judge(f"{crate.name}/{block.label} alone is refused at its facts, and breaks no other's of {one.name}", why)


def run(root: Path, arguments: Optional[List[str]] = None) -> int:
    report, given = Report(), tries.asked(".ci/run each", __doc__, root, arguments)
    ready = tries.ready(root, given, root / LOGS, report)
    blocks = [(crate, block) for crate, found in ready for one in found for block in one.blocks]
    logs = tries.tried(root, [tries.Try(crate.name, block.label, block.edits) for crate, block in blocks], given.jobs, root / LOGS)
    for crate, found in ready:
        for one, faults in zip(found, judge.written(crate, [one.blocks for one in found])):
            judge_alone(crate, one, faults, logs, report)
    return report.end()
