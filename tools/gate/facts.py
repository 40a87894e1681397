"""The stage `facts`: every wrong program of every crate is refused at the facts that it names. Those of one file, a set, are tried in
one check; the logs are then below out/facts. `python3 -m gate facts [CRATE..] [--jobs N]` tries those of some crates."""

from pathlib import Path
from typing import List, Optional

from . import edits, judge, log, tries
from .report import Report

LOGS = Path("out", "facts")


def judge_set(crate: Path, one: edits.Set, faults: List[str], said: str, report: Report) -> None:
    why = judge.together(crate, one.blocks) or judge.ended(said)
    errors = [] if why else log.errors(said)
    why = why or judge.stray(one.blocks, errors)
    for block, fault in zip(one.blocks, faults):
        fault = fault or why or judge.unbroken(block, errors)
        report.judge(f"{crate.name}/{block.label} is refused at the facts that it names", fault)


def run(root: Path, arguments: Optional[List[str]] = None) -> int:
    report, given = Report(), tries.asked("facts", __doc__, root, arguments)
    ready = tries.ready(root, given, root / LOGS, report)
    wanted = [tries.Try(crate.name, one.name, judge.edits_of(one.blocks)) for crate, found in ready for one in found]
    logs = tries.tried(root, wanted, given.jobs, root / LOGS)
    for crate, found in ready:
        for one, faults in zip(found, judge.written(crate, [one.blocks for one in found])):
            judge_set(crate, one, faults, next(logs), report)
    return report.end()
