"""What the toolchain says of axioms and of what was trusted is what docs/TRUST.md says, crate by crate.

That paper has two tables. A row that begins with `WORD=VALUE` is a word that every proved line has; a row that begins with a crate,
or with the archive, names the axioms that it rests on. A crate without a row rests on none."""

import re
from pathlib import Path
from typing import Dict, FrozenSet, List, NamedTuple, Optional

from . import repository, tries
from .report import Report

PAPER = "docs/TRUST.md"
ARCHIVE = "libsalenduro.a"
ARCHIVE_LOG = "target/examples/library.log"  # of `rt lib` in crates/salenduro, as examples/run calls it
KEPT = r"^rt: (\w+) is kept: "  # how `rt ci` says that a crate was proved by an earlier run of its own
OF_THE_RUN = ("logic", "functions", "sum", "target", "cpu", "axioms")  # words that say nothing of trust, and the count of axioms
EARLIER = ("cache", "incremental", "crate-checked")  # words of a check that rests on an earlier run


class Trusted(NamedTuple):
    words: FrozenSet[str]
    axioms: Dict[str, FrozenSet[str]]


class Said(NamedTuple):
    log: str
    over_kept: bool  # it is of a check that begins with what an earlier one kept, as every check but those of `rt ci` does


def promised(paper: str) -> Trusted:
    """What the paper says."""
    words: List[str] = []
    axioms: Dict[str, FrozenSet[str]] = {}
    for line in paper.splitlines():
        row = re.match(r"\| `([^`]+)` \|([^|]*)\|", line)
        if row and "=" in row[1]:
            words.append(row[1])
        elif row:
            axioms[row[1]] = frozenset(re.findall("`([^`]+)`", row[2]))
    return Trusted(frozenset(words), axioms)


def of_crate(root: Path, name: str, ci: str) -> Said:
    """What `rt ci` said of a crate; where it took what an earlier run of its own had proved, what `rt check` says."""
    if name in re.findall(KEPT, ci, re.M):
        return Said(last(tries.checked(root / "crates" / name)), True)
    found = re.search(rf"^== {name}\n(.*?)^rt: {name} proved$", ci, re.M | re.S)
    return Said(found[1] if found else "", False)


def last(log: str) -> str:
    """The end of a log, which is of the crate itself: what stands above, to the line of another verdict, is of a crate below it."""
    lines = log.splitlines(keepends=True)
    verdicts = [number for number, line in enumerate(lines, 1) if line.startswith("logic=")]
    return "".join(lines[verdicts[-2] :]) if len(verdicts) > 1 else log


def fault(said: Said, words: FrozenSet[str], axioms: FrozenSet[str]) -> str:
    """Why the log of a proved crate says something else, or ''."""
    lines = said.log.splitlines()
    proved = [line.split() for line in lines if line.startswith("logic=proved ")]
    if len(proved) != 1:
        return f"its log has {len(proved)} lines 'logic=proved', not one"
    if said.over_kept:
        proved[0] = [word for word in proved[0] if word != "incremental=trusted"]
    found = dict(word.partition("=")[::2] for word in proved[0])
    earlier = [word for word in EARLIER if word in found]
    if earlier:
        return f"it rests on an earlier run: {earlier[0]}={found[earlier[0]]}"
    trusted = frozenset(word for word in proved[0] if word.partition("=")[0] not in OF_THE_RUN)
    if trusted != words:
        return f"its log says {' '.join(sorted(trusted))}, the paper {' '.join(sorted(words))}"
    named = [re.match(r"axioms \S+: (.*) \(\d+ of the \d+ declared\)", line) for line in lines]
    reached = frozenset(name for of in named if of for name in of[1].split(", "))
    if reached != axioms:
        return f"it rests on the axioms {', '.join(sorted(reached)) or 'none'}, by the paper {', '.join(sorted(axioms)) or 'none'}"
    if int(found.get("axioms", "0")) != len(axioms):
        return f"its log counts {found.get('axioms', '0')} axioms, and the paper names {len(axioms)}"
    return ""


def judge(name: str, said: Said, paper: Trusted, report: Report) -> None:
    why = fault(said, paper.words, paper.axioms.get(name, frozenset())) if said.log else "nothing was said of it"
    report.judge(f"what {name} rests on is what {PAPER} says", why)


def run(root: Path, arguments: Optional[List[str]] = None) -> int:
    """`trust LOG`, by the log of `rt ci`; `trust --archive`, by that of the library for hosts."""
    [log] = arguments or []
    report, paper = Report(), promised((root / PAPER).read_text("utf-8"))
    if log == "--archive":
        said = root / ARCHIVE_LOG
        judge(ARCHIVE, Said(last(said.read_text("utf-8", "replace")) if said.is_file() else "", True), paper, report)
        return report.end()
    listed, ci = repository.listed(root), Path(log).read_text("utf-8", "replace")
    why = tries.prepare(root, [], tries.lanes(), root / "out" / "trust") if re.search(KEPT, ci, re.M) else ""
    if why:
        report.bad(why)
    for name in listed:
        judge(name, of_crate(root, name, ci), paper, report)
    for name in paper.axioms:
        if name not in [*listed, ARCHIVE]:
            report.bad(f"{PAPER} has a row for {name}, which is no crate")
    return report.end()
