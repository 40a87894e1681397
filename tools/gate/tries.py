"""Tries of wrong programs: `rt check` of a crate with edits made in it. Each is made in a copy of the repository, a lane, that lies
outside it, since rt refuses sources that no crate lists; and each begins with what `rt check` kept here of the crate as it stands."""

import argparse
import contextlib
import fcntl
import hashlib
import os
import re
import shutil
import subprocess
import tempfile
from concurrent.futures import ThreadPoolExecutor
from pathlib import Path
from queue import Queue
from typing import Dict, Iterator, List, NamedTuple, Optional, Sequence, Tuple

from . import edits, repository
from .report import Report

ROOM = 3_000_000_000  # bytes: more than a check takes


class Try(NamedTuple):
    crate: str
    name: str
    edits: Sequence[edits.Edit]


def asked(program: str, about: str, root: Path, arguments: Optional[List[str]]) -> argparse.Namespace:
    """The words CRATE.. and --jobs of a stage that tries wrong programs."""
    options = argparse.ArgumentParser(prog=program, description=about)
    options.add_argument("crates", nargs="*", metavar="CRATE")
    options.add_argument("--jobs", type=int, default=lanes(), metavar="N", help="how many are tried at a time (here %(default)s)")
    given = options.parse_args(arguments)
    unknown = [name for name in given.crates if name not in repository.listed(root)]
    if unknown or given.jobs < 1:
        options.error(f"no crate {unknown[0]}" if unknown else "--jobs is 1 or more")
    return given


def lanes() -> int:
    """How many checks to make at a time: one a processor, as many as memory holds; or as RT_JOBS has it, which `rt ci` reads too."""
    said = os.environ.get("RT_JOBS", "")
    if said.isdigit() and int(said) > 0:
        return int(said)
    free = re.search(r"MemAvailable:\s+(\d+)", Path("/proc/meminfo").read_text("utf-8"))
    held = int(free[1]) * 1024 // ROOM if free else 1
    return max(1, min(len(os.sched_getaffinity(0)), held))


def ready(root: Path, given: argparse.Namespace, kept: Path, report: Report) -> List[Tuple[Path, List[edits.Set]]]:
    """The crates that are asked for, each with its sets, once they are proved as they stand; where one is not, none."""
    why = prepare(root, given.crates, given.jobs, kept)
    if why:
        report.bad(why)
        return []
    found = [(root / "crates" / name, *edits.sets(root / "crates" / name)) for name in given.crates or repository.listed(root)]
    for _, _, unread in found:
        for why in unread:
            report.bad(why)
    return [(crate, sets) for crate, sets, _ in found]


def prepare(root: Path, crates: Sequence[str], jobs: int, kept: Path) -> str:
    """Has rt check these crates as they stand, or all where none is named; or why one is not proved. `kept` gets the log."""
    kept.mkdir(parents=True, exist_ok=True)
    said = kept / "as-it-stands.log"
    steps = [(root / "crates" / crate, ["rt", "check"]) for crate in crates] or [(root, ["rt", "all", "check", "--jobs", str(jobs)])]
    with open(said, "wb") as log:
        for folder, words in steps:
            if subprocess.run(words, cwd=folder, stdin=subprocess.DEVNULL, stdout=log, stderr=subprocess.STDOUT).returncode != 0:
                return f"`{' '.join(words)}` in {folder.name} did not end well: {said.relative_to(root)} has what it said"
    return ""


def tried(root: Path, wanted: Sequence[Try], jobs: int, kept: Path) -> Iterator[str]:
    """The log of each try, in order, so many at a time; `kept` gets them too. '' where the edits cannot be made."""
    for crate in {it.crate for it in wanted}:
        shutil.rmtree(kept / crate, ignore_errors=True)
        (kept / crate).mkdir(parents=True)
    with room(root) as folder, ThreadPoolExecutor(jobs) as pool:
        free: "Queue[Path]" = Queue()
        for lane in range(jobs):
            free.put(copied(root, folder / str(lane)))

        def one(it: Try) -> str:
            lane = free.get()
            try:
                log = tried_in(lane, root, it)
            finally:
                free.put(lane)
            (kept / it.crate / f"{it.name}.log").write_text(log, "utf-8")
            return log

        yield from pool.map(one, wanted)


@contextlib.contextmanager
def room(root: Path) -> Iterator[Path]:
    """An empty folder among the temporary files, and gone in the end. It has a name of its own for each checkout, and no other for
    each run: rt notes each folder in which it checks a crate."""
    folder = Path(tempfile.gettempdir()) / f"salenduro-tries-{hashlib.sha256(str(root).encode()).hexdigest()[:16]}"
    with open(root / "crates.txt", "rb") as one_at_a_time:
        fcntl.flock(one_at_a_time, fcntl.LOCK_EX)
        shutil.rmtree(folder, ignore_errors=True)
        folder.mkdir()
        try:
            yield folder
        finally:
            shutil.rmtree(folder, ignore_errors=True)


def copied(root: Path, lane: Path) -> Path:
    """A copy of the crates, and of the libraries that rt made of them."""
    for crate in repository.listed(root):
        for part in repository.PARTS:
            if (root / "crates" / crate / part).is_dir():
                shutil.copytree(root / "crates" / crate / part, lane / "crates" / crate / part)
        linked(root / "crates" / crate / "out" / "rlib", lane / "crates" / crate / "out" / "rlib")
    shutil.copy(root / "crates.txt", lane / "crates.txt")
    return lane


def tried_in(lane: Path, root: Path, it: Try) -> str:
    """The log of one try. The lane is then as it was before."""
    crate, begun = lane / "crates" / it.crate, Path("out", "incremental")
    try:
        texts = edits.edited(crate, it.edits)
    except edits.BadEdit:
        return ""
    before = {file: (crate / file).read_text("utf-8") for file in texts}
    linked(root / "crates" / it.crate / begun, crate / begun)
    try:
        write(crate, texts)
        return checked(crate)
    finally:
        write(crate, before)
        shutil.rmtree(crate / begun, ignore_errors=True)


def checked(crate: Path) -> str:
    """What `rt check` says in the folder of a crate."""
    ended = subprocess.run(["rt", "check", "--jobs", "1"], cwd=crate, stdin=subprocess.DEVNULL, stdout=subprocess.PIPE, stderr=subprocess.STDOUT)
    return ended.stdout.decode("utf-8", "replace")


def write(crate: Path, texts: Dict[str, str]) -> None:
    for file, text in texts.items():
        (crate / file).write_text(text, "utf-8")


def linked(folder: Path, copy: Path) -> None:
    """Copies what rt made, if it is there: libraries and proofs by a second name, since rt replaces such a file and never writes into
    one."""

    def file(one: str, other: str) -> str:
        if folder.name == "rlib" or one.endswith(".oantt"):
            with contextlib.suppress(OSError):
                os.link(one, other)
                return other
        return shutil.copy2(one, other)

    if folder.is_dir():
        shutil.copytree(folder, copy, copy_function=file)
