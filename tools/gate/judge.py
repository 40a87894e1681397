"""Whether wrong programs are refused at the very facts that they name, though those of one file, a set, are tried in one check.
Each answer is the reason why not, in one line, or '' where all is well."""

from collections import Counter
from pathlib import Path
from typing import Dict, FrozenSet, List, Sequence, Tuple

from .edits import BadEdit, Block, Edit, Fact, edited
from .log import Error, refused

Made = FrozenSet[Tuple[str, str]]  # the files that a block changes, as they are then


def written(crate: Path, sets: Sequence[Sequence[Block]]) -> List[List[str]]:
    """Of every block of every set of a crate, why it is no wrong program of its own, as it is written."""
    labels = Counter(block.label for blocks in sets for block in blocks)
    first: Dict[Made, str] = {}
    return [[_written(crate, block, labels[block.label], first) or _shared(block, blocks) for block in blocks] for blocks in sets]


def _written(crate: Path, block: Block, labelled: int, first: Dict[Made, str]) -> str:
    if labelled > 1:
        return f"{labelled} wrong programs of the crate have this label"
    if not block.facts:
        return "it names no fact"
    for fact, times in Counter(block.facts).items():
        if times > 1:
            return f"it names {fact} {times} times"
    try:
        made = frozenset(edited(crate, block.edits).items())
    except BadEdit as bad:
        return str(bad)
    twin = first.setdefault(made, block.label)
    return "" if twin == block.label else f"it is the same edit as {twin}"


def _shared(block: Block, blocks: Sequence[Block]) -> str:
    """Why a block is not apart from the others of its set: one names a fact of it too, or a fact's file is edited."""
    for fact in block.facts:
        if any(fact in other.facts for other in blocks if other is not block):
            return f"another block of its set names {fact}"
        if any(fact.place == edit.file for other in blocks for edit in other.edits):
            return f"{fact} stands in a file that its set edits"
    return ""


def together(crate: Path, blocks: Sequence[Block]) -> str:
    """Why the edits of a set cannot be made one after the other."""
    try:
        edited(crate, edits_of(blocks))
    except BadEdit as bad:
        return f"its edits cannot be made together: {bad}"
    return ""


def edits_of(blocks: Sequence[Block]) -> List[Edit]:
    return [edit for block in blocks for edit in block.edits]


def ended(log: str) -> str:
    """Why the check of a set says nothing of its blocks."""
    return "" if refused(log) else "its set was not refused"


def stray(blocks: Sequence[Block], found: Sequence[Error]) -> str:
    """Why something else may have refused the set: its first error is at no fact that a block names."""
    if not found:
        return "the log of its set has no error"
    if any(found[0].refuses(fact) for block in blocks for fact in block.facts):
        return ""
    return f"the first error of its set is at no fact that a block names: {found[0].said[:200]}"


def unbroken(block: Block, found: Sequence[Error]) -> str:
    """Why a block of a set is not refused by itself, though it is well written. The first error in the file of its first fact is at
    that fact, and each other fact has an error too."""
    for fact in block.facts:
        there = [error for error in found if error.place == fact.place]
        if not there:
            return f"no error at {fact}"
        if there[0].of_shape():
            return f"the first error at {fact.place} is of names or of a proof's shape: {there[0].said[:200]}"
        among = there[:1] if fact == block.facts[0] else there
        if not any(error.refuses(fact) for error in among):
            return f"no error at {fact}, but {there[0].said[:200]}"
        why = unanswered(fact, found)
        if why:
            return why
    return ""


def unanswered(fact: Fact, found: Sequence[Error]) -> str:
    """Why a goal of a function may only lack its answer: among the answers one names what is gone, as where the goal had another name."""
    if not fact.place.startswith("fn "):
        return ""
    answers = "/".join(["proofs", *fact.place.split("::")[1:], ""])
    gone = [error for error in found if error.of_shape() and error.place.startswith(answers)]
    return f"{fact} may only lack its answer, since that names what is gone: {gone[0].said[:200]}" if gone else ""


def leaning(block: Block, blocks: Sequence[Block], found: Sequence[Error]) -> str:
    """Why a block of a set, tried alone, is not apart from the others: a fact of theirs fails too."""
    for other in blocks:
        for fact in other.facts:
            if other is not block and any(error.names_fact(fact) for error in found):
                return f"alone it breaks {fact} too, which {other.label} names"
    return ""
