"""The names that a source file declares: of .antt its definitions, laws, types, fields and cases, of .rt its functions, types,
constants, fields and cases."""

import re
from pathlib import Path
from typing import Set

ANTT_KIND = re.compile(r"\s*(?:(?:pub|abbrev|unfoldable) )*(?:record|data|theorem|module) (\S+)")
ANTT_NAMES = re.compile(r"\s*(?:(?:pub|abbrev|unfoldable|theorem) )*((?:[^\s(){}:;,.`]+ )+): ")
RT_ITEM = re.compile(r"\b(?:fn|struct|enum|const|type|mod) (\w+)")
RT_FIELD = re.compile(r"\s*(?:pub )?(\w+): ")
RT_CASE = re.compile(r"\s*([A-Z]\w*)(?:\(.*\))?(?: = \d+)?,")


def names(path: Path) -> Set[str]:
    """The names that a file declares; of one that is neither .antt nor .rt, none."""
    lines = path.read_text("utf-8").splitlines()
    if path.suffix == ".antt":
        return {name for line in lines if not line.lstrip().startswith("--") for name in _antt(line)}
    if path.suffix == ".rt":
        return {name for line in lines for name in _rt(line.partition("//")[0])}
    return set()


def _antt(line: str) -> Set[str]:
    kind, typed = ANTT_KIND.match(line), ANTT_NAMES.match(f"{line} ")
    return {kind[1]} if kind else set(typed[1].split()) if typed else set()


def _rt(line: str) -> Set[str]:
    field, case = RT_FIELD.match(line), RT_CASE.match(line)
    return set(RT_ITEM.findall(line)) | {found[1] for found in (field, case) if found}
