"""The stage `papers`: every file, law, function and wrong program that the papers name exists. The papers are those below and the
newest note of a landing, the one of the highest number. Names stand in code spans:

    `model/specs/Search`                     a file or a folder, from the root or from crates/; .antt may be left out
    `model/specs/Search.earlier, expanded`   declarations of that file
    `calls::plan::plan`                      functions or types of a crate, by its modules: `model::Head::new`
    `model#own_link_only, step_wraps`        wrong programs of a crate, by their labels

A word with a slash, or with the ending of a source file, is a file. A word alone that can only be a name, since it has a _, a hyphen
or a capital inside, stands in some source. What is below a folder target/ or out/ is built, and not looked for; all else is free."""

import re
from pathlib import Path
from typing import Dict, Iterator, List, NamedTuple, Optional, Set

from . import declared, edits, repository
from .report import Report

PAPERS = ("docs/PROMISES.md", "README.md", "docs/DECISIONS.md")
NOTES = "docs/landings"
KIT = ("std", "check", "libc", "io", "os", "bytes")  # libraries of the toolchain: their names are not looked for
SOURCES = ("crates", "include", "bindings", "examples", "tests", "tools", "bench", ".ci")
ENDINGS = "antt|c|edit|h|js|md|out|py|rs|rt|sh|svg|txt"

FENCED = re.compile(r"^```.*?^```", re.M | re.S)
SPAN = re.compile(r"(?<!`)(`+)(?!`)((?:(?!\n\s*\n).)+?)(?<!`)\1(?!`)", re.S)
LINK = re.compile(r"\]\(([^)#\s]+)[^)]*\)")
OUTSIDE = re.compile(r"\b[a-z]\w*_\w+\b")

LAW = re.compile(r"([^\s,]+/[^\s,./]+)\.([^\s,.]+(?:, [^\s,.]+)*)")
CODE = re.compile(r"(\w+(?:::\w+)+)((?:, \w+)*)")
LABEL = re.compile(r"(\w+)#(\w+(?:, \w+)*)")
FILE = re.compile(rf"[\w.*+-]+\.({ENDINGS})")
NUMBER = re.compile(r"[0-9]+")
NAME = re.compile(r"[A-Za-z][\w'′-]*")
ONLY_A_NAME = re.compile(r"\w[_-]\w|[a-z0-9][A-Z]")


class Named(NamedTuple):
    line: int
    words: str  # of a code span, of a link's end, or a word that should be in a span
    kind: str  # span, link or outside


def named(paper: str) -> Iterator[Named]:
    """What a paper names, and where."""

    def line(at: int) -> int:
        return paper.count("\n", 0, at) + 1

    def blank(found: "re.Match[str]") -> str:  # of the same length and lines
        return re.sub(r"[^\n]", " ", found[0])

    text = FENCED.sub(blank, paper)
    for found in SPAN.finditer(text):
        yield Named(line(found.start()), " ".join(found[2].split()), "span")
    text = SPAN.sub(blank, text)
    for found in LINK.finditer(text):
        yield Named(line(found.start()), found[1], "link")
    for found in OUTSIDE.finditer(LINK.sub(blank, text)):
        yield Named(line(found.start()), found[0], "outside")


class Repository:
    """What exists, as far as papers can name it."""

    def __init__(self, root: Path) -> None:
        self.root = root
        self.crates = repository.listed(root)
        self._declared: Dict[Path, Set[str]] = {}
        self._labelled: Dict[str, Set[str]] = {}
        self._words: Set[str] = set()

    def missing(self, named: Named, paper: Path) -> List[str]:
        """What of it does not exist, and why, each in one line."""
        if named.kind == "outside":
            return [f"{named.words} is a name outside a code span"]
        if named.kind == "link":
            there = "://" in named.words or (paper.parent / named.words).exists()
            return [] if there else [f"{named.words}: there is no such file"]
        label, code = LABEL.fullmatch(named.words), CODE.fullmatch(named.words)
        if label:
            return self._labels(label[1], label[2].split(", "))
        if code:
            return self._code(code[1].split("::"), code[2].split(", ")[1:])
        law, words = LAW.fullmatch(named.words), named.words.replace(",", " ").split()
        if law and self._files(law[1]) and not self._paths(named.words):
            return self._names(self._files(law[1]), law[1], law[2].split(", "))
        gone = [f"{word}: there is no such file" for word in words if self._is_file(word) and not self._paths(word)]
        if len(words) == 1 and NAME.fullmatch(words[0]) and ONLY_A_NAME.search(words[0]) and words[0] not in self.words():
            gone.append(f"{words[0]} stands in no source")
        return gone

    @staticmethod
    def _is_file(word: str) -> bool:
        if word == "/" or "://" in word or any(made in word.split("/")[:-1] for made in repository.MADE):
            return False
        return "/" in word or FILE.fullmatch(word) is not None

    def _paths(self, word: str) -> List[Path]:
        """The files and folders of that name; '*' stands for any."""
        word = re.sub(r"^\./", "", word).rstrip("/")
        if not word or word.startswith("/") or ".." in word.split("/"):
            return []
        return [path for base in (self.root, self.root / "crates") for ending in ("", ".antt") for path in base.glob(word + ending)]

    def _files(self, word: str) -> List[Path]:
        return [path for path in [*self._paths(word), *self._paths(word + ".rt")] if path.is_file()]

    def _names(self, files: List[Path], place: str, names: List[str]) -> List[str]:
        there = set().union(*(self._declares(path) for path in files))
        return [f"{place} declares no {name}" for name in names if name not in there]

    def _declares(self, path: Path) -> Set[str]:
        if path not in self._declared:
            self._declared[path] = declared.names(path)
        return self._declared[path]

    def _code(self, path: List[str], more: List[str]) -> List[str]:
        """CRATE::MODULE::..::NAME, or ..::TYPE::NAME, and more names there."""
        crate, inner = path[0], path[1:]
        if crate in KIT:
            return []
        if crate not in self.crates:
            return [f"{'::'.join(path)}: there is no crate {crate}"]
        src = self.root / "crates" / crate / "src"
        files = [file for file in (src / "lib.rt", src / "main.rt") if file.is_file()]
        folder = src
        while len(inner) > 1:
            module = [file for file in (folder / f"{inner[0]}.rt", folder / inner[0] / "mod.rt") if file.is_file()]
            if not module:
                break
            files, folder, inner = module, folder / inner[0], inner[1:]
        return self._names(files, "::".join(path[: len(path) - len(inner)]), inner + more)

    def _labels(self, crate: str, labels: List[str]) -> List[str]:
        if crate not in self.crates:
            return [f"{crate}#{labels[0]}: there is no crate {crate}"]
        if crate not in self._labelled:
            sets, _ = edits.sets(self.root / "crates" / crate)  # one that cannot be read is a matter of the stage `listing`
            self._labelled[crate] = {block.label for one in sets for block in one.blocks}
        there = self._labelled[crate]
        return [f"{crate} has no wrong program {label}" for label in labels if label not in there]

    def words(self) -> Set[str]:
        """Every word of every source, and of every path."""
        if not self._words:
            paths = [path for base in SOURCES for path in repository.walk(self.root / base)]
            for path in [*paths, *self.root.iterdir()]:
                self._words.update(NAME.findall(path.name))
                if path.is_file() and path.suffix != ".md":
                    self._words.update(NAME.findall(path.read_text("utf-8", "replace")))
        return self._words


def newest(root: Path) -> Optional[str]:
    """The note of the highest number."""
    numbers = ((NUMBER.match(path.name), path.name) for path in (root / NOTES).glob("*.md"))
    notes = {int(number[0]): name for number, name in numbers if number}
    return f"{NOTES}/{notes[max(notes)]}" if notes else None


def judge(name: str, there: Repository, report: Report) -> None:
    paper = there.root / name
    found = list(named(paper.read_text("utf-8")))
    gone = [f"{name}:{one.line}: {why}" for one in found for why in there.missing(one, paper)]
    for why in gone:
        report.bad(why)
    if found and not gone:
        report.ok(f"all that {name} names exists: {len(found)} names")
    elif not found:
        report.bad(f"{name} names nothing")


def run(root: Path, arguments: Optional[List[str]] = None) -> int:
    report, there, note = Report(), Repository(root), newest(root)
    for name in PAPERS:
        judge(name, there, report)
    if note:
        judge(note, there, report)
    else:
        report.bad(f"{NOTES} has no note")
    return report.end()
