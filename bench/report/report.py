"""Writes docs/BENCHMARKS.md and docs/benchmarks.svg from what the measurement printed, and prints the tables.
   report.py WORK READING DOCS"""

import sys
from typing import List, Tuple

import plot
import reading
from figures import BASE, NAMES, Figures

# a title, what was measured, a work of it, and the works that it is compared with
Column = Tuple[str, str, str, List[str]]


def table(head: List[str], rows: List[List[str]]) -> str:
    return "\n".join(["| " + " | ".join(row) + " |" for row in [head, ["---"] * len(head), *rows]])


def times_table(figures: Figures, what: str, has: str) -> str:
    """Times of everyone; `has` names the drives or searches that they are of."""
    others = [who for who in figures.contestants() if who != BASE]
    head = ["Plot", "Plans", "Cells expanded a plan", "anew"] + [NAMES[who] for who in others]
    rows = []
    for kind in figures.kinds(what):
        plans, kept, anew = (figures.mean(has, kind, k) for k in (0, 3, 4))
        row = [kind, f"{plans:.0f}", f"{kept / plans:,.0f}", f"{anew / plans:,.0f}"]
        rows.append(row + [str(figures.ratio(what, kind, who)) for who in others])
    return table(head, rows)


def works_table(figures: Figures, columns: List[Column]) -> str:
    rows = []
    for kind in figures.works["call"]:
        rows.append([kind] + [str(figures.work_ratio(what, kind, top, bottom)) for _, what, top, bottom in columns])
    return table(["Plot"] + [column[0] for column in columns], rows)


REPLANS: List[Column] = [
    ("Soundness test (1)", "call", "sound", ["flags"]),
    ("Core, space lent (1.3)", "replan", "core", ["heap"]),
    ("the same, repeated", "repeated", "core", ["heap"]),
    ("Core, space its own (1.3)", "replan", "own", ["heap"]),
    ("the same, repeated", "repeated", "own", ["heap"]),
    ("the same, to a C++ heap that clears too", "repeated", "own", ["cleared"]),
]
RECORDS: List[Column] = [
    ("Plan (1.25)", "call", "record-plan", ["sound", "core", "codec"]),
    ("Report (1.2)", "call", "record-report", ["sound", "block", "codec"]),
    ("Move (1.2)", "call", "record-move", ["sound", "advance", "codec"]),
]


def how(figures: Figures) -> str:
    about = figures.about
    if about["machine"] == "x86_64":
        proved = "the archives that `rt lib` writes (clang of the kit, -O3, for any x86-64)"
    else:
        proved = f"the proved build's own LLVM module, compiled for {about['machine']} by the kit's clang at -O3 (`bench/native`)"
    packages = []
    for who, name in (("tcod", "libtcod"), ("boost", "boost")):
        packages.append(f"{name} {about[name]}" if who in figures.contestants() else f"{name}: could not be had, left out")
    rows = [
        ["machine", f"{about['processor']}, {about['machine']}"],
        ["proved code", f"{proved}; {about['kit']}"],
        ["C and C++", f"{about['gcc']}, -O3"],
        ["Rust", f"{about['rustc']}, opt-level 3"],
        ["packages", "; ".join(packages)],
        ["load when the measuring began", about["load"]],
        ["seed, plots a kind, rounds", f"{about['seed']}, {about['plots']}, {about['repetitions']}"],
    ]
    return table(["", ""], rows)


def main(work: str, template: str, docs: str) -> None:
    figures = Figures(work)
    parts = {
        "how": how(figures),
        "drives": times_table(figures, "drive", "drive"),
        "plans": times_table(figures, "plans", "drive"),
        "searches": times_table(figures, "search", "search"),
        "replans": works_table(figures, REPLANS),
        "records": works_table(figures, RECORDS),
        **reading.sentences(figures),
    }
    for name in ("how", "drives", "plans", "searches", "replans", "records"):
        print(parts[name] + "\n")
    print(parts["verdicts"])
    with open(template, encoding="utf-8") as f:
        page = f.read()
    for name, words in parts.items():
        page = page.replace("{" + name + "}", words)
    with open(f"{docs}/BENCHMARKS.md", "w", encoding="utf-8") as f:
        f.write(page)
    with open(f"{docs}/benchmarks.svg", "w", encoding="utf-8") as f:
        f.write(plot.draw(figures))


if __name__ == "__main__":
    main(*sys.argv[1:])
