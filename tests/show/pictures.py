"""The picture, the page and the text view are well formed and of the whole drive; docs/drive.svg is current."""

import html.parser
import json
import re
import xml.etree.ElementTree as tree
from typing import Any, Dict, Iterator, List, Optional, Tuple

import common
from show import page, picture, text
from show.cart import Plan
from show.replay import Drive

SVG = "{http://www.w3.org/2000/svg}"
Attributes = List[Tuple[str, Optional[str]]]


def samples(bench: common.Bench) -> Iterator[Tuple[str, Drive]]:
    for path in sorted(common.PLOTS.glob("*.txt")):
        yield path.stem, bench.driven(path.read_bytes())
    yield "a <b> & \"c\"", bench.driven(b"1 1 0 0\n.\n")
    yield "tall", bench.driven(b"1 64 63 0\n" + b".\n" * 64)
    yield "wide", bench.driven(b"64 1 0 63\n" + b"." * 64 + b"\n")
    # walls of teeth: many plans, and each expands much
    teeth = "".join(("." * 64, "#" * 63 + ".", "." * 64, "." + "#" * 63)[row % 4] + "\n" for row in range(64))
    yield "teeth", bench.driven(b"64 64 0 4032\n" + teeth.encode())


class Balanced(html.parser.HTMLParser):
    """Every element that is opened is closed, in order; keeps the texts of scripts by id."""

    def __init__(self, whole: str) -> None:
        super().__init__()
        self.open: List[Tuple[str, Optional[str]]] = []
        self.faults: List[str] = []
        self.scripts: Dict[Optional[str], str] = {}
        self.links: List[Optional[str]] = []
        self.most: Optional[int] = None
        self.feed(whole)
        self.close()

    def handle_startendtag(self, tag: str, attributes: Attributes) -> None:
        self.keep(dict(attributes))

    def handle_starttag(self, tag: str, attributes: Attributes) -> None:
        self.keep(dict(attributes))
        self.open.append((tag, dict(attributes).get("id", "")))

    def keep(self, attributes: Dict[str, Optional[str]]) -> None:
        self.links += [attributes[key] for key in ("src", "href") if key in attributes]
        if attributes.get("id") == "slider":
            self.most = int(attributes["max"] or "")

    def handle_endtag(self, tag: str) -> None:
        if not self.open or self.open.pop()[0] != tag:
            self.faults.append(tag)

    def handle_data(self, words: str) -> None:
        if self.open and self.open[-1][0] == "script":
            self.scripts[self.open[-1][1]] = words


class Pictures(common.Case):
    def test_the_picture_has_the_whole_path_and_every_plan(self) -> None:
        for name, drive in samples(self.bench):
            with self.subTest(name):
                root = tree.fromstring(picture.picture(drive, name))
                self.assertEqual(root.find(f"{SVG}title").text, picture.title(drive, name))
                ways = list(zip(drive.path, drive.path[1:], drive.path[2:]))
                turned = sum(before == after for before, _, after in ways)
                line = root.find(f"{SVG}g[@id='driven']/{SVG}path")
                points = 1 if line is None else len(re.findall("[ML]", line.get("d")))
                self.assertEqual(points, len(drive.path) + turned)
                heads = [words.text for words in root.iter(f"{SVG}text") if words.text.startswith("Plan ")]
                self.assertGreaterEqual(len(heads), min(8, len(drive.plans)))
                if len(drive.plans) <= 8:
                    self.assertEqual([head.split(",")[0] for head in heads], [f"Plan {k + 1}" for k in range(len(drive.plans))])
                shown = {words.text for words in root.iter(f"{SVG}text")}
                self.assertLessEqual({str(number) for _, number in drive.counts()}, shown)

    def test_the_page_has_every_step(self) -> None:
        for name, drive in samples(self.bench):
            with self.subTest(name):
                whole = page.page(drive, name)
                read = Balanced(whole)
                self.assertEqual((read.open, read.faults, read.links), ([], [], []))
                self.assertNotRegex(whole, r"https?://|@[A-Z]+@")
                self.assertLess(len(whole), 2_000_000)
                self.assertEqual(read.most, len(drive.steps))
                self.same_drive(json.loads(read.scripts["drive"]), drive)

    def same_drive(self, told: Dict[str, Any], drive: Drive) -> None:
        plot_of = drive.plot
        self.assertEqual(told["lines"], [step.line for step in drive.steps])
        self.assertEqual((told["width"], told["height"], told["start"], told["goal"]),
                         (plot_of.width, plot_of.height, plot_of.start, plot_of.goal))
        self.assertEqual([letter == "#" for letter in told["ground"]], list(plot_of.blocked))
        self.assertEqual(len(told["plans"]), len(drive.plans))
        for told_plan, plan in zip(told["plans"], drive.plans):
            self.assertEqual(cells_of(told_plan["expanded"]), sorted(plan.expanded))
            self.assertEqual(route_of(told_plan["route"], plan, plot_of.width), plan.route)
            self.assertEqual(learned_of(told_plan["learned"]), plan.learned)

    def test_the_page_carries_no_other_markup(self) -> None:
        name = "</script><script>alert(1)</script>"
        self.assertNotIn(name, page.page(self.bench.driven(b"1 1 0 0\n.\n"), name))

    def test_the_text_view(self) -> None:
        for name, drive in samples(self.bench):
            lines = list(text.view(drive, name, False))
            maps = [line for line in lines if line.startswith(("|", "+-"))]
            self.assertEqual({len(line) for line in maps}, {drive.plot.width + 2})
            self.assertEqual([line for line in lines if "\033" in line], [])
            small = drive.plot.width <= 40 and drive.plot.height <= 24 and len(drive.plans) <= 12
            self.assertEqual(len(maps), (drive.plot.height + 2) * (1 + small * len(drive.plans)))
            bare = [re.sub("\033\\[[0-9;]*m", "", line) for line in text.view(drive, name, True)]
            self.assertEqual(bare, lines)

    def test_the_command_writes_both_and_says_where(self) -> None:
        out = self.bench.room / "out"
        status, printed, said = common.show("--drive", self.bench.drive(), "--out", out)
        self.assertEqual((status, said), (0, ""))
        drive = self.bench.driven((common.PLOTS / "rows.txt").read_bytes())
        self.assertEqual((out / "rows.svg").read_text(encoding="utf-8"), picture.picture(drive, "rows"))
        self.assertEqual((out / "rows.html").read_text(encoding="utf-8"), page.page(drive, "rows"))
        self.assertEqual([line.rsplit("/", 1)[-1] for line in printed.splitlines()[-2:]], ["rows.svg", "rows.html"])

    def test_the_picture_of_the_readme_is_current(self) -> None:
        drive = self.bench.driven((common.PLOTS / "rows.txt").read_bytes())
        kept = (common.ROOT / "docs" / "drive.svg").read_text(encoding="utf-8")
        self.assertTrue(kept == picture.picture(drive, "rows"), "run ./show and copy target/show/rows.svg to docs/drive.svg")
        self.assertTrue("(docs/drive.svg)" in (common.ROOT / "README.md").read_text(encoding="utf-8"), "the README shows it")


def cells_of(pairs: List[int]) -> List[int]:
    cells: List[int] = []
    at = 0
    for gap, count in zip(pairs[::2], pairs[1::2]):
        cells += range(at + gap, at + gap + count)
        at += gap + count
    return cells


def route_of(directions: str, plan: Plan, width: int) -> List[int]:
    route = [plan.cell] if plan.length is not None else []
    for direction in directions:
        route.append(route[-1] + {"1": 1, "2": width, "3": -1, "4": -width}[direction])
    return route


def learned_of(pairs: List[int]) -> Dict[int, int]:
    learned: Dict[int, int] = {}
    at = 0
    for gap, value in zip(pairs[::2], pairs[1::2]):
        at += gap
        learned[at] = value
    return learned
