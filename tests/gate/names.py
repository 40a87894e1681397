"""The stage `papers`: the names that it finds in a paper, and those that it does not find in the repository."""

from typing import List

from common import InARoom
from gate import declared, papers

LAWS = """\
-- sum-not : a comment
pub sum-is : Law
sum-is = refl
abbrev pub total more : ℕ → ℕ
unfoldable pub earlier : ℕ
pub record Held (p : List ℕ) : Type 0 where
  is-held : p ≡ p
pub data Ends : Type 0 where
  by-goal : Ends
module _ (head : Head) where
  pub long-one :
    ℕ
"""
CODE = """\
// fn not_this
pub struct Head {
    pub width: usize,
}
impl Head {
    pub const MAX_SIDE: usize = 64;
    pub fn new(width: usize) -> Self {}
}
pub enum Reason {
    Sides,
    At(usize),
}
"""


class Declared(InARoom):
    def test_laws(self):
        self.write({"Laws.antt": LAWS})
        wanted = {"sum-is", "total", "more", "earlier", "Held", "is-held", "Ends", "by-goal", "_", "long-one"}
        self.assertEqual(wanted, declared.names(self.room / "Laws.antt"))

    def test_code(self):
        self.write({"lib.rt": CODE})
        found = declared.names(self.room / "lib.rt")
        self.assertLessEqual({"Head", "width", "MAX_SIDE", "new", "Reason", "Sides", "At"}, found)
        self.assertNotIn("not_this", found)


class Papers(InARoom):
    def setUp(self) -> None:
        super().setUp()
        files = {
            "crates/sums/specs/deep/Laws.antt": LAWS,
            "crates/sums/src/head.rt": CODE,
            "crates/sums/src/inner.rt": "mod most;\n",
            "crates/sums/src/inner/most.rt": "fn far_in() {}\n",
            "crates/sums/must-fail/borders.edit": "# one_more\n",
            "include/sums.h": "#define SUMS_NONE 1\n",
            "crates/sums/out/kept.oantt": "made_by_rt\n",
            "docs/DECISIONS.md": "`crates.txt`\n",
            "docs/PROMISES.md": "`crates.txt`\n",
            "docs/landings/1-first.md": "`crates.txt`\n",
        }
        self.write(files)

    def missing(self, text: str) -> List[str]:
        self.write({"README.md": text})
        return [line.partition("README.md:")[2] for line in self.said(papers.run)[1] if "FAILED: README.md:" in line]

    def test_what_exists(self):
        files = ["crates/sums/specs/deep/Laws.antt", "sums/specs", "sums/", "crates/*/src", "crates.txt", "./crates.txt"]
        code = ["sums::add, take", "sums::head::Head::new, width", "sums::inner::most::far_in", "libc::read"]
        names = ["sums/specs/deep/Laws.sum-is, Held, is-held", "sums#one_more", "SUMS_NONE", "sum-is", "far_in"]
        for words in [*files, *code, *names]:
            with self.subTest(words):
                self.assertEqual([], self.missing(f"So `{words}` is."))

    def test_what_is_free(self):
        free = ["sums", "N", "move", "target/show/NAME.svg", "out/facts", "crates/sums/out/libsums.a", "k / 8", "# LABEL", "--jobs N", "https://a.b/c", "a ≡ b", "sums_*"]
        for words in free:
            with self.subTest(words):
                self.assertEqual([], self.missing(f"So `{words}` is, and `crates.txt`."))

    def test_what_does_not_exist(self):
        gone = {
            "sums/specs/deep/Laws.sum-is, sum-not": "sums/specs/deep/Laws declares no sum-not",
            "sums/specs/Gone.sum-is, more": "sums/specs/Gone.sum-is: there is no such file",
            "specs/deep/Laws": "specs/deep/Laws: there is no such file",
            "gone/": "gone/: there is no such file",
            "crates/*/gone": "crates/*/gone: there is no such file",
            "sums/out.c": "sums/out.c: there is no such file",
            "tests/gone --seed N": "tests/gone: there is no such file",
            "gone.md": "gone.md: there is no such file",
            "sums::gone": "sums declares no gone",
            "sums::head::Head::new, gone": "sums::head declares no gone",
            "Head::new": "Head::new: there is no crate Head",
            "sums#one_more, gone": "sums has no wrong program gone",
            "more#one": "more#one: there is no crate more",
            "sumOf": "sumOf stands in no source",
            "sum-of-all": "sum-of-all stands in no source",
            "made_by_rt": "made_by_rt stands in no source",
        }
        for words, why in gone.items():
            with self.subTest(words):
                self.assertEqual([f"2: {why}"], self.missing(f"\nSo `{words}` is."))

    def test_spans_over_lines_and_fences(self):
        self.assertEqual(["5: sums declares no gone"], self.missing("```\n`sums::gone`\n```\n\n`sums::add,\ngone`"))

    def test_links(self):
        links = "[a](docs/DECISIONS.md) [b](docs/GONE.md) [c](https://a.b)"
        self.assertEqual(["1: docs/GONE.md: there is no such file"], self.missing(links))

    def test_a_name_outside_a_span(self):
        self.assertEqual(["1: one_more is a name outside a code span"], self.missing("so one_more is, and `one_more`"))

    def test_the_newest_note(self):
        self.write({"README.md": "`crates.txt`\n", "docs/landings/2-more.md": "`sums::gone`\n", "docs/landings/all.md": "`gone/`\n"})
        self.assert_one(self.said(papers.run)[1], "FAILED: docs/landings/2-more.md:1: sums declares no gone")
        self.write({"docs/landings/10-last.md": "`crates.txt`\n"})
        status, lines = self.said(papers.run)
        self.assertEqual((0, "4 passed, 0 failed"), (status, lines[-1]))
        self.assert_one(lines, "all that docs/landings/10-last.md names exists: 1 names")

    def test_no_note(self):
        self.write({"README.md": "`crates.txt`\n"})
        (self.room / "docs/landings/1-first.md").unlink()
        self.assert_one(self.said(papers.run)[1], "FAILED: docs/landings has no note")

    def test_a_label_of_a_set_that_cannot_be_read(self):
        self.write({"crates/sums/must-fail/other.edit": "words\n# other\n"})
        self.assertEqual(["1: sums has no wrong program other"], self.missing("`sums#one_more, other`"))

    def test_a_paper_that_names_nothing(self):
        self.write({"README.md": "Nothing.\n"})
        self.assert_one(self.said(papers.run)[1], "README.md names nothing")
