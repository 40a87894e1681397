"""The errors of a log: where each stands, and what it names."""

import unittest

from gate import log
from gate.edits import Fact

LOG = """\
so far: ./proofs/add/Answers.antt:18:13: error: `returns`: computed as far as they go, the two types differ
so far:   expected type `ℕ`
so far: fn sums::add: not proved
./proofs/add/Answers.antt:18:13: error: `returns`: computed as far as they go, the two types differ
  expected type `a: error: b`
./proofs/add/Answers.antt:17:1: note: the two sides may simply be different
./proofs/Laws.antt:21:7: error: 2 declarations that depend on `sum-is`, which was rejected, were not checked: more, most (via more)
./specs/Edges.antt:9:3: error: 1 declaration that depends on `sum-is`, which was not admitted, was not checked: edge
/far/sums/proofs/add/Answers.antt:1:1: error: `returns`: it differs
../more/proofs/Laws.antt:1:1: error: `returns`: it differs
specs/Sum.antt:2:9: error: `sum`: `gone` is not in scope; did you mean `one`?
./proofs/both/Answers.antt:3:9: error: `returns-less`: `goal.returns-less`: module `Rattle.sums.proofs.both.Goals`
  has no `returns-less` that can be named from here (did you mean `returns`?)
./proofs/Laws.antt:7:1: error: `sum-is`: `rw`: no occurrence of the path's left endpoint in the goal
  `h` is not in scope here, so what is shown does not paste back as it stands
note: src/lib.rt:27:5: it is not proved that what the function ensures holds when it returns (`returns-then-a`); it gave up
note: a goal may be false even if its line does not say so: `help`
fn sums::add: not proved
fn sums::less: not proved
note: src/lib.rt:31:9: it is not proved that this is within bounds (`less`)
fn sums::Sum::take: no proof: expected answers in ./proofs/Sum/take/Answers.antt; `search` did not prove `returns-then-a-eq0`, `less`
fn sums::both: no proof: expected answers in ./proofs/both/Answers.antt; `search` did not prove `returns`; it calls `sums::add`
fn sums::twice: no proof: it calls `sums::add` and `sums::Sum::take`, which are not proved
logic=not-proved
rt: rt check --start sums::Sum::take --allow-holes writes a function's proof files, or adds what they lack, and prints their goals
"""


class Errors(unittest.TestCase):
    def setUp(self) -> None:
        self.found = log.errors(LOG)

    def test_places_and_names(self):
        wanted = [
            ("proofs/add/Answers.antt", ["returns"]),
            ("", []),
            ("", ["returns"]),
            ("", ["returns"]),
            ("specs/Sum.antt", ["sum"]),
            ("proofs/both/Answers.antt", ["returns-less"]),
            ("proofs/Laws.antt", ["sum-is"]),
            ("fn sums::add", ["returns-then-a"]),
            ("fn sums::Sum::take", ["less", "returns-then-a-eq0"]),
            ("fn sums::both", ["returns"]),
        ]
        self.assertEqual(wanted, [(error.place, sorted(error.names)) for error in self.found])

    def test_which_fact_each_refuses(self):
        self.assertTrue(self.found[0].refuses(Fact("proofs/add/Answers.antt", "returns")))
        self.assertFalse(self.found[0].refuses(Fact("proofs/add/Answers.antt", "return")))
        self.assertTrue(self.found[6].refuses(Fact("proofs/Laws.antt", "sum-is")))
        self.assertTrue(self.found[8].refuses(Fact("fn sums::Sum::take", "less")))
        self.assertFalse(self.found[9].refuses(Fact("fn sums::both", "sums::add")))

    def test_an_error_of_names_refuses_no_fact(self):
        for error, fact in ((self.found[4], Fact("specs/Sum.antt", "sum")), (self.found[5], Fact("proofs/both/Answers.antt", "returns-less"))):
            self.assertTrue(error.names_fact(fact))
            self.assertFalse(error.refuses(fact))

    def test_the_end(self):
        self.assertTrue(log.refused(LOG))
        self.assertFalse(log.refused("logic=proved functions=1\n"))
