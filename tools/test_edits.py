"""Tests of tools/edits.py: which messages of the prover are about a fact, and which only about a text that does not fit."""
import pathlib
import tempfile
import unittest

import edits

PROOF = "proofs/bays/find_bay/Answers.antt"
LAW = "proofs/Order.antt"
DEFINITION = "specs/Table.antt"

FACTS = [
    (PROOF, "returns", "`search`: no proof of `mathlib.Core.Path.◌≡◌ c.get4.result (from_be", "what `find_bay` returns"),
    (PROOF, "returns-clause-number", "`omega`: the goal does not follow from what it read.", "what `find_bay` returns"),
    (PROOF, "returns-then-k-eq-FIXED_CODE", "expected type `mathlib.Core.Path.◌≡◌ 0 c.args.x`, but this has", "what `find_bay` returns"),
    (PROOF, "loop-at-init", "`omega`: the goal does not follow from what it read.", "the invariant of the loop of `find_bay`"),
    (PROOF, "loop-at-preserved-then-k-gt-FIXED_CODE", "`search`: no proof of `Row`", "the invariant of the loop of `find_bay`"),
    (PROOF, "items-preserved", "`search`: no proof of `Row`", "the invariant of the loop of `find_bay`"),
    (PROOF, "loop-at-smaller-then-b", "`omega`: the goal does not follow from what it read.", "that the loop of `find_bay` ends"),
    (PROOF, "step_used-requires", "`search`: no proof of `Row`", "what `step_used` requires, in `find_bay`"),
    (PROOF, "step_used-n-requires-then-k-eq-FIXED_CODE", "`search`: no proof of `Row`", "what `step_used` requires, in `find_bay`"),
    (PROOF, "get4-first-requires-clause-low", "`search`: no proof of `Row`", "what `get4` requires, in `find_bay`"),
    (PROOF, "get4-requires-2", "`search`: no proof of `Row`", "what `get4` requires, in `find_bay`"),
    (PROOF, "returns-in_err-len", "`search`: no proof of `mathlib.Core.Path.◌≡◌ c.get4.result (from_be", "what `find_bay` returns"),
    (PROOF, "loop-bay-init-derived", "`search`: no proof of `CanRead`", "the invariant of the loop of `find_bay`"),
    (PROOF, "read_bay-read-requires-in-Some", "`search`: no proof of `Row`", "what `read_bay` requires, in `find_bay`"),
    (PROOF, "invariant_of-result-clause-fits", "`search`: no proof of `Bytes`", "what the type of `result` says of it, in `find_bay`"),
    ("proofs/find_bay/Proof.antt", "returns", "`search`: no proof of `Row`", "what `find_bay` returns"),
    (LAW, "six-first", "computed as far as they go, the two types differ only where one has `6` (expected)", "law `six-first` of `proofs/Order.antt`"),
    (LAW, "sorted-order", "expected type `NotFalling 0 (sorted_by_handle (c ∷ cs))`, but this has type `NotFalling 0 (insert c (sorted_b", "law `sorted-order` of `proofs/Order.antt`"),
    (LAW, "call-refused", "on the face `i = 0` this λ's body is `result (refused c n) bs`", "law `call-refused` of `proofs/Order.antt`"),
    (LAW, "read-left", "as printed, the two types differ only where one has `second` (expected)", "law `read-left` of `proofs/Order.antt`"),
]

NO_FACTS = [
    # an edited text that does not check
    (DEFINITION, None, "this line starts at column 1, at or left of the enclosing block's column 1, but the `[` opened at 117:29 is still open"),
    (DEFINITION, "before_no_bay", "`nothere` is not in scope"),
    (DEFINITION, "before_no_bay", "`true` is not a constructor of `List ℕ`: it is a constructor of `Bool`"),
    (DEFINITION, "beside", "in clause 5 of `beside`: constructor `resize` takes 1 explicit argument but the patterns give more"),
    (DEFINITION, "number_told", "`number_told` has no clause for 1 case; the missing clause is:"),
    (DEFINITION, "causes", "record `Facts` has no field `live`"),
    (DEFINITION, "is_none", "computed as far as they go, the two types are `ℕ`"),
    (LAW, "six-first", "expected type `Facts → List Cause`, but this has type `List Cause`"),
    (LAW, "six-first", "expected type `List Cause`, but this has type `List ℕ`"),
    (LAW, "six-first", "expected type `mathlib.Core.Option.Option Cause`, but this has type `mathlib.Core.Option.Option ℕ`"),
    (LAW, "six-first", "expected type `mathlib.Core.Result.Result ℕ Refusal`, but this has type `mathlib.Core.Result.Result Unit Refusal`"),
    ("src/lib.rt", "ensures-1", "expected type `Prim.Native.Nat.ℕ`, but this has type `mathlib.Core.List.List`"),
    # a proof's text that does not fit
    (LAW, None, "module `Rattle.calls.specs.Table` has no `refusal_of` that can be named from here: it is private"),
    (LAW, "six-first", "`no_bay_to_resize` is not in scope"),
    (LAW, "six-first", "`go` has no clause for 1 case; the missing clause is:"),
    (PROOF, "free_part-requires", "`goal.free_part-requires`: module `Goals` has no `free_part-requires` that can be named from here"),
    (PROOF, "returns", "this λ has 2 binders, but its type has room for only 1: at `c` the type is `InSlice`"),
    ("proofs/find_bay/Invariants.antt", "invariant-loop-at", "computed as far as they go, the two types are `Prim.Native.Nat.ℕ → Type 0`"),
    # a bound
    (PROOF, "slice_bounds-s-end-2", "`omega`: the goal does not follow from what it read."),
    (PROOF, "overflow_sub-result", "`omega`: the goal does not follow from what it read."),
]

RETURNS = "note: src/lib.rt:4:5: it is not proved that what the function ensures holds when it returns (`returns`); the facts known there allow values at which this goal i"
REQUIRES = "note: src/lib.rt:4:5: it is not proved that what `need` requires holds at this call (`need-a-requires-clause-low`); the facts known there allow"
INVARIANT = "note: src/lib.rt:4:5: it is not proved that the invariant of the loop holds (`loop-i-preserved`); the facts known there allow values at which this"
MEASURE = "note: src/lib.rt:4:5: it is not proved that the loop ends, by its measure (`loop-i-smaller`); the facts known there allow values at which this goal is false"
BOUND = "note: src/lib.rt:4:5: it is not proved that the value fits the type that it is cast to (`overflow_cast-result`)"


class Edits(unittest.TestCase):
    def test_facts(self):
        for place, need, message, fact in FACTS:
            self.assertEqual(edits.fact_of_error(place, need, message), fact, need)

    def test_no_facts(self):
        for place, need, message in NO_FACTS:
            self.assertIsNone(edits.fact_of_error(place, need, message), message)

    def refused(self, said):
        """The fact of what rt says of an edit."""
        with tempfile.TemporaryDirectory() as folder:
            path = pathlib.Path(folder) / "crates" / "calls" / "src" / "lib.rt"
            path.parent.mkdir(parents=True)
            path.write_text("fn first() {}\n\npub fn second() -> u32 {\n    3\n}\n", encoding="utf-8")
            return edits.refused_by(pathlib.Path(folder), "calls", said)

    def test_function_at_a_line(self):
        with tempfile.TemporaryDirectory() as folder:
            path = pathlib.Path(folder) / "lib.rt"
            path.write_text('fn first() {\n    1\n}\n\n#[unsafe(no_mangle)]\npub extern "C" fn second() {\n    2\n}\n', encoding="utf-8")
            self.assertEqual([edits.function_at(path, line) for line in (2, 5, 6, 7)], ["first", "second", "second", "second"])

    def test_what_rt_says(self):
        self.assertEqual(self.refused("refused, as it must be: ./proofs/Order.antt:3:4: error: `six-first`: `omega`: the goal does not follow"), "law `six-first` of `proofs/Order.antt`")
        for said, fact in ((RETURNS, "what `second` returns"), (REQUIRES, "what `need` requires, in `second`"), (INVARIANT, "the invariant of the loop of `second`"),
                           (MEASURE, "that the loop of `second` ends")):
            self.assertEqual(self.refused(f"refused, as it must be: {said}"), fact)

    def test_what_shows_nothing(self):
        law = "./proofs/Order.antt:3:4: error: `six-first`: `omega`: the goal does not follow"
        for said in (f"refused, as it must be: {BOUND}", "refused, as it must be: ./specs/Table.antt:3:4: error: `first`: `x` is not in scope", "refused, as it must be",
                     f"refused, as it must be (only because a proof file names what the edit took away, so this says little): {law}",
                     f"refused, as it must be (only by a limit of the prover, which gave no verdict): {law}", "BAD EDIT: an 'old:' text is in src/lib.rt 0 times, and not once",
                     "NOT REFUSED: the crate is still proved with this edit", "rt did not try it"):
            self.assertIsNone(self.refused(said), said)

    def test_log(self):
        with tempfile.TemporaryDirectory() as folder:
            log = pathlib.Path(folder) / "rt-ci.log"
            self.assertEqual(edits.lines_of(log), {})
            log.write_text(f"rt: calls: trying its must-fail edits (2)\nrt: must-fail calls/a_b.edit: refused, as it must be: {RETURNS}\nrt: must-fail calls/c.edit: BAD EDIT: why\n", encoding="utf-8")
            self.assertEqual(edits.lines_of(log), {("calls", "a_b"): f"refused, as it must be: {RETURNS}", ("calls", "c"): "BAD EDIT: why"})

    def test_edits_that_are_not_kept(self):
        rows = "| crate | the wrong program | edit | refused by |\n|---|---|---|---|\n| tell | a note | `a \\| b` → `c`; `d` → `e` | a fact |\n"
        with tempfile.TemporaryDirectory() as folder:
            crates = pathlib.Path(folder)
            (crates / "tell" / "src").mkdir(parents=True)
            (crates / "tell" / "specs").mkdir()
            (crates / "tell" / "src" / "lib.rt").write_text("fn f() { a | b }\n", encoding="utf-8")
            self.assertEqual(edits.not_there(rows, crates), ["tell: a note"])
            (crates / "tell" / "specs" / "Told.antt").write_text("d\n", encoding="utf-8")
            self.assertEqual(edits.not_there(rows, crates), [])
            for row in ("| tell | a note | a → b | a fact |", "| tell | a note | `a` | a fact |", "| tell | `d` → `e` |"):
                self.assertEqual(edits.not_there(rows + row + "\n", crates), [row])

    def test_edits_that_cannot_be_applied(self):
        with tempfile.TemporaryDirectory() as folder:
            path = pathlib.Path(folder) / "must-fail" / "a.edit"
            for place in (path.parent, pathlib.Path(folder) / "src"):
                place.mkdir()
            (pathlib.Path(folder) / "src" / "lib.rt").write_text("once\ntwice twice\n", encoding="utf-8")
            head = "# a note\n# wrong at: f(3) = 4, not 5\nfile: src/lib.rt\n"
            for text in ("old: once\nnew: other\n", "old: once\nnew: other\nold: other\nnew: third\n"):
                path.write_text(head + text, encoding="utf-8")
                self.assertIsNone(edits.unfit(path), text)
            for text in ("old: never\nnew: other\n", "old: twice\nnew: other\n", "old: once\nnew: once\n", "old: once\n", "", "old: once\nnew: other\nfile: src/main.rt\n", "old: once\nnew: other\nmore\n",
                         "old: once\nnew: other\nold: once\nnew: third\n"):
                path.write_text(head + text, encoding="utf-8")
                self.assertIsNotNone(edits.unfit(path), text)
            path.write_text("file: src/main.rt\nold: once\nnew: other\n", encoding="utf-8")
            self.assertIsNotNone(edits.unfit(path))

    def test_edit_with_an_input(self):
        with tempfile.TemporaryDirectory() as folder:
            path = pathlib.Path(folder) / "a.edit"
            path.write_text("# a note\n# wrong at: f(3) = 4, not 5\nfile: src/lib.rt\nold: a\nnew: b\n", encoding="utf-8")
            said = edits.read_edit(path)
        self.assertEqual(said, {"note": "a note", "wrong": "f(3) = 4, not 5", "file": "src/lib.rt", "old": ["a"], "new": ["b"]})


if __name__ == "__main__":
    unittest.main()
