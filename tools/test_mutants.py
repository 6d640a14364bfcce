#!/usr/bin/env python3
"""Tests of tools/mutants without the prover: the lists are whole and fit the sources, and what the prover prints is
read rightly. Run alone, or with the others of this folder: python3 -m unittest discover -s tools"""
import importlib.machinery
import importlib.util
import pathlib
import sys
import unittest

sys.dont_write_bytecode = True
TOP = pathlib.Path(__file__).resolve().parent.parent
LOADER = importlib.machinery.SourceFileLoader("run", str(TOP / "tools" / "mutants" / "run"))
run = importlib.util.module_from_spec(importlib.util.spec_from_loader("run", LOADER))
LOADER.exec_module(run)
source = run.source
# boltmarrow_c, each of whose functions is the call of `boltmarrow` with the same arguments, has edits in the gate
LIBRARIES = [path.parent.parent for path in sorted((TOP / "crates").glob("*/src/lib.rt")) if path.parts[-3] != "boltmarrow_c"]
CRATES = {path.name for path in (TOP / "crates").iterdir()}

# What the prover prints, cut: `set` fails by itself, `join` by itself and for what it calls, `join_from` for what it
# calls, `number` and `start_at` have no proof file, and `clear`, `loops`, `gone` and `ways` have other needs and places than
# their proofs name.
PRINTED = """./proofs/inner/set/Answers.antt:38:14: error: `returns`: as printed, the two types first differ
  computed as far as they go, the two types differ only where one has `32` (expected) and the other has `31` (found)
./proofs/inner/set/Answers.antt:46:5: error: `set_spec`: `returns` was not admitted (it has holes)
./proofs/inner/join/Answers.antt:31:16: error: `loop-i-preserved`: `search`: no proof of `Joining ..`
  was found. Not every way was tried.
./proofs/inner/join/Answers.antt:37:13: error: `returns`: expected type `a`, but this has type `b`
./proofs/inner/join_from/Answers.antt:41:5: error: 1 declaration that depends on `close`, which was not admitted, was not checked: x
./proofs/inner/clear/Answers.antt:46:5: error: `overflow_sub-word`: `goal.overflow_sub-word`: module `Goals` has no `overflow_sub-word`
./proofs/inner/loops/Invariants.antt:9:5: error: `invariant-loop-i`: expected type `a`, but this has type `b`
./proofs/inner/gone/Answers.antt:9:5: error: `overflow_mul-at`: `goal.overflow_mul-at`: module `x.Goals` has no `overflow_mul-at`
./proofs/inner/ways/Answers.antt:9:5: error: `returns-in_err-check`: record `x.In-After-from_residual` (nearest: .in_ok-check)
  has no field `in_err-check`
fn rows::inner::is_set: proved
fn rows::inner::set: not proved
fn rows::inner::join: not proved; it calls `rows::inner::set`, which is not proved
fn rows::inner::join_from: no proof: it calls `rows::inner::set`, which is not proved
fn rows::inner::clear: not proved
fn rows::inner::loops: not proved
fn rows::inner::gone: not proved
fn rows::inner::ways: not proved
fn rows::inner::number: no proof: expected answers in ./proofs/inner/number/Answers.antt; `search` did not prove `returns-2`
fn rows::inner::start_at: no proof: the borrow checker's part in its proof is not made yet: a call of `rows::inner::set`, which ..
logic=not-proved
"""


def places(crate):
    """What may be edited of a crate: its functions and its tables."""
    return source.functions(crate) | source.tables(crate)


def edit(name):
    return source.Edit(f"rows::inner::{name}", 1, "operand", "what", [])


def verdict(name, printed=PRINTED):
    said = dict(run.SAID.findall(printed))
    return run.judged(edit(name), said, run.needs_refused("rows", printed), {})


class Lists(unittest.TestCase):
    def test_each_public_function_has_three_edits(self):
        for crate in LIBRARIES:
            public = sorted(name for name, f in source.functions(crate).items() if f.public)
            listed = []
            if public:
                listed = source.read_edits(run.HERE / f"{crate.name}.edits", crate.name)
            for name in public:
                self.assertGreaterEqual(sum(e.function == name for e in listed), 3, name)
            self.assertLessEqual(set(public), {e.function for e in listed})

    def test_each_edit_changes_its_function_and_nothing_else(self):
        for path in run.HERE.glob("*.edits"):
            found = places(TOP / "crates" / path.stem)
            for e in source.read_edits(path, path.stem):
                function = found[e.function]
                (text,) = source.edited(found, [e]).values()
                self.assertNotEqual(text, function.text, e)
                self.assertTrue(text.startswith(function.text[:function.start]), e)
                self.assertTrue(text.endswith(function.text[function.end:]), e)

    def test_no_two_edits_of_a_function_are_one(self):
        for path in run.HERE.glob("*.edits"):
            found = places(TOP / "crates" / path.stem)
            edits = source.read_edits(path, path.stem)
            texts = [tuple(source.edited(found, [e]).values()) for e in edits]
            self.assertEqual(len(set(texts)), len(edits), path.name)


class Sources(unittest.TestCase):
    def test_calls_are_followed_within_the_crate(self):
        found = source.functions(TOP / "crates" / "grammar")
        self.assertEqual(source.reaches("grammar::inner::prod_at", found, CRATES),
                         {"grammar::inner::prod_at", "grammar::inner::start_at"})

    def test_a_name_of_another_crate_is_not_taken_for_an_own_one(self):
        found = source.functions(TOP / "crates" / "follows")
        self.assertNotIn("follows::clear", source.reaches("follows::fill", found, CRATES))
        self.assertIn("follows::inner::begin", source.reaches("follows::fill", found, CRATES))

    def test_a_method_of_an_impl_is_named_by_its_type_and_trait(self):
        found = source.functions(TOP / "crates" / "grammar")
        self.assertIn("Refusal::Sizes => 1", found["grammar::refusal::U16FromRefusal::from"].body)
        self.assertIn("grammar::refusal::RefusalDisplay::fmt", found)
        self.assertIn("boltmarrow::UnitValue::value", source.functions(TOP / "crates" / "boltmarrow"))
        found = source.functions(TOP / "crates" / "engine")
        self.assertIn("is_plain(g, p)", found["engine::inner::first::FirstTable::step"].body)
        self.assertIn("self.reached", found["engine::inner::follow::FollowTable::step"].body)  # of an impl with a lifetime
        found = source.functions(TOP / "crates" / "jobs")
        self.assertIn("JOB_FIRST =>", found["jobs::kind::KindTryFromU16::try_from"].body)  # of a trait with a type

    def test_a_method_of_an_impl_is_tried_alone(self):
        for group in run.Crate("grammar").groups:
            if any(e.function == "grammar::refusal::U16FromRefusal::from" for e in group):
                self.assertEqual(len(group), 1)

    def test_an_old_text_that_is_not_there_once_is_refused(self):
        found = source.functions(TOP / "crates" / "rows")
        for old in ("word", "no such text"):
            wrong = source.Edit("rows::inner::set", 1, "operand", "", [(old, "x")])
            self.assertRaises(ValueError, source.edited, found, [wrong])

    def test_functions_that_call_each_other_are_tried_apart_where_the_caller_has_no_proof_file(self):
        both, groups = {"grammar::inner::start_at", "grammar::inner::prod_at"}, run.Crate("grammar").groups
        self.assertLessEqual(both, {e.function for group in groups for e in group})
        for group in groups:
            names = {e.function for e in group}
            self.assertEqual(len(names), len(group))
            self.assertLessEqual(len(names & both), 1)


class Verdicts(unittest.TestCase):
    def test_a_need_of_its_own_is_refused(self):
        self.assertEqual(verdict("set"), ("refused", "`returns`: expected 32, found 31"))

    def test_a_need_of_its_own_is_refused_beside_a_call(self):
        self.assertEqual(verdict("join"), ("refused", "`loop-i-preserved`: search finds no proof; `returns`: "
                                                      "the term does not fit"))

    def test_no_need_of_its_own_is_refused(self):
        for name in ("is_set", "join_from", "start_at", "not_printed"):
            self.assertEqual(verdict(name)[0], "NOT REFUSED", name)

    def test_without_a_proof_file(self):
        self.assertEqual(verdict("number"), ("refused", "`returns-2`: search finds no proof"))

    def test_other_needs_are_no_refusal(self):
        for name in ("clear", "loops", "gone", "ways"):
            self.assertEqual(verdict(name)[0], "BAD EDIT", name)

    def test_disturbed(self):
        said, refused = dict(run.SAID.findall(PRINTED)), run.needs_refused("rows", PRINTED)
        edits = [edit(name) for name in ("set", "number", "clear", "loops", "gone", "ways")]
        self.assertEqual(run.disturbed(edits, said, refused, {}), ["rows::inner::join"])
        self.assertEqual(run.disturbed(edits + [edit("join")], said, refused, {}), [])

    def test_functions_of_a_cycle_share_a_proof(self):
        crate = run.Crate("sentences")
        both = {f"sentences::inner::expansion::{name}" for name in ("expand_production", "expand_rule")}
        self.assertEqual(crate.proofs["sentences::inner::expansion::expand_rule"], both)
        edits = [e for e in crate.groups[0] if e.function in both]
        refused = {name: {"returns": "why"} for name in both}
        self.assertEqual(run.disturbed(edits, {}, refused, crate.proofs), [])


if __name__ == "__main__":
    unittest.main()
