#!/usr/bin/env python3
"""Tests of reading.py's greatest costs: what the Rust's order of work gives, and why it parts from document 02's. Run
alone, or with the others of this folder: python3 -m unittest discover -s tools"""
import collections
import random
import sys
import unittest

sys.dont_write_bytecode = True
import grammars
import named
import plain
from plain import UNBOUNDED
from reading import EARLY, FREE, WITHOUT, crate_dearest, parting

GRAMMARS = dict(named.named())


def parted(g):
    """The costs that the Rust's order of work gives, those due, and of each rule why they may differ."""
    told, due = crate_dearest(g), plain.dearest(g)
    return told, due, [] if told is None else parting(g, due, told)


class Dearest(unittest.TestCase):
    def test_said(self):
        """What is said of the Rust is what its order of work gives."""
        checked = 0
        for name, rust_part, rust, _, _ in named.SAID:
            if rust_part == "dearest":
                due = [UNBOUNDED if cost is None else cost for cost in rust.get("returned", ())]
                self.assertEqual(crate_dearest(GRAMMARS[name]), due or None, name)
                checked += 1
        self.assertGreaterEqual(checked, 10)

    def test_order(self):
        """A sum counts up to the first rule without bound, and so do the productions."""
        def made(text):
            return plain.Grammar(*named.tables(named.blocks.Text(text.replace("|", "\n"))))
        head = "tokens a=255 eof|rules start A B|start: A|B: B a|B: a|"
        self.assertIsNone(crate_dearest(made(head + "A: a*257 B")))
        self.assertEqual(crate_dearest(made(head + "A: B a*257")), [UNBOUNDED] * 3)
        self.assertEqual(crate_dearest(made(head + "A: B|A: a*257")), [UNBOUNDED] * 3)
        self.assertIsNone(crate_dearest(made(head + "A: a*257|A: B")))

    def test_reasons(self):
        for name, reasons in {"early": [{EARLY}, {EARLY}, set()], "S below B": [{EARLY}, {EARLY}, set()],
                              "B below S": [set()] * 3, "no way out": [{WITHOUT}] * 2, "empty loop": [{FREE}] * 2,
                              "one without": [set(), set(), {WITHOUT}], "free loop": [{FREE}] * 2,
                              "bound loop": [set()] * 2, "most": [set()] * 2}.items():
            self.assertEqual(parted(GRAMMARS[name])[2], reasons, name)

    def test_random(self):
        """Where there is no reason both are the same. Each reason comes up beside a difference."""
        seen, shapes = collections.Counter(), [shape for shape in grammars.shapes if shape not in grammars.large]
        for k in range(4000):
            g = grammars.shapes[shapes[k % len(shapes)]](random.Random(k))
            told, due, reasons = parted(g)
            seen["panics"] += told is None
            for r, why in enumerate(reasons):
                if not why:
                    self.assertEqual(told[r], due[r], (k, r))
                if told[r] != due[r]:
                    seen.update(why)
        self.assertTrue(all(seen[sort] >= 20 for sort in (EARLY, WITHOUT, FREE, "panics")), seen)


if __name__ == "__main__":
    unittest.main()
