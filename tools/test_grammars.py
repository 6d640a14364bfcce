#!/usr/bin/env python3
"""Tests of grammars.py and calls.py. Run alone, or with the others of this folder:
python3 -m unittest discover -s tools"""
import itertools
import pathlib
import random
import sys
import unittest

sys.dont_write_bytecode = True
import calls
import grammars
import plain

EXAMPLES = pathlib.Path(__file__).resolve().parent.parent / "examples"
G1 = plain.read((EXAMPLES / "g1.blk").read_bytes())
DEAD = plain.read((EXAMPLES / "dead.blk").read_bytes())


class Small(unittest.TestCase):
    def test_count(self):
        every = list(grammars.small())
        self.assertEqual(len(every), 20559)
        self.assertEqual(len({grammars.line(g) for g in every}), 20559)
        self.assertTrue(all(plain.built(g) for g in every))


class Shapes(unittest.TestCase):
    def test_well_formed_and_built_by_the_rust(self):
        for name, shape in grammars.shapes.items():
            for seed in range(2 if name in grammars.large else 50):
                self.assertTrue(plain.built(shape(random.Random(seed))), f"{name} {seed}")

    def test_seed(self):
        for name, shape in grammars.shapes.items():
            self.assertEqual(shape(random.Random(5)), shape(random.Random(5)), name)

    def test_limits(self):
        g = grammars.at_limits(random.Random(1))
        self.assertEqual((g.rules, len(g.costs), len(g.owners), len(g.symbols)), (512, 512, 4096, 16384))
        self.assertEqual(grammars.more_starts(random.Random(1), g), g)

    def test_more_starts(self):
        draw, counts, twice = random.Random(1), set(), 0
        for _ in range(200):
            g = grammars.more_starts(draw, grammars.anything(draw))
            own = [body for owner, body in g.productions() if owner == 0]
            self.assertEqual((plain.refusal(g), plain.built(g)), (0, False))
            counts.add(len(own))
            twice += len({body[0] for body in own}) < len(own)
        self.assertEqual(counts, {2, 3})
        self.assertTrue(0 < twice < 200)

    def test_line(self):
        self.assertEqual(grammars.line(G1), "4 4 6 7 1 2 2 3 3 0 0 3 4 4 6 6 7 32770 0 32771 2 1 0 32769 1 1 1 1")


class Damage(unittest.TestCase):
    def test_due(self):
        draw = random.Random(1)
        for numbers in itertools.chain(*(itertools.combinations(range(1, 7), size) for size in (1, 2))):
            seen = {plain.refusal(grammars.damaged(draw, grammars.anything(draw), numbers)) for _ in range(100)}
            self.assertIn(numbers[0], seen)
            self.assertTrue(seen <= set(range(1, numbers[0] + 1)), f"{numbers}: {seen}")

    def test_one_of_several_starts_is_wrong(self):
        """Nothing, two symbols, a token and rule 0, each in the first and in the last production of rule 0, the others
        being right."""
        draw, seen = random.Random(2), set()
        for _ in range(2000):
            g = grammars.damaged(draw, grammars.more_starts(draw, grammars.way_out(draw)), [6])
            own = [body for owner, body in g.productions() if owner == 0]
            right = [len(body) == 1 and body[0] > plain.RULE for body in own]
            if plain.refusal(g) == 6 and len(own) > 1 and right.count(False) == 1:
                body = own[right.index(False)]
                kind = "rule 0" if body == [plain.RULE] else min(len(body), 2)
                seen |= {(place, kind) for place in (0, -1) if not right[place]}
        self.assertEqual(seen, set(itertools.product((0, -1), (0, 1, 2, "rule 0"))))


class Calls(unittest.TestCase):
    """G1 by document 01, in words."""

    def test_first(self):
        first, empty = [9] * 4, [1 << 31]
        self.assertEqual(calls.answer("first_fill", [G1, first, empty]), [0, 0])
        self.assertEqual((first, empty), ([5, 5, 4, 2], [12]))

    def test_follow(self):
        follow, first, empty, reached = [0] * 4, [0] * 4, [0], [1 << 31]
        self.assertEqual(calls.answer("follow_fill", [G1, 2, follow, first, empty, reached]), [0, 0])
        self.assertEqual((follow, reached), ([8, 8, 1, 8], [15]))

    def test_reached(self):
        # S: A; A: a; U: A z. Rules 1 S, 2 A, 3 U; tokens 0 a, 1 z
        reached = [1 << 31]
        self.assertEqual(calls.answer("reached_fill", [DEAD, reached]), [0, 0])
        self.assertEqual(reached, [7])
        for length in 0, 2:
            row = [9] * length
            self.assertEqual(calls.answer("reached_fill", [DEAD, row]), [7, 0])
            self.assertEqual(row, [9] * length)

    def test_dead_rules(self):
        tables = [9] * 4, [9] * 4, [9], [9]
        self.assertEqual(calls.answer("follow_fill", [DEAD, 2, *tables]), [0, 0])
        self.assertEqual(tables, ([4, 4, 4, 0], [1, 1, 1, 1], [0], [7]))
        # what counts is the lent row: with the bit of U set, its production counts
        for row, changed in (7, 0), (15, 1), (8, 1), (0, 0), (1 << 31, 0):
            follow, reached = [4, 4, 4, 0], [row]
            self.assertEqual(calls.answer("follow_visit", [DEAD, 2, 3, follow, [1] * 4, [0], reached]), [0, changed])
            self.assertEqual((follow, reached), ([4, 4, 4 + 2 * changed, 0], [row]))

    def test_profile(self):
        tables = [9] * 4, [9] * 4, [1 << 31], [1 << 31]
        self.assertEqual(calls.answer("profile", [G1, *tables]), [0] * 6)
        self.assertEqual(tables, ([8, 8, 1, 8], [5, 5, 4, 2], [12], [15]))
        # U: A z; U: a: production 4 is the second of rule 3
        g = DEAD._replace(owners=DEAD.owners + [3], starts=DEAD.starts + [6], symbols=DEAD.symbols + [0])
        self.assertEqual(calls.answer("profile", [g, *tables]), [0, 1, 3, 3, 4, 0])
        self.assertEqual(tables, ([4, 4, 4, 0], [1] * 4, [0], [7]))
        for at in range(4):
            for other in tables[at][1:], tables[at] + [9]:
                wrong = [*tables[:at], other, *tables[at + 1 :]]
                kept = [each[:] for each in wrong]
                self.assertEqual(calls.answer("profile", [g, *wrong]), [7] + [0] * 5)
                self.assertEqual(wrong, kept)

    def test_dearest(self):
        dearest = [0, 65535, 65537, 1 << 31]
        self.assertEqual(calls.answer("dearest_fill", [G1, dearest]), [0, 0])
        self.assertEqual(dearest, [4, 4, 1, 2])
        for length in 0, 3, 5:
            table = [9] * length
            self.assertEqual(calls.answer("dearest_fill", [G1, table]), [7, 0])
            self.assertEqual(calls.answer("dearest_fill", [G1._replace(owners=[4] * 6), table]), [3, 0])
            self.assertEqual(table, [9] * length)

    def test_spare_bits_stay(self):
        first, empty = [1 << 4] * 4, [1 << 4]
        self.assertEqual(calls.answer("first_visit", [G1, 1, first, empty]), [0, 1])
        self.assertEqual((first, empty), ([16, 16, 20, 16], [16]))

    def test_sentence(self):
        cost, lengths, out = [0] * 4, [0] * 4, [7, 7]
        self.assertEqual(calls.answer("min_sentence", [G1, 0, cost, lengths, out]), [0, 1])
        self.assertEqual((cost, lengths, out), ([1, 1, 0, 0], [1, 1, 0, 0], [0, 7]))

    def test_room(self):
        cost, lengths = [0] * 4, [0] * 4
        self.assertEqual(calls.answer("min_sentence", [G1, 0, cost, lengths, []]), [15, 0])
        self.assertEqual(cost, [1, 1, 0, 0])

    def test_lists(self):
        # A: a; A: b
        g = plain.Grammar(2, [0, 1, 1], [0, 1, 2, 3], [plain.RULE + 1, 0, 1], [1] * 3)
        tables = [9] * 2, [9] * 2, [9] * 2
        self.assertEqual(calls.answer("count_min_sentences", [g, 1, *tables]), [0, 2])
        self.assertEqual(tables, ([1, 1], [1, 1], [2, 2]))
        out = [7, 7]
        self.assertEqual(calls.answer("min_sentence_at", [g, 0, 1, *tables, out]), [0, 1])
        self.assertEqual(out, [1, 7])
        for rule, k, room, number in (1, 2, 0, 16), (1, 65536, 2, 16), (1, 1, 0, 15), (2, 0, 2, 9):
            self.assertEqual(calls.answer("min_sentence_at", [g, rule, k, *tables, [7] * room]), [number, 0])
        for at in range(3):
            wrong = [*tables[:at], tables[at] + [9], *tables[at + 1 :]]
            self.assertEqual(calls.answer("count_min_sentences", [g, 9, *wrong]), [7, 0])
            self.assertEqual(calls.answer("min_sentence_at", [g, 9, 9, *wrong, out]), [7, 0])

    def test_modes(self):
        """7 before 8, 8 before 11; the tables stay as they are."""
        tables = [9] * 4, [9] * 4, [9], [9]
        for mode in 0, 1, 3, 257, 258, 65535:
            self.assertEqual(calls.answer("follow_fill", [G1, mode, *tables]), [8, 0])
            for p in 0, 6:
                self.assertEqual(calls.answer("follow_visit", [G1, mode, p, *tables]), [8, 0])
        self.assertEqual(calls.answer("follow_visit", [G1, 2, 6, *tables]), [11, 0])
        self.assertEqual(tables, ([9] * 4, [9] * 4, [9], [9]))
        for mode, at in itertools.product((1, 2, 3), range(4)):
            for other in tables[at][1:], tables[at] + [9]:
                wrong = [*tables[:at], other, *tables[at + 1 :]]
                self.assertEqual(calls.answer("follow_visit", [G1, mode, 6, *wrong]), [7, 0])
                self.assertEqual(calls.answer("follow_fill", [G1, mode, *wrong]), [7, 0])

    def test_kinds(self):
        """17 for a kind that there is not, before 7; record and tables stay as they are."""
        tables = [9] * 4, [9], [9] * 4, [9], [9] * 4, [9]
        for kind, at, number in (1, 0, 17), (1, 5, 17), (5, 0, 17), (65535, 0, 17), (2, 6, 17), (1, 6, 17), (2, 0, 0):
            for changed, done, n in itertools.product((0, 1), (0, 1), (0, 9)):
                job, lent = [kind, at, changed, done], [each[:] for each in tables]
                self.assertEqual(calls.answer("slice", [G1, job, n, *lent])[0], number)
                if number:
                    self.assertEqual((job, tuple(lent)), ([kind, at, changed, done], tables))
                self.assertEqual(calls.answer("slice", [G1, [kind, at, changed, done], n, *[[]] * 6])[0], number or 7)

    def test_production(self):
        self.assertEqual(calls.answer("production", [G1, 3]), [0, 4, 2])
        self.assertEqual(calls.answer("production", [G1, 6]), [11, 0, 0])

    def test_file(self):
        lists = [[9] * length for length in calls.LISTS]
        for version, name in (1, "g1"), (2, "g1-v2"):
            file = list((EXAMPLES / f"{name}.blk").read_bytes())
            self.assertEqual(calls.answer("read_blocks", [file, *lists]), [0, 4, 4, 6, 7, version])
            self.assertEqual(lists[0][:7], [1, 2, 2, 3, 3, 0, 9])
            out = [9] * 600
            self.assertEqual(calls.answer("write_blocks", [G1, version, out]), [0, 512])
            self.assertEqual(out, file + [9] * 88)

    def test_the_writers_order(self):
        free, wrong = G1._replace(costs=[1, 0, 1, 1]), G1._replace(rules=1, costs=[0] * 4)
        for version, g, room, number in (
            (0, wrong, 0, 26), (3, free, 511, 26), (65535, G1, 512, 26), (2, wrong, 0, 1), (1, wrong, 0, 1),
            (2, free, 511, 25), (2, free, 512, 25), (1, free, 511, 24), (2, G1, 511, 24),
        ):
            self.assertEqual(calls.answer("write_blocks", [g, version, [9] * room]), [number, 0])


if __name__ == "__main__":
    unittest.main()
