#!/usr/bin/env python3
"""Tests of plain.py: document 01's lines, the examples' reports, the refusals, and small grammars held to the
definitions by search; and of reading.py's FOLLOW. Run alone, or with the others of this folder:
python3 -m unittest discover -s tools"""
import collections
import itertools
import pathlib
import random
import struct
import sys
import unittest

sys.dont_write_bytecode = True
import grammars
import named
import plain
import reading
from plain import RULE, Grammar, Refused

EXAMPLES = pathlib.Path(__file__).resolve().parent.parent / "examples"


def example(name):
    return plain.read((EXAMPLES / f"{name}.blk").read_bytes())


def block_file(numbers, costs=b"", number=0):
    block = (struct.pack(f"<{len(numbers) + 1}H", number, *numbers) + costs).ljust(510, b"\0")
    return block + struct.pack("<H", sum(block) % 65536)


def exported(g, body):
    """The grammar with one more production of rule 0, behind the others."""
    end = g.starts[-1] + len(body)
    return g._replace(owners=g.owners + [0], starts=g.starts + [end], symbols=g.symbols + body)


def refused(call, *words):
    """The number of a call's refusal, 0 if it answers."""
    try:
        call(*words)
    except Refused as why:
        return why.number
    return 0


def derived(g, form, longest):
    """All forms of at most that length that a form derives in one step or more through such forms."""
    todo, held = [form], set()
    while todo:
        form = todo.pop()
        for k, s in enumerate(form):
            for owner, body in g.productions():
                made = form[:k] + tuple(body) + form[k + 1 :]
                if s == RULE + owner and len(made) <= longest and made not in held:
                    held.add(made)
                    todo.append(made)
    return held


def forms(g, r, longest):
    """Those that a rule derives."""
    return derived(g, (RULE + r,), longest)


def sentence_costs(g, cap):
    """The costs up to the cap of all sentences of each rule."""
    held = [set() for _ in range(g.rules)]
    changed = True
    while changed:
        changed = False
        for r, body in g.productions():
            parts = [held[s - RULE] if s >= RULE else {g.costs[s]} for s in body]
            new = {sum(pick) for pick in itertools.product(*parts)}
            new = {cost for cost in new if cost <= cap} - held[r]
            held[r] |= new
            changed = changed or bool(new)
    return held


def ends(choice, r, depth):
    """Whether replacing rules by their first choices ends within that depth."""
    return all(s < RULE or depth > 0 and ends(choice, s - RULE, depth - 1) for s in choice[r])


def leftmost(g, cost, form, depth):
    """The sentences of all leftmost derivations from a form through cheapest productions, in the order in which the
    lowest production at the leftmost place comes first; None for each that is not ended at that depth."""
    at = next((k for k, s in enumerate(form) if s >= RULE), None)
    if at is None or depth == 0:
        yield form if at is None else None
        return
    for r, body in g.productions():
        if r == form[at] - RULE and cost[r] <= 65535 and total(g, cost, body) == cost[r]:
            yield from leftmost(g, cost, form[:at] + body + form[at + 1 :], depth - 1)


def total(g, cost, body):
    return sum(cost[s - RULE] if s >= RULE else g.costs[s] for s in body)


def closed_follow(g):
    """The least table closed under FOLLOW's rules, by rounds, in document 01's words, over the productions of rules
    that are rule 0 or have a path from it, in document 02's."""
    first, empty = plain.firsts(g), plain.empties(g)
    table = {(0, len(g.costs) - 1)}
    counting = [(r, body) for r, body in g.productions() if r == 0 or plain.has_path(g, 0, r)]
    while True:
        more = set()
        for r, body in counting:
            ends = {t for a, t in table if a == r}
            for k, a in enumerate(body):
                after, add = body[k + 1 :], set()
                if a < RULE:
                    continue
                while after and after[0] >= RULE and after[0] - RULE in empty:
                    add = add | first[after[0] - RULE]
                    after = after[1:]
                add = add | (ends if not after else {after[0]} if after[0] < RULE else first[after[0] - RULE])
                more |= {(a - RULE, t) for t in add}
        if more <= table:
            return [{t for a, t in table if a == r} for r in range(g.rules)]
        table |= more


def standing(g, longest):
    """For each rule A the tokens t such that A t stands in a form derived from start and eof, through forms of at most
    that length."""
    held = [set() for _ in range(g.rules)]
    for form in {(RULE, g.eof), *((*form, g.eof) for form in forms(g, 0, longest - 1))}:
        for a, t in zip(form, form[1:]):
            if a >= RULE and t < RULE:
                held[a - RULE].add(t)
    return held


def taken_by(g, p, follow, longest):
    """By forms of at most that length: the tokens that a production may start with, FOLLOW of its owner added where it
    can vanish, and whether it can."""
    made = {tuple(g.body(p)), *derived(g, tuple(g.body(p)), longest)}
    tokens = {form[0] for form in made if form and form[0] < RULE}
    return tokens | (follow[g.owners[p]] if () in made else set()), () in made


def clashes(g, longest):
    """Every clash of the grammar: rule, lower production, higher production, token, or T where two vanish and share
    none."""
    follow = standing(g, longest)
    taken = [taken_by(g, p, follow, longest) for p in range(len(g.owners))]
    found = set()
    for p, q in itertools.combinations(range(len(g.owners)), 2):
        if g.owners[p] != g.owners[q]:
            continue
        shared = taken[p][0] & taken[q][0]
        none = {len(g.costs)} if taken[p][1] and taken[q][1] and not shared else set()
        found |= {(g.owners[p], p, q, t) for t in shared | none}
    return found


def settled(g, dice, visit, *tables):
    """The tables after rounds of visits, each in an order of its own, until a round changes nothing."""
    changed = True
    while changed:
        order = dice.sample(range(len(g.owners)), len(g.owners))
        changed = any([visit(p, *tables) for p in order])
    return tables


def random_grammar(dice):
    """A well-formed grammar of one to three rules besides the start, bodies of at most two symbols, costs 0 to 3. The
    start owns one production or more."""
    R, T = dice.randint(2, 4), dice.randint(2, 3)
    owners = list(range(R)) + [dice.randrange(R) for _ in range(dice.randint(0, 4))]
    dice.shuffle(owners)
    symbols = [*range(T - 1), *range(RULE + 1, RULE + R)]
    bodies = [dice.choices(symbols, k=dice.randint(0, 2)) for _ in owners]
    bodies = [body if owner else [RULE + dice.randrange(1, R)] for owner, body in zip(owners, bodies)]
    starts = [sum(map(len, bodies[:p])) for p in range(len(bodies) + 1)]
    return Grammar(R, owners, starts, sum(bodies, []), [dice.randint(0, 3) for _ in range(T)])


class Plain(unittest.TestCase):
    def test_reports_of_the_examples(self):
        for path in sorted(EXAMPLES.rglob("*.report")):
            with self.subTest(path.name):
                self.assertEqual(plain.report(path.with_suffix(".blk").read_bytes()), path.read_text())

    def test_lines_of_document_01(self):
        g1, g2, g3, g4, g6 = map(example, ("g1", "g2", "g3", "g4", "g6"))
        self.assertEqual(plain.firsts(g1)[1], {0, 2})
        self.assertEqual(plain.follows(g1)[2], {0})
        self.assertEqual((plain.costs(g1)[1], plain.sentence(g1, 0)), (1, [0]))
        self.assertEqual(plain.follows(g2)[2], {1, 2})
        self.assertEqual((plain.costs(g3)[1], refused(plain.sentence, g3, 1)), (1, 14))
        self.assertEqual((plain.has_path(g3, 1, 1), plain.has_path(g3, 0, 0)), (True, False))
        self.assertEqual((plain.firsts(g4)[1], refused(plain.sentence_cost, g4, 1)), (set(), 12))
        self.assertEqual(plain.sentence_cost(example("g5"), 1), 65535)
        self.assertEqual(refused(plain.sentence_cost, example("g5-dear"), 1), 13)
        self.assertEqual(plain.sentence_cost(example("g5-either"), 1), 1)
        self.assertEqual((plain.costs(g6)[1], plain.sentence(g6, 1)), (1, [1]))

    def test_dear_and_unknown(self):
        self.assertEqual(plain.costs(example("g4")), [65537, 65537])
        self.assertEqual(plain.costs(example("g5-dear")), [65536, 65536])
        # start: A; A: B C; A: C B; A: a of cost 9
        g = Grammar(4, [0, 1, 1, 1, 2, 3], [0, 1, 3, 5, 6, 7, 8], [RULE + 1, RULE + 2, RULE + 3, RULE + 3, RULE + 2, 0, 0, 0], [9, 1])
        for p in 1, 2:
            for a, b, c, changed, after in (
                (65537, 65536, 65537, False, 65537), (70000, 65536, 70000, False, 70000), (5, 65538, 1, False, 5),
                (65537, 65536, 1, True, 65536), (70000, 65535, 1, True, 65536), (65536, 65536, 1, False, 65536),
                (65536, 65535, 0, True, 65535), (65535, 65536, 0, False, 65535),
            ):
                cost = [3, a, b, c]
                self.assertEqual((plain.visit_cost(g, p, cost), cost), (changed, [3, after, b, c]))

    def test_dead_rules(self):
        g = example("dead")
        self.assertEqual(plain.reached(g), {0, 1, 2})
        self.assertEqual(plain.follows(g), [{2}, {2}, {2}, set()])
        self.assertEqual(standing(g, 5), plain.follows(g))
        # start: S; start: U: two exports, and both are reached
        both = exported(g, [RULE + 3])
        self.assertEqual(plain.reached(both), {0, 1, 2, 3})
        self.assertEqual(plain.follows(both), [{2}, {2}, {1, 2}, {2}])

    def test_what_is_said_of_follow(self):
        grammars = dict(named.named())
        for name, part, rust, ours_part, ours in named.SAID:
            word, *rule = part.split()
            if word == "follow":
                with self.subTest(name):
                    self.assertEqual(ours_part, part)
                    g, r = grammars[name], int(*rule)
                    self.assertEqual(reading.crate_follows(g, range(g.rules))[r], {*rust})
                    self.assertEqual(plain.follows(g)[r], {*ours})

    def test_the_rusts_follow(self):
        g = example("dead")
        self.assertEqual(reading.crate_follows(g, range(4)), [{2}, {2}, {1, 2}, set()])
        self.assertEqual(reading.crate_follows(g, plain.reached(g)), [{2}, {2}, {2}, set()])
        # start: S; S: A B B; A: a; B: b; B: nothing: A has eof of S, past both
        S, A, B = RULE + 1, RULE + 2, RULE + 3
        g = Grammar(4, [0, 1, 2, 3, 3], [0, 1, 4, 5, 6, 6], [S, A, B, B, 0, 1], [1] * 4)
        self.assertEqual((reading.crate_follows(g, range(4))[2], plain.follows(g)[2]), ({1, 3}, {1, 3}))
        # with c behind them A has it, but not by the Rust's rule
        g = Grammar(4, [0, 1, 2, 3, 3], [0, 1, 5, 6, 7, 7], [S, A, B, B, 2, 0, 1], [1] * 4)
        self.assertEqual((reading.crate_follows(g, range(4))[2], plain.follows(g)[2]), ({1}, {1, 2}))

    def test_edges_of_document_01(self):
        ring = [RULE + 1] + [RULE + r + 1 for r in range(1, 512)]
        for R, due in (512, 0), (513, 1), (1, 1):
            g = Grammar(R, list(range(R)), list(range(R)) + [R - 1], ring[: R - 1] or [0], [1, 1])
            self.assertEqual(plain.refusal(g), due)
        for last, length in ([], 0), ([0], 65536):
            bodies = [[RULE + 1]] + [[RULE + r + 1] * 2 for r in range(1, 60)] + [last]
            starts = [sum(map(len, bodies[:p])) for p in range(62)]
            twice = Grammar(61, list(range(61)), starts, sum(bodies, []), [0, 1])
            self.assertEqual(plain.lengths(twice)[0], length)
            self.assertEqual(refused(plain.sentence, twice, 0, 0), 15 if length else 0)
        self.assertEqual(refused(plain.sentence, example("g1"), 1, 0), 15)
        self.assertEqual(plain.sentence(example("g1"), 2, 0), [])
        self.assertEqual(plain.lengths(example("g3")), [65537, 65537])

    def test_refusals_of_a_grammar(self):
        g = example("g1")
        turned = Grammar(4, g.owners, [0, 3, 4, 4, 7, 6, 7], g.symbols, g.costs)
        wrong = {
            1: [g._replace(rules=1), g._replace(costs=[]), g._replace(owners=[0]), g._replace(symbols=[])],
            2: [g._replace(starts=g.starts[:-1]), g._replace(starts=[1, 3, 4, 4, 6, 6, 7]), turned,
                g._replace(symbols=g.symbols + [0])],
            3: [g._replace(owners=[1, 2, 2, 3, 4, 0])],
            4: [g._replace(owners=[1, 1, 1, 3, 3, 0])],
            5: [g._replace(symbols=[3] + g.symbols[1:]), g._replace(symbols=[RULE + 4] + g.symbols[1:])],
            6: [g._replace(owners=[1, 2, 2, 3, 0, 0]), g._replace(symbols=g.symbols[:-1] + [0]),
                g._replace(symbols=[RULE] + g.symbols[1:]), g._replace(owners=[0, 2, 2, 3, 3, 1]),
                *(exported(g, body) for body in ([], [0], [RULE], [RULE + 1] * 2, [RULE + 1, 0]))],
            0: [exported(g, [RULE + 3]), exported(g, [RULE + 1]), exported(exported(g, [RULE + 2]), [RULE + 3])],
        }
        for number, grammars in wrong.items():
            for k, other in enumerate(grammars):
                with self.subTest(f"{number}, {k}"):
                    self.assertEqual(plain.refusal(other), number)
        self.assertEqual(refused(plain.production, g, 6), 11)
        self.assertEqual(plain.production(g, 0), [RULE + 2, 0, RULE + 3])
        self.assertEqual([refused(plain.has_path, g, 4, 0), refused(plain.has_path, g, 0, 4)], [9, 9])
        self.assertEqual(refused(plain.sentence, g, 4), 9)

    def test_refusals_of_a_file(self):
        flat = "4 4 6 7  1 2 2 3 3 0  0 3 4 4 6 6 7  32770 0 32771 2 1 0 32769"
        flat, ones = [int(word) for word in flat.split()], bytes([1] * 4)
        g1 = block_file(flat, ones)

        def other(at, value):
            return block_file(flat[:at] + [value] + flat[at + 1 :], ones)

        def second(costs, at=0, value=4 + 32768, rest=b""):
            numbers = [4 + 32768] + flat[1:]
            return block_file(numbers[:at] + [value] + numbers[at + 1 :], bytes(costs) + rest)

        next_block, free = block_file([], b"", 1), [1, 0, 1, 1]
        files = {
            0: [g1, block_file(flat, bytes(4)), second(ones), second([1, 1, 1, 0])],
            20: [b"", g1[:511], g1 + b"\0", g1 * 99],
            21: [g1[:511] + b"\0", g1[:300] + b"\1" + g1[301:], block_file(flat, ones, 1) + g1[:511] + b"\0"],
            22: [block_file(flat, ones, 1), g1 * 2, g1 * 98, block_file([0], b"", 2)],
            1: [other(0, 1), other(1, 0), other(2, 4097), other(3, 16385), other(0, 1) + next_block,
                other(0, 32768), other(0, 32769), other(0, 32768 + 513), other(0, 65535), second(free, 0, 32768)],
            23: [g1 + next_block, block_file(flat, ones + b"\1"), other(1, 512), second(free, rest=b"\1"),
                 second(free) + next_block],
            25: [second(free), second([0, 1, 1, 1]), second([1, 1, 0, 1]), second(bytes(4)), second(free, 10, 1),
                 second(free, 4, 4), second(free, 9, 1), second(free, 17, 3), second(free, 17, 32768)],
            2: [other(10, 1), other(11, 5), second(ones, 10, 1)],
            3: [other(4, 4)],
            4: [other(9, 1)],
            5: [other(17, 3), other(17, 32772)],
            6: [other(17, 32768), other(23, 0)],
        }
        for number, data in [(number, data) for number in files for data in files[number]]:
            with self.subTest(f"{number}, {data[:60].hex()}"):
                self.assertEqual(refused(plain.read, data), number)
                if number:
                    self.assertEqual(plain.report(data), f"refused {number}\n")

    def test_random_grammars_against_the_definitions(self):
        dice = random.Random(1)
        for k in range(60):
            g = random_grammar(dice)
            with self.subTest(f"{k}: {g}"):
                self.assertEqual(plain.refusal(g), 0)
                derived = [forms(g, r, 5) for r in range(g.rules)]
                self.assertEqual(plain.firsts(g), [{f[0] for f in fs if f and f[0] < RULE} for fs in derived])
                self.assertEqual(plain.empties(g), {r for r, fs in enumerate(derived) if () in fs})
                for a, b in itertools.product(range(g.rules), repeat=2):
                    self.assertEqual(plain.has_path(g, a, b), any(RULE + b in f for f in derived[a]))
                self.assertEqual(plain.follows(g), closed_follow(g))
                self.assertEqual(plain.follows(g), standing(g, 7))
                paid = sentence_costs(g, 60)
                self.assertEqual(plain.productives(g), {r for r, held in enumerate(paid) if held})
                self.assertEqual(plain.costs(g), [min(held, default=65537) for held in paid])

    def visits_settle(self, g, dice):
        first, empty, follow, productive, cost = plain.cleared(g)
        settled(g, dice, lambda p, *held: plain.visit_first(g, p, *held), first, empty)
        self.assertEqual((first, empty), (plain.firsts(g), plain.empties(g)))
        settled(g, dice, lambda p, held: plain.visit_follow(g, p, held, first, empty, plain.reached(g)), follow)
        self.assertEqual(follow, plain.follows(g))
        self.assertEqual(follow, closed_follow(g))
        settled(g, dice, lambda p, held: plain.visit_productive(g, p, held), productive)
        self.assertEqual(productive, plain.productives(g))
        settled(g, dice, lambda p, held: plain.visit_cost(g, p, held), cost)
        self.assertEqual(cost, plain.costs(g))

    def test_visits_settle_on_the_definitions(self):
        dice = random.Random(3)
        for path in sorted(EXAMPLES.glob("*.blk")):
            with self.subTest(path.name):
                self.visits_settle(plain.read(path.read_bytes()), dice)
        for k in range(20):
            g = random_grammar(dice)
            with self.subTest(f"{k}: {g}"):
                self.visits_settle(g, dice)

    def test_two_rounds_of_g1(self):
        g = example("g1")
        first, empty = plain.cleared(g)[:2]
        for marks in set(), {0, 2}:
            for p in 5, 0, 1, 2, 3, 4:
                plain.visit_first(g, p, first, empty)
            self.assertEqual(first[1], marks)

    def test_follow_goes_right_to_left(self):
        # start: A; A: A B; A: a; B: b. B takes what A has before A takes b.
        g = Grammar(3, [0, 1, 1, 2], [0, 1, 3, 4, 5], [RULE + 1, RULE + 1, RULE + 2, 0, 1], [1, 1, 1])
        first, empty, follow = plain.firsts(g), plain.empties(g), [{2}, {2}, set()]
        for changed, held in (True, [{2}, {1, 2}, {2}]), (True, [{2}, {1, 2}, {1, 2}]), (False, [{2}, {1, 2}, {1, 2}]):
            self.assertEqual(plain.visit_follow(g, 1, follow, first, empty, {0, 1, 2}), changed)
            self.assertEqual(follow, held)

    def test_profile_of_the_examples(self):
        verdicts = {
            "g3": (1, 1, 2, 0), "sheets": (3, 3, 4, 0), "rows": (6, 10, 11, 2), "climate": (3, 41, 42, 0),
            "load": (3, 3, 4, 0), "one-comma": (3, 3, 4, 1),
        }
        for path in sorted(EXAMPLES.glob("*.blk")):
            with self.subTest(path.name):
                self.assertEqual(plain.profile(plain.read(path.read_bytes())), verdicts.get(path.stem))

    def test_order_of_clashes(self):
        A, E = RULE + 1, RULE + 2
        # productions 0 and 5 before 1 and 2, whatever their tokens
        for tokens in [0, 1, 1, 2, 3, 0], [3, 0, 0, 1, 2, 3]:
            g = Grammar(2, [1] * 6 + [0], list(range(8)), tokens + [A], [1] * 5)
            self.assertEqual(plain.profile(g), (1, 0, 5, tokens[0]))
        # start: A; start: A; A: a; A: a: rule 0 is the least
        g = Grammar(2, [0, 0, 1, 1], [0, 1, 2, 3, 4], [A, A, 0, 0], [1, 1])
        self.assertEqual(plain.profile(g), (0, 0, 1, 0))
        # start: A; A: E; A: nothing; A: a; E: a; E: nothing: eof of the first two, then a of the first and third
        g = Grammar(3, [0, 1, 1, 1, 2, 2], [0, 1, 2, 2, 3, 4, 4], [A, E, 0, 0], [1, 1])
        self.assertEqual(plain.profile(g), (1, 1, 2, 1))

    def test_two_that_vanish(self):
        # start: S; S: a; U: nothing twice. U is dead, so they share none
        g = Grammar(3, [0, 1, 2, 2], [0, 1, 2, 2, 2], [RULE + 1, 0], [1, 1])
        self.assertEqual(plain.profile(g), (2, 2, 3, 2))
        # with U an export eof follows it
        self.assertEqual(plain.profile(exported(g, [RULE + 2])), (2, 2, 3, 1))
        # start: A; A: nothing twice: the token is eof, also where it is the only one
        for T in 1, 32, 33, 512:
            g = Grammar(2, [0, 1, 1], [0, 1, 1, 1], [RULE + 1], [1] * T)
            self.assertEqual(plain.profile(g), (1, 1, 2, T - 1))
        self.assertEqual(refused(plain.profile, g._replace(rules=3)), 4)

    def test_random_profiles_against_forms(self):
        dice, seen = random.Random(5), collections.Counter()
        for k in range(200):
            g = random_grammar(dice)
            with self.subTest(f"{k}: {g}"):
                found = plain.profile(g)
                self.assertEqual(found, min(clashes(g, 6), default=None))
                seen["passes" if found is None else "T" if found.token == len(g.costs) else "token"] += 1
        self.assertEqual(set(seen), {"passes", "T", "token"})

    def dearest_is(self, costs, bodies, *due):
        """Rule 0 is rule 1, and the rules behind it have these productions, lists of their symbols."""
        own = [(0, [RULE + 1])] + [(r, body) for r, rule in enumerate(bodies, 1) for body in rule]
        self.assertEqual(plain.dearest(grammars.grammar(len(bodies) + 1, costs, own)), [due[0], *due])

    def test_dearest_of_the_examples(self):
        due = {
            "g1": [4, 4, 1, 2], "g2": [3, 3, 1, 1], "g3": [1, 1], "g4": [65536] * 2, "g5": [65537] * 2,
            "g5-dear": [65537] * 2, "g5-either": [65537] * 2, "g6": [65535] * 2,
            "house": [142, 142, *[11] * 12, *[4, 3, 1] * 12, 9, 5, 3, 4, 3, 1, 1, 2],
        }
        for name, entries in due.items():
            with self.subTest(name):
                self.assertEqual(plain.dearest(example(name)), entries)

    def test_dearest_where_the_rust_differs(self):
        A, B, ones = RULE + 1, RULE + 2, [1, 1, 1]
        self.dearest_is(ones, [[[0], [B]], [[0, 0]]], 2, 2)  # early settling
        self.dearest_is(ones, [[[0], [B]], [[1, 1, 1]]], 3, 3)
        self.dearest_is(ones, [[[A]]], 65536)  # no sentence
        self.dearest_is(ones, [[[0, 0], [0, B, 0]], [[B, 0]]], 2, 65536)
        self.dearest_is(ones, [[[A], []]], 0)  # loops of no cost
        self.dearest_is(ones, [[[A], [0]]], 1)
        self.dearest_is([0, 0], [[[A, 0], [0]]], 0)
        self.dearest_is([0, 0], [[[A, A], [0]]], 0)
        self.dearest_is([0, 1, 1], [[[A, B], [1]], [[B, 0], [0]]], 1, 0)
        self.dearest_is([0, 1, 1], [[[B, 0], [1]], [[0, A], [1, 1]]], 2, 2)
        # two exports: the greater of both
        g = grammars.grammar(3, ones, [(0, [A]), (1, [0]), (2, [0, 1]), (0, [B])])
        self.assertEqual(plain.dearest(g), [2, 1, 2])

    def test_dearest_without_bound(self):
        A, B, C = RULE + 1, RULE + 2, RULE + 3
        self.dearest_is([1, 1], [[[A, A], [0]]], 65535)
        self.dearest_is([0, 1, 1], [[[0, A], [1, A], []]], 65535)
        # round B and C without gain, but C holds A beside it, which can cost something
        self.dearest_is([1, 1], [[[0], []], [[C]], [[B, A], []]], 1, 65535, 65535)
        # the same where the gain is in a production without a sentence
        self.dearest_is([1, 1], [[[0], []], [[C]], [[B, A, RULE + 4], []], [[RULE + 4]]], 1, 0, 0, 65536)
        # a rule without bound beats a bound above 65534, and one without a sentence beats both
        for more, due in ([C], 65535), ([C, RULE + 4], 0):
            bodies = [[[B, *more], []], [[0] * 257], [[0, C], [0]], [[RULE + 4]]]
            self.dearest_is([255, 1], bodies, due, 65537, 65535, 65536)

    def test_dearest_around_65534(self):
        for ones, due in (253, 65533), (254, 65534), (255, 65537), (256, 65537):
            self.dearest_is([255, 1, 0], [[[0] * 256 + [1] * ones]], due)
        # 500 rules, each twice the next: 1, 2, 4, .. 32768, and then above
        twice = [[[RULE + r + 1] * 2] for r in range(1, 501)]
        self.dearest_is([1, 1], twice + [[[0]]], *[65537] * 485, *(1 << k for k in range(15, -1, -1)))
        self.dearest_is([0, 1], twice + [[[0]]], *[0] * 501)
        self.dearest_is([1, 1], twice + [[[RULE + 1]]], *[65536] * 501)
        self.dearest_is([1, 1], twice + [[[RULE + 1], [0]]], *[65535] * 501)

    def test_dearest_of_rows_and_rings(self):
        after = [RULE + r + 1 for r in range(1, 511)]
        # each a and the next one, the last a
        self.dearest_is([1, 1], [[[0, s]] for s in after] + [[[0]]], *range(511, 0, -1))
        # each the next one and the last the first; rule 256 has a way out, and then goes on at a cost
        ring = [[[s]] for s in after + [RULE + 1]]
        self.dearest_is([1, 1], ring, *[65536] * 511)
        ring[255].append([0, 0])
        self.dearest_is([1, 1], ring, *[2] * 511)
        ring[255].append([RULE + 257, 0])
        self.dearest_is([1, 1], ring, *[65535] * 511)

    def dearest_by_search(self, g, most, cap):
        """Holds DEAREST to the costs, up to the cap, of all sentences, where no bound is above that most; how many rules
        are without bound, and how many without a sentence."""
        entries = plain.dearest(g)
        for entry, paid in zip(entries, sentence_costs(g, cap)):
            if entry == 65535:
                self.assertGreater(max(paid), most)
            else:
                self.assertEqual(entry, max(paid, default=65536))
        return collections.Counter(entry for entry in entries if entry >= 65535)

    def test_dearest_of_all_small_grammars(self):
        # the dearest with a bound are A: B B; B: a a
        seen = collections.Counter()
        for g in grammars.small():
            seen += self.dearest_by_search(g, 4, 16)
        self.assertEqual(set(seen), {65535, 65536})

    def test_dearest_of_random_grammars(self):
        # at most three doublings of a token that costs 3
        dice, seen = random.Random(6), collections.Counter()
        for k in range(400):
            g = random_grammar(dice)
            with self.subTest(f"{k}: {g}"):
                seen += self.dearest_by_search(g, 24, 60)
        self.assertEqual(set(seen), {65535, 65536})

    def test_random_sentences(self):
        dice = random.Random(2)
        for k in range(60):
            g = random_grammar(dice)
            choice = plain.first_choices(g)
            for r in range(g.rules):
                with self.subTest(f"{k}: {g}, rule {r}"):
                    number = refused(plain.sentence, g, r)
                    self.assertIn(number, (0, 12, 14))
                    if number == 0:
                        parts = [plain.sentence(g, s - RULE) if s >= RULE else [s] for s in choice[r]]
                        said = plain.sentence(g, r)
                        self.assertEqual(said, sum(parts, []))
                        self.assertEqual(sum(g.costs[t] for t in said), plain.costs(g)[r])
                    if number != 12:
                        self.assertEqual(number == 0, ends(choice, r, g.rules))

    def list_is(self, g, r, rows):
        """The rule has these cheapest sentences, in this order."""
        self.assertEqual(plain.sentence_count(g, r), len(rows))
        self.assertEqual([plain.sentence_at(g, r, k) for k in range(len(rows))], rows)
        self.assertEqual(refused(plain.sentence_at, g, r, len(rows)), 16)
        self.assertEqual(refused(plain.sentence_at, g, r, 2**32 - 1), 16)

    def test_lists_of_document_01s_grammars(self):
        for r, rows in enumerate(([[0]], [[0]], [[]], [[]])):
            self.list_is(example("g1"), r, rows)
        self.list_is(example("g2"), 1, [[0, 2]])
        self.list_is(example("g5"), 1, [[0] * 257])
        self.list_is(example("g5-either"), 1, [[1]])
        self.list_is(example("g6"), 1, [[1]])
        self.assertEqual([refused(plain.sentence_count, example("g3"), r) for r in (0, 1, 2)], [14, 14, 9])
        self.assertEqual(refused(plain.sentence_count, example("g4"), 1), 12)
        self.assertEqual(refused(plain.sentence_at, example("g5-dear"), 1, 0), 13)
        self.assertEqual(plain.counts(example("g3")), [65537, 65537])

    def test_order_of_a_list(self):
        # A: X Y; X: a; X: b; Y: a; Y: c; A: b b; all cost 1: the last place turns fastest, then the next production
        A, X, Y = RULE + 1, RULE + 2, RULE + 3
        g = Grammar(4, [0, 1, 2, 2, 3, 3, 1], [0, 1, 3, 4, 5, 6, 7, 9], [A, X, Y, 0, 1, 0, 2, 1, 1], [1] * 4)
        self.list_is(g, 1, [[0, 0], [0, 2], [1, 0], [1, 2], [1, 1]])
        self.assertEqual(plain.counts(g), [5, 5, 2, 2])
        # A: a; A: X; X: a: a sentence with two derivations comes twice
        g = Grammar(3, [0, 1, 1, 2], [0, 1, 2, 3, 4], [A, 0, X, 0], [1, 1])
        self.list_is(g, 1, [[0], [0]])

    def test_lists_without_end(self):
        A, B = RULE + 1, RULE + 2
        # A: a; A: A has a sentence, by its first choice, and no list
        g = Grammar(2, [0, 1, 1], [0, 1, 2, 3], [A, 0, A], [1, 1])
        self.assertEqual((plain.sentence(g, 1), refused(plain.sentence_count, g, 1)), ([0], 14))
        # B comes to A by its second cheapest production
        g = Grammar(3, [0, 2, 2, 1, 1], [0, 1, 2, 3, 4, 5], [B, 0, A, 0, A], [1, 1])
        self.assertEqual((plain.sentence(g, 2), refused(plain.sentence_at, g, 2, 0)), ([0], 14))
        self.assertEqual(plain.counts(g), [65537] * 3)
        # A: a; A: A a goes round at a cost, so not through cheapest productions
        self.list_is(Grammar(2, [0, 1, 1], [0, 1, 2, 4], [A, 0, A, 0], [1, 1]), 1, [[0]])

    def test_counts_around_65535(self):
        # A: B C, with 257 and 255 or 256 productions of nothing
        for more, count in (255, 65535), (256, 65536):
            owners = [0, 1] + [2] * 257 + [3] * more
            g = Grammar(4, owners, [0, 1] + [3] * (257 + more + 1), [RULE + 1, RULE + 2, RULE + 3], [1])
            self.assertEqual(plain.counts(g), [count, count, 257, more])
            self.assertEqual(refused(plain.sentence_count, g, 1), 0 if count == 65535 else 16)
        # sixty rules, each twice the next, and the last is nothing by two productions: 2, 4, 16, 256, and then too many
        bodies = [[RULE + 1]] + [[RULE + r + 1] * 2 for r in range(1, 60)] + [[], []]
        starts = [sum(map(len, bodies[:p])) for p in range(63)]
        many = Grammar(61, [*range(61), 60], starts, sum(bodies, []), [1])
        self.assertEqual(plain.counts(many), [65536] * 57 + [256, 16, 4, 2])

    def test_room_for_a_row(self):
        # A: f f; A: nothing, and f is free: rows of other lengths
        g = Grammar(2, [0, 1, 1], [0, 1, 3, 3], [RULE + 1, 0, 0], [0, 1])
        self.list_is(g, 1, [[0, 0], []])
        self.assertEqual([refused(plain.sentence_at, g, 1, 0, room) for room in (0, 1, 2)], [15, 15, 0])
        self.assertEqual([refused(plain.sentence_at, g, 1, 1, room) for room in (0, 1, 2)], [0, 0, 0])
        self.assertEqual(refused(plain.sentence_at, g, 1, 2, 0), 16)

    def test_random_lists_against_leftmost_derivations(self):
        dice, seen = random.Random(4), set()
        for k in range(300):
            g = random_grammar(dice)
            cost, choices = plain.costs(g), plain.cheapest(g, plain.known_costs(g))
            for r in range(g.rules):
                with self.subTest(f"{k}: {g}, rule {r}"):
                    number = refused(plain.sentence_count, g, r)
                    seen.add(number)
                    self.assertIn(number, (0, 12, 14))
                    if number == 12:
                        continue
                    # R levels of at most two rules each: a list that ends has no longer derivation
                    rows = itertools.islice(leftmost(g, cost, [RULE + r], 2**g.rules), 3000)
                    rows = list(rows) if number == 0 else next((row for row in rows if row is None), 0)
                    if number == 14:
                        self.assertIsNone(rows)
                        continue
                    self.list_is(g, r, rows)
                    self.assertEqual(plain.sentence_lists(choices, [r]), {r: rows})
                    self.assertEqual(plain.sentence(g, r), rows[0])
        self.assertEqual(seen, {0, 12, 14})


if __name__ == "__main__":
    unittest.main()
