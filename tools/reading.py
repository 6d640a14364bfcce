"""What document 01 says of the costs and sentences of a grammar, and what the loops of the Rust make of them: where
they do not return, where they panic, and what they write; what document 02 says of lists of sentences, and how much
work they are for the Rust; the FOLLOW of the Rust; and its greatest costs, and why they may be others than document
02's. All is worked out from the grammar alone, but for the last, which takes the greatest costs as given."""
import collections
import functools
import math

import plain
from named import refused, returned
from plain import MOST, NONE, RULE, UNBOUNDED

ROWS, TOKENS = 300, 10_000  # a list of more is not asked for
STEPS = 100_000  # so many steps of min_sentence and of min_sentences fit well into the oracle's time
# Why the Rust's greatest cost of a rule may be another than document 02's.
EARLY, WITHOUT, FREE = "a rule settled too soon", "a production without a sentence", "a loop of no cost"


def circle(links):
    return any(r in plain.linked(r, links) for r in links)


def crate_follows(g, counting):
    """FOLLOW by the Rust's rule, over the productions of the rules that count: of what stands behind a rule the next
    symbol alone is read, and FOLLOW of the owner where all of that can vanish. In the Rust all rules count."""
    first, empty = plain.firsts(g), plain.empties(g)
    own = [set() for _ in range(g.rules)]
    own[0].add(g.eof)
    heirs = {}  # the rules that have all of a rule's FOLLOW
    for r, body in g.productions():
        for k, a in enumerate(body if r in counting else []):
            if a >= RULE:
                own[a - RULE] |= plain.begins(body[k + 1 : k + 2], first, empty)
                if plain.vanishes(body[k + 1 :], empty):
                    heirs.setdefault(r, set()).add(a - RULE)
    return plain.handed_on(own, heirs)


class Overflow(Exception):
    """A sum of rule_max_costs comes to 65535."""


def crate_sum(g, body, cost):
    """A production's sum as rule_max_costs adds it up: no bound at the first rule that has none."""
    total = 0
    for s in body:
        if s >= RULE and cost[s - RULE] == UNBOUNDED:
            return UNBOUNDED
        total += cost[s - RULE] if s >= RULE else g.costs[s]
        if total >= UNBOUNDED:
            raise Overflow
    return total


def crate_turn(g, bodies, cost, settled):
    """What a turn of rule_max_costs gives a rule of these productions, and whether that settles it: where it has no
    bound, or where a production of settled rules alone comes to more than all others so far."""
    whole, rising = -1, -1
    for body in bodies:
        total = crate_sum(g, body, cost)
        if total == UNBOUNDED:
            return UNBOUNDED, True
        if settled.issuperset(plain.rules_of(body)):
            whole = max(whole, total)
        else:
            rising = max(rising, total)
    return max(whole, rising), whole > rising


def crate_dearest(g):
    """The greatest costs by the Rust's order of work: a rule that reaches itself has no bound, the others take turns
    until all are settled. None where it panics."""
    links, rules = plain.rule_links(g), range(g.rules)
    settled = {r for r in rules if r in plain.linked(r, links)}
    cost = [UNBOUNDED if r in settled else 0 for r in rules]
    bodies = [[body for owner, body in g.productions() if owner == r] for r in rules]
    try:
        while len(settled) < g.rules:
            for r in (r for r in rules if r not in settled):
                cost[r], whole = crate_turn(g, bodies[r], cost, settled)
                settled |= {r} if whole else set()
    except Overflow:
        return None
    return cost


def greatest(cost):
    return math.inf if cost == UNBOUNDED else cost


def parting(g, due, told):
    """Of each rule why the greatest costs that are told may be others than those due, for itself or for a rule that it
    reaches; where none is named they must be the same."""
    links, rules = plain.rule_links(g), range(g.rules)
    below = [plain.linked(r, links) for r in rules]
    own = [{WITHOUT} if due[r] == NONE else {FREE} if r in below[r] and due[r] != UNBOUNDED else set() for r in rules]
    for r, body in g.productions():
        if sum(greatest(told[s - RULE]) if s >= RULE else g.costs[s] for s in body) > greatest(told[r]):
            own[r].add(EARLY)
    return [own[r].union(*(own[rule] for rule in below[r])) for r in rules]


class Reading:
    """What the documents say of costs, sentences and lists of one grammar, and what the Rust's loops make of them."""

    def __init__(self, g):
        self.g = g
        self.bodies = collections.defaultdict(list)  # of each rule
        for r, body in g.productions():
            self.bodies[r].append(body)
        self.known = plain.least_costs(g)
        fit = {r: cost for r, cost in self.known.items() if cost <= MOST}
        self.choice = plain.cheapest_first(g, fit)
        self.lengths = plain.sentence_lengths(self.choice)
        self.taken, self.written = {}, {}
        self.choices = plain.cheapest(g, fit)
        self.counts = plain.list_counts(self.choices)
        self.longest, self.made = {}, {}

    def cost(self, r):
        if r not in self.known:
            return refused(12)
        return returned(self.known[r]) if self.known[r] <= MOST else refused(13)

    def sentence(self, r):
        if r not in self.choice:
            return self.cost(r)
        if r not in self.lengths:
            return refused(14)
        if self.lengths[r] > MOST:
            return refused(15)
        return returned(*plain.expanded(r, self.choice, self.lengths))

    def count(self, r):
        """How many cheapest sentences a rule has."""
        if r not in self.choices:
            return self.cost(r)
        if r not in self.counts:
            return refused(14)
        return returned(self.counts[r]) if self.counts[r] <= MOST else refused(16)

    def list(self, r):
        """All of them."""
        if "refused" in self.count(r):
            return self.count(r)
        return returned(*plain.sentence_lists(self.choices, [r])[r])

    def longest_row(self, r):
        """The length of the longest, of a rule with a list."""
        if r not in self.longest:
            rows = [sum(self.longest_row(s - RULE) if s >= RULE else 1 for s in body) for body in self.choices[r]]
            self.longest[r] = max(rows)
        return self.longest[r]

    def making(self, r):
        """The symbols and rows that min_sentences looks at and makes: the list of a rule again at each place."""
        if r not in self.made:
            places = sum(self.making(rule) for body in self.choices[r] for rule in plain.rules_of(body))
            longest = max(len(body) for body in self.choices[r]) + self.longest_row(r)
            self.made[r] = sum(len(body) for body in self.bodies[r]) + places + self.counts[r] * longest
        return self.made[r]

    def made_again(self, r):
        """Whether a rule has a list whose making takes the Rust long."""
        return r in self.counts and self.making(r) > STEPS

    def listed(self):
        """The rules whose lists are asked for, of ours and of the Rust: short ones that the Rust makes in time; as many
        as have some rows together."""
        found, rows = [], 0
        for r, count in self.counts.items():
            short = count <= ROWS and count * self.longest_row(r) <= TOKENS and not self.made_again(r)
            if short and rows + count <= 2 * ROWS:
                found.append(r)
                rows += count
        return found

    def costless(self, s, rules):
        return s - RULE in rules if s >= RULE else self.g.costs[s] == 0

    def loop(self, rules):
        """Whether a rule leads back to itself over productions whose other symbols are free tokens or these rules."""
        links = {}
        for r, body in self.g.productions():
            for k, s in enumerate(body):
                if s >= RULE and all(self.costless(x, rules) for x in body[:k] + body[k + 1 :]):
                    links.setdefault(r, set()).add(s - RULE)
        return circle(links)

    def stuck(self):
        """The rules whose lower bound stays 0: the largest set in which each has a production of free tokens and of
        such rules."""
        held = set(range(self.g.rules))
        while True:
            left = {r for r, body in self.g.productions() if all(self.costless(s, held) for s in body)} & held
            if left == held:
                return held
            held = left

    @functools.cached_property
    def endless(self):
        """Why rule_min_costs never returns; None if it must return or panic."""
        if len(self.known) < self.g.rules:
            return "a rule without a sentence"
        if self.loop({r for r, cost in self.known.items() if cost == 0}):
            return "a loop that adds no cost"
        if self.loop(self.stuck()):
            return "a loop that adds only rules whose lower bound stays 0"
        return None

    def dear(self, rules):
        """Whether a production of these rules costs more than 65535."""
        prices = [plain.price(self.g, body, self.known) for r in rules for body in self.bodies[r]]
        return any(price is not None and price > MOST for price in prices)

    @functools.cached_property
    def overflows(self):
        """Why rule_min_costs panics; None if it must not."""
        if len(self.known) < self.g.rules:
            return "a rule without a sentence"
        return "a sum above 65535" if self.dear(range(self.g.rules)) else None

    def asks(self, r):
        """Whether the sentence of a rule asks for costs."""
        return any(plain.rules_of(body) for body in self.bodies[r])

    def used(self, r):
        """The rules whose first choice is taken."""
        return {r} | plain.linked(r, {rule: plain.rules_of(body) for rule, body in self.choice.items()})

    def used_by_list(self, r):
        """The rules whose lists are made for the list of a rule."""
        links = {rule: {at for body in bodies for at in plain.rules_of(body)} for rule, bodies in self.choices.items()}
        return {r} | plain.linked(r, links)

    def place(self, r):
        """Whether a production used has a rule followed by a token or by a rule whose sentence is not empty."""
        for rule in self.used(r):
            body = self.choice[rule]
            before = next((k for k, s in enumerate(body) if s >= RULE), len(body))
            if any(s < RULE or self.lengths[s - RULE] > 0 for s in body[before + 1 :]):
                return True
        return False

    def steps(self, r, at=0):
        """The symbols that min_sentence looks at: the rest of a production again after each rule in it, and for each
        rule all of its productions."""
        if (r, at) not in self.taken:
            body = self.choice[r]
            total = len(body) - at + 1 + (0 if at else sum(len(other) for other in self.bodies[r]))
            for k in range(at, len(body)):
                if body[k] >= RULE:
                    total += self.steps(body[k] - RULE) + self.steps(r, k + 1)
            self.taken[r, at] = total
        return self.taken[r, at]

    def again(self, r, at=0):
        """What min_sentence writes, by taking the rest of a production again after each rule in it."""
        if (r, at) not in self.written:
            body = self.choice[r]
            tokens = [s for s in body[at:] if s < RULE]
            for k in reversed(range(at, len(body))):
                if body[k] >= RULE:
                    tokens += self.again(body[k] - RULE) + self.again(r, k + 1)
            self.written[r, at] = tokens
        return self.written[r, at]
