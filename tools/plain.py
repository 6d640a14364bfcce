#!/usr/bin/env python3
"""Document 01 once more, plain and slow: sets, recursion and whole numbers of any size; of document 02 the versions of
the block file, several exports in one grammar, that for FOLLOW only productions of reached rules count, all cheapest
sentences, entries of COST that tell dear from unknown, the profile of one-token readers, and the dearest sentences. It
is written from those texts, with the readings of their open points in docs/DECISIONS.md, and from no crate.

    tools/plain.py report FILE         the report of a block file; '-' stands for standard input

As a module it is there to be compared with. The tables follow the definitions and not the visits: what a rule may
start with is found over a graph, the cheapest costs are settled from the cheapest up (Knuth's way), and costs without
bound are found by which rules reach which. Single visits are there beside them. A refusal is the exception Refused with
its number. Tables are lists and sets of Python, whose lengths cannot be wrong, and FOLLOW takes no mode here: nothing
gives 7 or 8.
"""
import functools
import itertools
import sys
from typing import NamedTuple

RULE = 32768
VERSION = 32768  # what a version 2 file has added to its R field
MOST = 65535
DEAR = 65536
UNKNOWN = 65537
UNBOUNDED = 65535  # in DEAREST, where costs go up to 65534; NONE for no sentence, ABOVE for a bound above 65534
NONE = 65536
ABOVE = 65537
HEADING = "rule,empty,first,follow,cost"

sys.setrecursionlimit(10000)


class Refused(Exception):
    def __init__(self, number):
        super().__init__(f"refused {number}")
        self.number = number


class Grammar(NamedTuple):
    """R rules and four lists. A symbol below 32768 is a token, otherwise rule (value - 32768)."""

    rules: int
    owners: list
    starts: list
    symbols: list
    costs: list

    @property
    def eof(self):
        return len(self.costs) - 1

    def body(self, p):
        return self.symbols[self.starts[p] : self.starts[p + 1]]

    def productions(self):
        """Owner and symbols of each production, in rising number."""
        return [(owner, self.body(p)) for p, owner in enumerate(self.owners)]


def in_limits(R, T, P, N):
    return 2 <= R <= 512 and 1 <= T <= 512 and 2 <= P <= 4096 and 1 <= N <= 16384


def refusal(g):
    """The lowest of 1 to 6 that is due; 0 for a well-formed grammar."""
    R, T, P, N = g.rules, len(g.costs), len(g.owners), len(g.symbols)
    if not in_limits(R, T, P, N):
        return 1
    if len(g.starts) != P + 1 or g.starts[0] != 0 or g.starts[-1] != N:
        return 2
    if any(g.starts[p] > g.starts[p + 1] for p in range(P)):
        return 2
    if any(owner >= R for owner in g.owners):
        return 3
    if set(range(R)) - set(g.owners):
        return 4
    if any(s >= T - 1 if s < RULE else s - RULE >= R for s in g.symbols):
        return 5
    if any(owner == 0 and (len(body) != 1 or body[0] < RULE) for owner, body in g.productions()) or RULE in g.symbols:
        return 6
    return 0


def built(g):
    """Whether the Rust crate builds such a grammar: it is well-formed, and rule 0 owns one production."""
    return refusal(g) == 0 and g.owners.count(0) == 1


def check(g):
    if refusal(g):
        raise Refused(refusal(g))


def check_rule(g, *rules):
    if any(r >= g.rules for r in rules):
        raise Refused(9)


def production(g, p):
    """The symbols of a production."""
    check(g)
    if p >= len(g.owners):
        raise Refused(11)
    return g.body(p)


def least(step):
    """The least set that holds what the step adds to it."""
    held = set()
    while True:
        more = step(held)
        if more <= held:
            return held
        held |= more


def linked(start, links):
    """What one link or more leads to from there."""
    held = set()

    def go_on(at):
        for to in links.get(at, ()):
            if to not in held:
                held.add(to)
                go_on(to)

    go_on(start)
    return held


def rules_of(body):
    return [s - RULE for s in body if s >= RULE]


def vanishes(body, empty):
    return all(s >= RULE and s - RULE in empty for s in body)


def empties(g):
    """EMPTY: the rules that derive the form of no symbols."""
    check(g)
    return least(lambda held: {r for r, body in g.productions() if vanishes(body, held)})


def productives(g):
    """PRODUCTIVE: the rules that derive some token string."""
    check(g)
    return least(lambda held: {r for r, body in g.productions() if set(rules_of(body)) <= held})


def leads(body, empty):
    """The symbols before which everything may vanish."""
    found = []
    for s in body:
        found.append(s)
        if not vanishes([s], empty):
            break
    return found


def firsts(g):
    """FIRST of each rule: the tokens that symbols which a production may start with lead to."""
    check(g)
    empty = empties(g)
    links = {}
    for r, body in g.productions():
        links.setdefault(RULE + r, set()).update(leads(body, empty))
    return [{s for s in linked(RULE + r, links) if s < RULE} for r in range(g.rules)]


def rule_links(g):
    """The rules in each rule's productions."""
    links = {}
    for r, body in g.productions():
        links.setdefault(r, set()).update(rules_of(body))
    return links


def links_of(bodies):
    """The same by the productions of each rule."""
    return {r: {rule for body in own for rule in rules_of(body)} for r, own in bodies.items()}


def reached(g):
    """The reached rules: rule 0 and those that have a path from it."""
    check(g)
    return {0} | linked(0, rule_links(g))


def begins(body, first, empty):
    """The tokens that the forms which a body derives start with."""
    return set().union(*(first[s - RULE] if s >= RULE else {s} for s in leads(body, empty)))


def follows(g):
    """FOLLOW of each rule: over the productions of reached rules, the tokens that what stands behind it may start with,
    and FOLLOW of the owner where all of that can vanish."""
    check(g)
    first, empty, counting = firsts(g), empties(g), reached(g)
    own = [set() for _ in range(g.rules)]
    own[0].add(g.eof)
    heirs = {}  # the rules that have all of a rule's FOLLOW
    for r, body in g.productions():
        for k, a in enumerate(body if r in counting else []):
            if a >= RULE:
                own[a - RULE] |= begins(body[k + 1 :], first, empty)
                if vanishes(body[k + 1 :], empty):
                    heirs.setdefault(r, set()).add(a - RULE)
    return handed_on(own, heirs)


def handed_on(own, heirs):
    """The least table that has each rule's own marks, and for the heirs of a rule all that it has."""
    held = [set(marks) for marks in own]
    for r, marks in enumerate(own):
        for heir in linked(r, heirs):
            held[heir] |= marks
    return held


class Clash(NamedTuple):
    """Two productions of a rule that the next token does not tell apart, and the least token that they share: T where
    both can vanish and they share none."""

    rule: int
    lower: int
    higher: int
    token: int


def deciding(g):
    """Of each production the next tokens by which a reader takes it: those that it may start with, and FOLLOW of its
    owner where it can vanish."""
    first, empty, follow = firsts(g), empties(g), follows(g)
    return [begins(body, first, empty) | (follow[r] if vanishes(body, empty) else set()) for r, body in g.productions()]


def own_pairs(g):
    """The pairs of productions of one rule: by rule, lower production, higher production."""
    for r in range(g.rules):
        own = [p for p, owner in enumerate(g.owners) if owner == r]
        yield from ((r, lower, higher) for lower, higher in itertools.combinations(own, 2))


def profile(g):
    """The least clash by rule, lower production, higher production, token; None where the grammar passes."""
    check(g)
    tokens, empty = deciding(g), empties(g)
    for r, lower, higher in own_pairs(g):
        shared = tokens[lower] & tokens[higher]
        if shared:
            return Clash(r, lower, higher, min(shared))
        if vanishes(g.body(lower), empty) and vanishes(g.body(higher), empty):
            return Clash(r, lower, higher, len(g.costs))
    return None


def verdict(g):
    """The profile as five numbers: 1 and the least clash, or all 0 where the grammar passes."""
    clash = profile(g)
    return [1, *clash] if clash else [0] * 5


def has_path(g, a, b):
    """Whether rule a derives, in one step or more, a form that holds rule b."""
    check(g)
    check_rule(g, a, b)
    return b in linked(a, rule_links(g))


def price(g, body, known):
    """The cost of a body over the costs known of rules; None if a rule's is not."""
    if any(r not in known for r in rules_of(body)):
        return None
    return sum(known[s - RULE] if s >= RULE else g.costs[s] for s in body)


def least_costs(g):
    """The least cost of a sentence, however large, of each rule that has one."""
    settled = {}
    while True:
        sums = [(price(g, body, settled), r) for r, body in g.productions() if r not in settled]
        sums = [(cost, r) for cost, r in sums if cost is not None]
        if not sums:
            return settled
        cheapest = min(sums)[0]
        settled.update((r, cost) for cost, r in sums if cost == cheapest)


def costs(g):
    """COST of each rule: at most 65535, or 65536 if it has a sentence but none so cheap, or 65537 if it has none."""
    check(g)
    known = least_costs(g)
    return [min(known[r], DEAR) if r in known else UNKNOWN for r in range(g.rules)]


def known_costs(g):
    """The cost of each rule that has one, at most 65535."""
    return {r: cost for r, cost in enumerate(costs(g)) if cost <= MOST}


def sentence_cost(g, r):
    """The cost query."""
    check(g)
    check_rule(g, r)
    if r not in productives(g):
        raise Refused(12)
    cost = costs(g)[r]
    if cost > MOST:
        raise Refused(13)
    return cost


def sentence_bodies(g):
    """Of each rule that has a sentence the productions that derive one."""
    found = {r: [] for r in productives(g)}
    for r, body in g.productions():
        if set(rules_of(body)) <= found.keys():
            found[r].append(body)
    return found


def can_cost(g, s, rules):
    """Whether a symbol can cost something, those being the rules that can."""
    return s - RULE in rules if s >= RULE else g.costs[s] > 0


def costly(g, bodies):
    """The rules of which some sentence costs something."""
    symbols = {r: {s for body in own for s in body} for r, own in bodies.items()}
    return least(lambda held: {r for r, own in symbols.items() if any(can_cost(g, s, held) for s in own)})


def gaining(g, bodies):
    """Pairs of a rule and a rule in a production of it that can cost something at another place."""
    rules, found = costly(g, bodies), set()
    for r, body in ((r, body) for r, own in bodies.items() for body in own):
        places = [can_cost(g, s, rules) for s in body]
        others = sum(places)
        found |= {(r, s - RULE) for s, own in zip(body, places) if s >= RULE and others > own}
    return found


def reaching(bodies):
    """Of each rule the rules that it reaches through these productions, itself by none of them."""
    links = links_of(bodies)
    return {r: {r} | linked(r, links) for r in links}


def without_bound(g, bodies, below):
    """The rules that reach one which comes back to itself with something that can cost beside it."""
    growing = {r for r, rule in gaining(g, bodies) if r in below[rule]}
    return {r for r in below if below[r] & growing}


def greatest_costs(g, bodies, below, rules):
    """The greatest cost, however large, of each of these rules, which have a bound. Rules that reach one another add
    nothing on the way, so they have the same: that of a production of one of them which holds none of them."""
    known = {}

    def greatest(r):
        if r not in known:
            ring = {rule for rule in below[r] if r in below[rule]}
            leaving = [body for rule in ring for body in bodies[rule] if ring.isdisjoint(rules_of(body))]
            known.update(dict.fromkeys(ring, max(map(total, leaving))))
        return known[r]

    def total(body):
        return sum(greatest(s - RULE) if s >= RULE else g.costs[s] for s in body)

    return {r: greatest(r) for r in rules}


def dearest(g):
    """DEAREST of each rule: the greatest cost of a sentence, at most 65534, or 65535 if their costs are without bound,
    65536 if it has no sentence, 65537 if the greatest is above 65534."""
    check(g)
    bodies = sentence_bodies(g)
    below = reaching(bodies)
    unbounded = without_bound(g, bodies, below)
    known = greatest_costs(g, bodies, below, bodies.keys() - unbounded)
    found = dict.fromkeys(unbounded, UNBOUNDED) | {r: cost if cost < UNBOUNDED else ABOVE for r, cost in known.items()}
    return [found.get(r, NONE) for r in range(g.rules)]


def cheapest(g, known):
    """The productions whose cost equals the rule's, in rising number, of each rule whose cost is known."""
    found = {}
    for r, body in g.productions():
        if r in known and price(g, body, known) == known[r]:
            found.setdefault(r, []).append(body)
    return found


def cheapest_first(g, known):
    """The lowest-numbered production whose cost equals the rule's, of each rule whose cost is known."""
    choice = {}
    for r, body in g.productions():
        if r in known and r not in choice and price(g, body, known) == known[r]:
            choice[r] = body
    return choice


def first_choices(g):
    """The first choice of each rule that has a cost."""
    return cheapest_first(g, known_costs(g))


def grounded(choice):
    """The rules whose first choice holds only tokens and grounded rules."""
    return least(lambda held: {r for r, body in choice.items() if set(rules_of(body)) <= held})


def sentence_lengths(choice):
    """The token count, however large, of each grounded rule's sentence."""
    known = {}

    def length(r):
        if r not in known:
            known[r] = sum(length(s - RULE) if s >= RULE else 1 for s in choice[r])
        return known[r]

    return {r: length(r) for r in grounded(choice)}


def lengths(g):
    """The length entry of each rule: 65536 if longer than 65535, 65537 if ungrounded or without cost."""
    check(g)
    known = sentence_lengths(first_choices(g))
    return [min(known[r], MOST + 1) if r in known else MOST + 2 for r in range(g.rules)]


def expanded(r, choice, known):
    """The tokens of a rule's sentence, from first choices and the lengths of sentences."""
    if known[r] == 0:
        return []
    return [t for s in choice[r] for t in (expanded(s - RULE, choice, known) if s >= RULE else [s])]


def sentence(g, r, room=MOST):
    """The tokens of a rule's sentence, for an output of that room."""
    sentence_cost(g, r)
    choice = first_choices(g)
    known = sentence_lengths(choice)
    if r not in known:
        raise Refused(14)
    if known[r] > min(MOST, room):
        raise Refused(15)
    return expanded(r, choice, known)


def circular(choices):
    """The rules that, through these productions, reach or are a rule that so reaches itself."""
    links = links_of(choices)
    below = {r: linked(r, links) for r in links}
    around = {r for r in links if r in below[r]}
    return {r for r in links if r in around or below[r] & around}


def product(numbers):
    """Of numbers from 1 on; 65536 for more than 65535."""
    return functools.reduce(lambda held, number: min(held * number, MOST + 1), numbers, 1)


def list_counts(choices):
    """How many derivations through these productions each rule has that is not circular; 65536 for more than 65535."""
    known, without = {}, circular(choices)

    def count(r):
        if r not in known:
            known[r] = min(sum(product(map(count, rules_of(body))) for body in choices[r]), MOST + 1)
        return known[r]

    return {r: count(r) for r in choices if r not in without}


def sentence_lists(choices, rules):
    """The whole lists of these rules, which are not circular: productions rising, and within one the last place turning
    fastest."""
    known = {}

    def rows(r):
        if r not in known:
            known[r] = [sum(parts, []) for body in choices[r] for parts in itertools.product(*map(places, body))]
        return known[r]

    def places(s):
        return rows(s - RULE) if s >= RULE else [[s]]

    return {r: rows(r) for r in rules}


class Numbered:
    """Row k of a rule's list of at most 65535, without the rows before it: the production by the counts, the places by
    division."""

    def __init__(self, choices):
        self.choices, self.counts = choices, list_counts(choices)
        self.known = {}

    def parts(self, r, k):
        """The symbols of the production that row k goes through, each with the number of its own row, 0 for a token."""
        for body in self.choices[r]:
            counts = [self.counts[s - RULE] if s >= RULE else 1 for s in body]
            if k < product(counts):
                break
            k -= product(counts)
        numbers = []
        for count in reversed(counts):
            numbers.append(k % count)
            k //= count
        return list(zip(body, reversed(numbers)))

    def length(self, r, k):
        if (r, k) not in self.known:
            self.known[r, k] = sum(self.length(s - RULE, n) if s >= RULE else 1 for s, n in self.parts(r, k))
        return self.known[r, k]

    def row(self, r, k):
        if self.length(r, k) == 0:
            return []
        return [t for s, n in self.parts(r, k) for t in (self.row(s - RULE, n) if s >= RULE else [s])]


def counts(g):
    """The count entry of each rule: 65536 for more than 65535, 65537 if circular or without cost."""
    check(g)
    known = list_counts(cheapest(g, known_costs(g)))
    return [known.get(r, MOST + 2) for r in range(g.rules)]


def numbered(g, r):
    """The rule's list by numbers; refusals 12, 13, 14, and 16 where it has more than 65535 rows."""
    sentence_cost(g, r)
    found = Numbered(cheapest(g, known_costs(g)))
    if r not in found.counts:
        raise Refused(14)
    if found.counts[r] > MOST:
        raise Refused(16)
    return found


def sentence_count(g, r):
    """How many cheapest sentences a rule has, one for each derivation through cheapest productions."""
    return numbered(g, r).counts[r]


def sentence_at(g, r, k, room=MOST):
    """The tokens of a rule's cheapest sentence number k, from 0, for an output of that room."""
    found = numbered(g, r)
    if k >= found.counts[r]:
        raise Refused(16)
    if found.length(r, k) > min(MOST, room):
        raise Refused(15)
    return found.row(r, k)


def cleared(g):
    """Cleared tables: FIRST, EMPTY, FOLLOW, PRODUCTIVE, COST."""
    check(g)
    follow = [{g.eof}] + [set() for _ in range(1, g.rules)]
    return [set() for _ in range(g.rules)], set(), follow, set(), [UNKNOWN] * g.rules


def visit_first(g, p, first, empty):
    """One visit of FIRST and EMPTY. Each visit changes its table and answers whether it did."""
    body, r = production(g, p), g.owners[p]
    before = set(first[r]), r in empty
    for s in body:
        first[r] |= first[s - RULE] if s >= RULE else {s}
        if s < RULE or s - RULE not in empty:
            break
    else:
        empty.add(r)
    return (first[r], r in empty) != before


def visit_follow(g, p, follow, first, empty, reached):
    """One visit of FOLLOW. A production of a rule that is not among those held as reached changes nothing."""
    body, r = production(g, p), g.owners[p]
    if r not in reached:
        return False
    before = [set(held) for held in follow]
    for k in reversed(range(len(body))):
        if body[k] < RULE:
            continue
        held, after = follow[body[k] - RULE], body[k + 1 :]
        if vanishes(after, empty):
            held |= follow[r]
        for s in after:
            held |= first[s - RULE] if s >= RULE else {s}
            if not vanishes([s], empty):
                break
    return follow != before


def visit_productive(g, p, productive):
    """One visit of PRODUCTIVE."""
    body, r = production(g, p), g.owners[p]
    before = r in productive
    if set(rules_of(body)) <= productive:
        productive.add(r)
    return (r in productive) != before


def visit_cost(g, p, cost):
    """One visit of COST. An unknown part makes the sum unknown, and then nothing changes; otherwise a dear part, or a
    total above 65535, makes it dear."""
    body, r = production(g, p), g.owners[p]
    before = cost[r]
    parts = [cost[s - RULE] if s >= RULE else g.costs[s] for s in body]
    if not any(part >= UNKNOWN for part in parts):
        dear = DEAR in parts or sum(parts) > MOST
        cost[r] = min(cost[r], DEAR if dear else sum(parts))
    return cost[r] != before


def low_first(data):
    """The number that two bytes say."""
    return data[0] + 256 * data[1]


def check_costs(version, costs):
    """25: in version 2 a token other than eof, the last, costs nothing."""
    if version == 2 and 0 in costs[:-1]:
        raise Refused(25)


def read_tables(data):
    """A block file's version and the grammar that it says, well formed or not; refusals 20, 21, 22, 1, 23 and 25."""
    if not data or len(data) % 512 or len(data) > 98 * 512:
        raise Refused(20)
    blocks = [data[k : k + 512] for k in range(0, len(data), 512)]
    if any(sum(block[:510]) % 65536 != low_first(block[510:]) for block in blocks):
        raise Refused(21)
    if any(low_first(block) != k for k, block in enumerate(blocks)):
        raise Refused(22)
    payload = b"".join(block[2:510] for block in blocks)
    field, T, P, N = (low_first(payload[2 * k :]) for k in range(4))
    version, R = (2, field - VERSION) if field >= VERSION else (1, field)
    if not in_limits(R, T, P, N):
        raise Refused(1)
    numbers = 4 + P + (P + 1) + N
    due = 2 * numbers + T
    if len(blocks) != (due + 507) // 508 or any(payload[due:]):
        raise Refused(23)
    said, costs = [low_first(payload[2 * k :]) for k in range(4, numbers)], list(payload[2 * numbers : due])
    check_costs(version, costs)
    return version, Grammar(R, said[:P], said[P : 2 * P + 1], said[2 * P + 1 :], costs)


def read(data):
    """The well-formed grammar that a block file of either version says; refusals 20, 21, 22, 1, 23, 25, then 2 to 6."""
    _, g = read_tables(data)
    check(g)
    return g


def cost_word(cost, productive):
    if cost <= MOST:
        return str(cost)
    return "dear" if productive else "none"


def report(data):
    """The report on a block file, as text."""
    try:
        g = read(data)
    except Refused as refused:
        return f"{refused}\n"
    empty, first, follow, cost, productive = empties(g), firsts(g), follows(g), costs(g), productives(g)
    lines = [HEADING]
    for r in range(g.rules):
        sets = [" ".join(str(t) for t in sorted(held)) for held in (first[r], follow[r])]
        lines.append(f"{r},{int(r in empty)},{sets[0]},{sets[1]},{cost_word(cost[r], r in productive)}")
    return "\n".join(lines) + "\n"


def main(words):
    if len(words) != 2 or words[0] != "report":
        print("use: tools/plain.py report FILE", file=sys.stderr)
        return 2
    try:
        with open(0 if words[1] == "-" else words[1], "rb") as file:
            print(report(file.read()), end="")
    except OSError as error:
        print(f"plain: {words[1]}: {error.strerror}", file=sys.stderr)
        return 2
    return 0


if __name__ == "__main__":
    sys.exit(main(sys.argv[1:]))
