"""Flat grammars to compare with: all small ones, random ones by shape, and damaged ones.

small() gives every grammar within a bound, in a fixed order. shapes has a function for each shape of well-formed
grammar, of a random.Random: one seed gives the same grammars again. In all of these rule 0 owns one production, so that
the Rust crate builds them too; more_starts() gives a grammar further ones. damages has a function for each refusal 1 to
6, of a random.Random and a grammar, that makes this refusal due. A grammar is plain.Grammar; line() is its form for
tools/oracle.
"""
import itertools

from block_text import blocks
from plain import RULE, Grammar

WORD_EDGES = (31, 32, 33, 64, 511, 512)  # sizes around a word's bits, and the largest
MOST_RULES, MOST_TOKENS, MOST_PRODUCTIONS, MOST_SYMBOLS = 512, 512, 4096, 16384


def grammar(rules, costs, bodies):
    """The flat grammar of pairs of owner and symbols."""
    starts = [0, *itertools.accumulate(len(body) for _, body in bodies)]
    return Grammar(rules, [r for r, _ in bodies], starts, [s for _, body in bodies for s in body], costs)


def line(g):
    """The grammar as one line of numbers: R T P N, owners, starts, symbols, costs."""
    sizes = [g.rules, len(g.costs), len(g.owners), len(g.symbols)]
    return " ".join(str(n) for n in sizes + g.owners + g.starts + g.symbols + g.costs)


def shown(g):
    """The grammar as a person reads it."""

    def name(s):
        return f"R{s - RULE}" if s >= RULE else f"t{s}"

    lines = [f"R{r}: " + " ".join(blocks.folded(name(s) for s in body)) for r, body in g.productions()]
    return "; ".join(lines) + "; costs " + " ".join(str(cost) for cost in g.costs)


# All small grammars.


def small():
    """Every grammar of one or two rules besides rule 0, no or one token besides eof, one to three productions besides
    rule 0's, each of at most two symbols, and a token cost of 0 or 1; up to the order of productions of different
    rules, which changes no answer. 20,559 grammars."""
    for others, tokens, count in itertools.product((1, 2), (0, 1), (1, 2, 3)):
        symbols = [*range(tokens), *(RULE + r for r in range(1, others + 1))]
        bodies = [body for size in range(3) for body in itertools.product(symbols, repeat=size)]
        owners = [each for each in itertools.combinations_with_replacement(range(1, others + 1), count)
                  if len(set(each)) == others]
        for start, cost, each in itertools.product(range(1, others + 1), range(tokens + 1), owners):
            for chosen in itertools.product(bodies, repeat=count):
                own = [(0, [RULE + start])]
                yield grammar(others + 1, [cost] * tokens + [0], own + [(r, [*b]) for r, b in zip(each, chosen)])


# Shapes. Each function makes the productions of the rules besides rule 0.


def started(draw, rules, costs, bodies, start=None):
    """The grammar with rule 0's production at some place. Where no start is given, it is any rule."""
    own = 0, [RULE + (start or draw.randrange(1, rules))]
    at = draw.randint(0, len(bodies))
    return grammar(rules, costs, bodies[:at] + [own] + bodies[at:])


def shuffled(draw, rules, costs, bodies, start=None):
    """The same with the productions in any order."""
    draw.shuffle(bodies)
    return started(draw, rules, costs, bodies, start)


def any_costs(draw, tokens, least=0, most=3):
    """Costs of so many tokens, and eof's, which no sentence has."""
    return [draw.randint(least, most) for _ in range(tokens)] + [draw.randint(0, 255)]


def any_body(draw, rules, tokens, most, share=0.5):
    """At most so many symbols, of these rules and tokens; a rule with that chance."""
    symbols = []
    for _ in range(draw.randint(0, most)):
        if rules and (not tokens or draw.random() < share):
            symbols.append(RULE + draw.choice(rules))
        elif tokens:
            symbols.append(draw.choice(tokens))
    return symbols


def more(draw, rules, tokens, count, most=3):
    """So many further productions of these rules."""
    return [(draw.choice(rules), any_body(draw, rules, tokens, most)) for _ in range(count)]


def sizes(draw, rules=5, tokens=4):
    """Ranges of at least one rule besides rule 0, and of at least one token."""
    return range(1, draw.randint(1, rules) + 1), range(draw.randint(1, tokens))


def anything(draw):
    """Nothing is shut out; tokens may be none."""
    rules, tokens = range(1, draw.randint(1, 5) + 1), range(draw.randint(0, 4))
    bodies = [(r, any_body(draw, rules, tokens, 4, 0.6)) for r in rules]
    bodies += more(draw, rules, tokens, draw.randint(0, 4), 4)
    return shuffled(draw, len(rules) + 1, any_costs(draw, len(tokens)), bodies)


def way_out(draw):
    """Each rule has a production of tokens, and those cost something."""
    rules, tokens = sizes(draw)
    bodies = [(r, any_body(draw, [], tokens, 4)) for r in rules] + more(draw, rules, tokens, draw.randint(0, 5), 4)
    return shuffled(draw, len(rules) + 1, any_costs(draw, len(tokens), 1), bodies)


def layered(draw):
    """A rule holds only the next two, in longer productions, and tokens may be dear."""
    rules, tokens = sizes(draw)
    owners = [*rules, *(draw.choice(rules) for _ in range(draw.randint(0, 5)))]
    bodies = [(r, any_body(draw, rules[r : r + 2], tokens, 9, 0.6)) for r in owners]
    return shuffled(draw, len(rules) + 1, any_costs(draw, len(tokens), 0, 255), bodies)


def recursive(draw, left, right):
    """Each rule has a way out, and a production with itself behind and before some tokens."""
    rules, tokens = sizes(draw)
    bodies = []
    for r in rules:
        before = [draw.choice(tokens) for _ in range(draw.randint(1, 2) if right else 0)]
        after = [draw.choice(tokens) for _ in range(draw.randint(1, 2) if left else 0)]
        bodies += [(r, before + [RULE + r] + after), (r, any_body(draw, rules[r:], tokens, 2))]
    return shuffled(draw, len(rules) + 1, any_costs(draw, len(tokens)), bodies)


def left_recursion(draw):
    return recursive(draw, True, False)


def right_recursion(draw):
    return recursive(draw, False, True)


def middle_recursion(draw):
    return recursive(draw, True, True)


def own_rule(draw):
    """Productions of rules alone, each with its own rule among them, and short ways out."""
    rules, tokens = sizes(draw, 4, 3)
    bodies = [(r, any_body(draw, rules, [], 2) + [RULE + r] + any_body(draw, rules, [], 2)) for r in rules]
    bodies += [(r, any_body(draw, [], tokens, 1)) for r in rules]
    return shuffled(draw, len(rules) + 1, any_costs(draw, len(tokens)), bodies)


def ring(rules):
    """Pairs of a rule and the next, the last with the first."""
    return [(r, rules[(k + 1) % len(rules)]) for k, r in enumerate(rules)]


def mutual_recursion(draw):
    """Rules in a ring with symbols around the next one, and ways out of some."""
    rules, tokens = range(1, draw.randint(2, 6) + 1), range(draw.randint(1, 3))
    bodies = []
    for r, after in ring(rules):
        around = [any_body(draw, [], tokens, 1) for _ in range(2)]
        bodies.append((r, around[0] + [RULE + after] + around[1]))
    outs = draw.sample(rules, draw.randint(1, len(rules)))
    bodies += [(r, any_body(draw, [], tokens, 3)) for r in outs]
    return shuffled(draw, len(rules) + 1, any_costs(draw, len(tokens), draw.randint(0, 1)), bodies)


def unit_cycles(draw):
    """Rings of productions of one rule, or of that rule among rules that vanish, with ways out."""
    rules, tokens = range(1, draw.randint(2, 6) + 1), range(draw.randint(1, 3))
    cut = draw.randint(1, len(rules))
    bodies = []
    for part in (rules[:cut], rules[cut:]):
        bodies += [(r, [RULE + after] + any_body(draw, rules, [], 1)) for r, after in ring(part)]
    outs = draw.sample(rules, draw.randint(1, len(rules)))
    bodies += [(r, any_body(draw, [], tokens, 2)) for r in outs]
    return shuffled(draw, len(rules) + 1, any_costs(draw, len(tokens)), bodies)


def empty_chains(draw):
    """Each rule is the next ones over and the last is nothing, with tokens behind at some places."""
    rules, tokens = range(1, draw.randint(2, 8) + 1), range(draw.randint(1, 3))
    bodies = [(rules[-1], [])]
    for r in rules[:-1]:
        behind = any_body(draw, [], tokens, 1) if draw.random() < 0.3 else []
        bodies.append((r, [RULE + draw.choice(rules[r : r + 2]) for _ in range(draw.randint(1, 2))] + behind))
    bodies += more(draw, rules, tokens, draw.randint(0, 2))
    return shuffled(draw, len(rules) + 1, any_costs(draw, len(tokens)), bodies)


def no_sentence(draw):
    """Some rules hold one another in every production; others may hold them too."""
    rules, tokens = range(1, draw.randint(2, 6) + 1), range(draw.randint(1, 3))
    cut = draw.randint(1, len(rules))
    bodies = []
    for r in [*rules[:cut], *rules[:cut]]:
        body = any_body(draw, rules, tokens, 2)
        body.insert(draw.randint(0, len(body)), RULE + draw.choice(rules[:cut]))
        bodies.append((r, body))
    bodies += [(r, any_body(draw, rules[cut:], tokens, 3, 0.3)) for r in rules[cut:]]
    bodies += more(draw, rules[cut:], tokens, draw.randint(0, 2)) if rules[cut:] else []
    return shuffled(draw, len(rules) + 1, any_costs(draw, len(tokens)), bodies)


def unreached(draw):
    """The start reaches only the front of the rules."""
    rules, tokens = range(1, draw.randint(2, 6) + 1), range(draw.randint(1, 3))
    front = rules[: draw.randint(1, len(rules) - 1)]
    owners = [*rules, *(draw.choice(rules) for _ in range(3))]
    bodies = [(r, any_body(draw, front if r in front else rules, tokens, 3)) for r in owners]
    return shuffled(draw, len(rules) + 1, any_costs(draw, len(tokens)), bodies, draw.choice(front))


def free_tokens(draw):
    """All tokens cost nothing, or all but one."""
    rules, tokens = sizes(draw)
    bodies = [(r, any_body(draw, rules, tokens, 3, 0.3)) for r in rules] + more(draw, rules, tokens, draw.randint(0, 4))
    costs = [0] * (len(tokens) + 1)
    costs[draw.choice(tokens)] = draw.randint(0, 1)
    return shuffled(draw, len(rules) + 1, costs, bodies)


def equal_choices(draw):
    """Rules with several productions of one cost: every token costs the same, every production is as long."""
    rules, tokens = sizes(draw)
    bodies = []
    for r in rules:
        size = draw.randint(1, 3)
        for _ in range(draw.randint(2, 4)):
            bodies.append((r, [draw.choice(tokens) for _ in range(size)]))
    bodies += [(r, [RULE + draw.choice(rules[r:])]) for r in rules[:-1]]
    return shuffled(draw, len(rules) + 1, [draw.randint(0, 2)] * len(tokens) + [1], bodies)


def one_token(draw):
    """For readers that decide by the next token: the productions of a rule start with tokens of their own, and in some
    one of them is rules of higher number alone, or nothing. In half of the grammars one or two start as another one of
    their rule does, or vanish too."""
    rules, tokens = range(1, draw.randint(2, 5) + 1), range(draw.choice((6, 12, 30, 31, 32, 63, 64)))
    bodies = []
    for r in rules:
        own = draw.sample(tokens, draw.randint(2, 6))
        bodies += [(r, [t] + any_body(draw, rules, tokens, 2)) for t in own]
        if draw.random() < 0.5:
            bodies.append((r, any_body(draw, rules[r:], [], 2)))
    for r, body in draw.sample(bodies, draw.choice((0, 0, 1, 2))):
        bodies.append((r, body[:1] + any_body(draw, rules, tokens, 1) if draw.random() < 0.7 else []))
    return shuffled(draw, len(rules) + 1, any_costs(draw, len(tokens)), bodies)


def doubled(first, count, body):
    """Productions of so many rules from the first on: each twice the one before, the first as given."""
    return [(first, body)] + [(r, [RULE + r - 1] * 2) for r in range(first + 1, first + count)]


def parts(first, number):
    """The doubled rules whose sum is so many times the first."""
    return [RULE + first + k for k in range(number.bit_length()) if number >> k & 1]


def dear(draw):
    """Costs around 65535, by rules that double a token of cost 255 nine times; with a cheap way out or none."""
    top, offset = 10, draw.randint(-3, 3)
    number, rest = divmod(65535 + offset, 255)
    bodies = doubled(1, 9, [0]) + [(top, parts(1, number) + [1] * rest)]
    if draw.random() < 0.5:
        bodies.append((top, [RULE + top, 1] if draw.random() < 0.3 else [1] * draw.randint(1, 4)))
    bodies.append((top + 1, [RULE + top] + [1] * draw.randint(0, 3)))
    return shuffled(draw, top + 2, [255, 1, 0], bodies, draw.choice((top, top + 1)))


def dear_flat(draw):
    """Costs around 65535 by one production of 254 to 260 tokens of cost 252 to 255."""
    costs = [draw.randint(252, 255), draw.randint(0, 3), 0]
    bodies = [(1, [0] * draw.randint(254, 260) + [1] * draw.randint(0, 3)), (2, any_body(draw, [1, 2], [1], 3))]
    bodies += more(draw, [1, 2], [1], draw.randint(0, 2))
    return shuffled(draw, 3, costs, bodies)


def long_sentences(draw):
    """Lengths around 65535, or shorter, of one token doubled; it may cost something."""
    levels = draw.choice((3, 3, 3, 5, 5, 5, 7, 16))
    number = (1 << levels) - 1 + draw.randint(-2, 2)
    top = levels + 2
    bodies = doubled(1, levels + 1, [0]) + [(top, parts(1, number)), (top + 1, [RULE + top])]
    return shuffled(draw, top + 2, [draw.randint(0, 1), 0], bodies, top + 1)


def single_file(draw):
    """Rules in one chain of single rules, in any order of numbers: deep, and without a rule followed by another."""
    rules = list(range(1, draw.choice((5, 5, 10, 40)) + 1))
    draw.shuffle(rules)
    bodies = [(r, [0] * draw.randint(0, 1) + [RULE + after]) for r, after in zip(rules, rules[1:])]
    return shuffled(draw, len(rules) + 1, [draw.randint(0, 2), 0], bodies + [(rules[-1], [0])], rules[0])


def wide(draw, rules, tokens):
    """So many rules and tokens, eof and rule 0 counted. Each rule has a sentence, by rules of higher number; now and
    then there are further productions of any rules."""
    usable = range(1, rules), range(tokens - 1)
    bodies = [(r, any_body(draw, range(r + 1, min(r + 20, rules)), usable[1], 3, 0.4)) for r in usable[0]]
    bodies += more(draw, *usable, draw.choice((0, 0, 1, rules // 4)))
    return shuffled(draw, rules, any_costs(draw, tokens - 1, draw.randint(0, 1)), bodies)


def wide_tokens(draw):
    return wide(draw, draw.randint(2, 6), draw.choice(WORD_EDGES))


def many_rules(draw):
    return wide(draw, draw.choice(WORD_EDGES[:4]), draw.randint(1, 5))


def wide_both(draw):
    return wide(draw, draw.choice(WORD_EDGES[:4]), draw.choice(WORD_EDGES))


def most_rules(draw):
    return wide(draw, draw.choice(WORD_EDGES[4:]), draw.choice(WORD_EDGES))


def at_limits(draw):
    """All four sizes at their limits; each rule has a way out, and most rules hold rules of higher number."""
    rules, tokens = range(1, MOST_RULES), range(MOST_TOKENS - 1)
    bodies = [(r, [draw.choice(tokens)]) for r in rules]
    left = MOST_SYMBOLS - 1 - len(bodies)
    while len(bodies) < MOST_PRODUCTIONS - 1:
        size = -(-left // (MOST_PRODUCTIONS - 1 - len(bodies)))
        r = draw.choice(rules)
        body = [RULE + draw.choice(rules[r:]) if rules[r:] and draw.random() < 0.3 else draw.choice(tokens)
                for _ in range(size)]
        bodies.append((r, body))
        left -= size
    return shuffled(draw, MOST_RULES, any_costs(draw, len(tokens), 1, 255), bodies)


def one_limit(draw):
    """One size at its limit, the others small."""
    which = draw.randrange(4)
    rules = range(1, MOST_RULES if which == 0 else draw.randint(3, 6))
    tokens = range(MOST_TOKENS - 1 if which == 1 else draw.randint(1, 3))
    bodies = [(r, [draw.choice(tokens)]) for r in rules]
    if which == 2:
        bodies += more(draw, rules, tokens, MOST_PRODUCTIONS - 1 - len(bodies))
    if which == 3:
        bodies.append((rules[-1], [draw.choice(tokens) for _ in range(MOST_SYMBOLS - 1 - len(bodies))]))
    return shuffled(draw, len(rules) + 1, any_costs(draw, len(tokens), 1), bodies)


def many_rows(draw):
    """Around 65535 cheapest sentences: a rule of two rules, each with so many productions of one token, and some
    productions of two tokens; every token costs the same."""
    tokens, sizes = range(draw.randint(1, 3)), draw.choice(((255, 257), (256, 256), (254, 258), (254, 258)))
    bodies = [(r, [draw.choice(tokens)]) for r in (1, 2) for _ in range(sizes[r - 1])]
    bodies += [(3, [RULE + 1, RULE + 2])] + [(3, [draw.choice(tokens)] * 2) for _ in range(draw.randint(0, 4))]
    bodies += [(4, [RULE + 3] + [draw.choice(tokens)] * draw.randint(0, 1))]
    return shuffled(draw, 5, [draw.randint(0, 2)] * len(tokens) + [1], bodies)


large = {shape.__name__: shape for shape in (most_rules, one_limit, at_limits, many_rows)}
shapes = {shape.__name__: shape for shape in (
    anything, way_out, layered, left_recursion, right_recursion, middle_recursion, own_rule, mutual_recursion,
    unit_cycles, empty_chains, no_sentence, unreached, free_tokens, equal_choices, one_token, dear, dear_flat,
    long_sentences, single_file, wide_tokens, many_rules, wide_both)} | large


# Several exports.


def put_production(draw, g, owner, body):
    """The grammar with this production at some place."""
    bodies = g.productions()
    bodies.insert(draw.randint(0, len(bodies)), (owner, body))
    return grammar(g.rules, g.costs, bodies)


def more_starts(draw, g):
    """The well-formed grammar with one or two further productions of rule 0, as long as the limits have room: each is
    any rule but rule 0, one that is an export already too."""
    room = min(MOST_PRODUCTIONS - len(g.owners), MOST_SYMBOLS - len(g.symbols))
    for _ in range(min(draw.randint(1, 2), room)):
        g = put_production(draw, g, 0, [RULE + draw.randrange(1, g.rules)])
    return g


# Damage. Each function makes its refusal due, whatever else is due; a lower one may come to be due with it. That of 6
# takes a well-formed grammar.


def replaced(draw, items, value):
    """The list with that value at some place; one entry where it had none."""
    at = draw.randrange(len(items) or 1)
    return items[:at] + [value] + items[at + 1 :]


def sizes_out(draw, g):
    """1"""
    return draw.choice((
        g._replace(rules=draw.choice((0, 1, 513, 65535))),
        g._replace(costs=draw.choice(([], [1] * 513))),
        g._replace(owners=draw.choice(([], g.owners[:1], [1] * 4097))),
        g._replace(symbols=draw.choice(([], [0] * 16385))),
    ))


def starts_wrong(draw, g):
    """2"""
    starts = g.starts
    most = len(g.symbols)
    return g._replace(starts=draw.choice((
        [],
        starts[:-1],
        starts + starts[-1:],
        replaced(draw, starts[:1], draw.choice((1, 65535))) + starts[1:],
        starts[:-1] + [draw.choice((most + 1, max(most - 1, 0) if most else 1, 65535))],
        starts[:1] + replaced(draw, starts[1:-1], 65535) + starts[-1:],
    )))


def owner_out(draw, g):
    """3"""
    return g._replace(owners=replaced(draw, g.owners, draw.choice((g.rules, 65535))))


def rule_unowned(draw, g):
    """4"""
    gone = draw.randrange(g.rules or 1)
    other = draw.choice([r for r in range(max(g.rules, 2)) if r != gone])
    return g._replace(owners=[other if r == gone else r for r in g.owners])


def symbols_out(draw, g):
    """5"""
    beyond = max(len(g.costs) - 1, 0), RULE - 1, min(RULE + g.rules, 65535), 65535
    return g._replace(symbols=replaced(draw, g.symbols, draw.choice(beyond)))


def no_export(draw, g):
    """What no production of rule 0 may be: nothing, two symbols, a token, rule 0."""
    rules = [RULE + draw.randrange(1, g.rules) for _ in range(2)]
    return draw.choice(([], rules, rules[:1] + [0], [draw.randrange(len(g.costs))], [RULE]))


def start_wrong(draw, g):
    """6: one of rule 0's productions is wrong, a further one is, or rule 0 stands somewhere."""
    bodies = g.productions()
    own = draw.choice([p for p, (owner, _) in enumerate(bodies) if owner == 0])
    bodies[own] = 0, no_export(draw, g)
    return draw.choice((
        grammar(g.rules, g.costs, bodies),
        put_production(draw, g, 0, no_export(draw, g)),
        g._replace(symbols=replaced(draw, g.symbols, RULE)),
    ))


damages = {1: sizes_out, 2: starts_wrong, 3: owner_out, 4: rule_unowned, 5: symbols_out, 6: start_wrong}


def damaged(draw, g, numbers):
    """The well-formed grammar with these refusals made due, the highest first: a lower one's damage leaves a higher one
    due."""
    for number in sorted(numbers, reverse=True):
        g = damages[number](draw, g)
    return g
