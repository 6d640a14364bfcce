"""The 34 calls of bindings/include/boltmarrow.h once more, in plain Python, on arbitrary lists and numbers. They are
written from documents 01 and 02, over the definitions and visits of plain.py: here are the tables as words, their
lengths and the calls' own refusals. A block file is written by bin/blocks. A house call is the call below it on the
grammar that examples/house.txt says. A call changes the lists that it is lent, and returns its values or raises
plain.Refused.
"""
from typing import NamedTuple

import plain
from block_text import TOP, blocks, tables, text_of
from plain import Refused

LISTS = 4096, 4097, 16384, 512  # the lengths of the lists that the file reader takes
HOUSE = plain.Grammar(*tables(blocks.Text((TOP / "examples" / "house.txt").read_text())))


class Call(NamedTuple):
    takes: str  # behind the grammar: numbers by what they count, k and n of 32 bits; lists of words: marks, row,
    # reached (a row), entries, counts (entries); room and bytes; job, the list of a record's four numbers
    refusals: tuple  # its own; besides, each gives 1 to 6, but for the house calls
    values: int  # the values of an answer
    make: object
    house: bool = False  # on the built-in grammar: it takes none


def words(count):
    """The words of one row of so many marks."""
    return (count + 31) // 32


def marks_length(g):
    return g.rules * words(len(g.costs))


def row_length(g):
    return words(g.rules)


def cost_length(g):
    return g.rules


def need(g, tables, mode=2, rules=(), tokens=(), prods=()):
    """The lowest refusal due of 1 to 11. The tables are pairs of a list and its length as a function of the grammar."""
    plain.check(g)
    if any(len(table) != length(g) for table, length in tables):
        raise Refused(7)
    if mode != 2:
        raise Refused(8)
    plain.check_rule(g, *rules)
    if any(t >= len(g.costs) for t in tokens):
        raise Refused(10)
    if any(p >= len(g.owners) for p in prods):
        raise Refused(11)


def marked(row, k):
    return row[k // 32] >> k % 32 & 1


def marks(row, count):
    """The marks of a row, spare bits left out."""
    return {k for k in range(count) if marked(row, k)}


def rows(g, table):
    """The marks of each rule."""
    wide = words(len(g.costs))
    return [marks(table[r * wide : (r + 1) * wide], len(g.costs)) for r in range(g.rules)]


def put(table, at, held, count):
    """The row of words from that place on has these marks; its spare bits stay."""
    for k in range(count):
        bit = 1 << k % 32
        table[at + k // 32] &= ~bit
        table[at + k // 32] |= bit if k in held else 0


def put_rows(g, table, held):
    for r in range(g.rules):
        put(table, r * words(len(g.costs)), held[r], len(g.costs))


def clear(table, value=0):
    table[:] = [value] * len(table)


def check(g):
    need(g, [])
    return [0]


def production(g, p):
    need(g, [], prods=[p])
    return [g.starts[p], g.starts[p + 1] - g.starts[p]]


def mark(g, table, rule, token):
    need(g, [(table, marks_length)], rules=[rule], tokens=[token])
    return [int(token in rows(g, table)[rule])]


def rule_mark(g, row, rule):
    need(g, [(row, row_length)], rules=[rule])
    return [marked(row, rule)]


def need_first(g, first, empty, **numbers):
    need(g, [(first, marks_length), (empty, row_length)], **numbers)


def first_clear(g, first, empty):
    need_first(g, first, empty)
    clear(first)
    clear(empty)
    return [0]


def first_visit(g, p, first, empty):
    need_first(g, first, empty, prods=[p])
    held, vanish = rows(g, first), marks(empty, g.rules)
    changed = plain.visit_first(g, p, held, vanish)
    put_rows(g, first, held)
    put(empty, 0, vanish, g.rules)
    return [int(changed)]


def first_fill(g, first, empty):
    first_clear(g, first, empty)
    put_rows(g, first, plain.firsts(g))
    put(empty, 0, plain.empties(g), g.rules)
    return [0]


def has_path(g, a, b):
    need(g, [], rules=[a, b])
    return [int(plain.has_path(g, a, b))]


def productive_clear(g, row):
    need(g, [(row, row_length)])
    clear(row)
    return [0]


def productive_visit(g, p, row):
    need(g, [(row, row_length)], prods=[p])
    held = marks(row, g.rules)
    changed = plain.visit_productive(g, p, held)
    put(row, 0, held, g.rules)
    return [int(changed)]


def productive_fill(g, row):
    productive_clear(g, row)
    put(row, 0, plain.productives(g), g.rules)
    return [0]


def cost_clear(g, cost):
    need(g, [(cost, cost_length)])
    clear(cost, plain.UNKNOWN)
    return [0]


def cost_visit(g, p, cost):
    need(g, [(cost, cost_length)], prods=[p])
    return [int(plain.visit_cost(g, p, cost))]


def cost_fill(g, cost):
    cost_clear(g, cost)
    cost[:] = plain.costs(g)
    return [0]


def min_sentence_cost(g, rule, cost):
    need(g, [(cost, cost_length)], rules=[rule])
    cost_fill(g, cost)
    return [plain.sentence_cost(g, rule)]


def dearest_fill(g, dearest):
    need(g, [(dearest, cost_length)])
    dearest[:] = plain.dearest(g)
    return [0]


def reached_fill(g, reached):
    need(g, [(reached, row_length)])
    clear(reached)
    put(reached, 0, plain.reached(g), g.rules)
    return [0]


def follow_clear(g, follow):
    need(g, [(follow, marks_length)])
    clear(follow)
    put(follow, 0, {g.eof}, len(g.costs))
    return [0]


def need_follow(g, follow, first, empty, reached, **numbers):
    need(g, [(follow, marks_length), (first, marks_length), (empty, row_length), (reached, row_length)], **numbers)


def follow_visit(g, mode, p, follow, first, empty, reached):
    need_follow(g, follow, first, empty, reached, mode=mode, prods=[p])
    held = rows(g, follow)
    read = rows(g, first), marks(empty, g.rules), marks(reached, g.rules)
    changed = plain.visit_follow(g, p, held, *read)
    put_rows(g, follow, held)
    return [int(changed)]


def follow_fill(g, mode, follow, first, empty, reached):
    need_follow(g, follow, first, empty, reached, mode=mode)
    reached_fill(g, reached)
    first_fill(g, first, empty)
    clear(follow)
    put_rows(g, follow, plain.follows(g))
    return [0]


def profile(g, follow, first, empty, reached):
    follow_fill(g, 2, follow, first, empty, reached)
    return plain.verdict(g)


def worked(g, job, n, visit):
    """Makes n visits of the job, fewer only where it is or becomes done, each a function of the production's number;
    the record says where the job stands then. Without a visit it stays as it is."""
    kind, at, changed, done = job
    made = 0
    while made < n and not done:
        changed = visit(at) or changed
        made += 1
        at += 1
        if at == len(g.owners):  # the round is over: without change the job is done
            at, changed, done = 0, False, not changed
    if made:
        job[:] = [kind, at, int(bool(changed)), int(bool(done))]
    return [made]


def job_slice(g, job, n, first, empty, follow, productive, cost, reached):
    """Of the tables only those of the job's kind are looked at."""
    plain.check(g)
    kind, at, _, _ = job
    if kind not in (0, 2, 3, 4) or at >= len(g.owners):
        raise Refused(17)
    if kind == 0:
        need_first(g, first, empty)
        held, vanish = rows(g, first), marks(empty, g.rules)
        made = worked(g, job, n, lambda p: plain.visit_first(g, p, held, vanish))
        put_rows(g, first, held)
        put(empty, 0, vanish, g.rules)
    elif kind == 2:
        need_follow(g, follow, first, empty, reached)
        held = rows(g, follow)
        read = rows(g, first), marks(empty, g.rules), marks(reached, g.rules)
        made = worked(g, job, n, lambda p: plain.visit_follow(g, p, held, *read))
        put_rows(g, follow, held)
    elif kind == 3:
        need(g, [(productive, row_length)])
        held = marks(productive, g.rules)
        made = worked(g, job, n, lambda p: plain.visit_productive(g, p, held))
        put(productive, 0, held, g.rules)
    else:
        need(g, [(cost, cost_length)])
        made = worked(g, job, n, lambda p: plain.visit_cost(g, p, cost))
    return made


def min_sentence(g, rule, cost, lengths, out):
    need(g, [(cost, cost_length), (lengths, cost_length)], rules=[rule])
    cost_fill(g, cost)
    lengths[:] = plain.lengths(g)
    sentence = plain.sentence(g, rule, len(out))
    out[: len(sentence)] = sentence
    return [len(sentence)]


def need_lists(g, rule, cost, lengths, counts):
    """The refusals before the work of the two calls on all cheapest sentences, and then their tables."""
    need(g, [(table, cost_length) for table in (cost, lengths, counts)], rules=[rule])
    cost_fill(g, cost)
    lengths[:] = plain.lengths(g)
    counts[:] = plain.counts(g)


def count_min_sentences(g, rule, cost, lengths, counts):
    need_lists(g, rule, cost, lengths, counts)
    return [plain.sentence_count(g, rule)]


def min_sentence_at(g, rule, k, cost, lengths, counts, out):
    need_lists(g, rule, cost, lengths, counts)
    sentence = plain.sentence_at(g, rule, k, len(out))
    out[: len(sentence)] = sentence
    return [len(sentence)]


def write_blocks(g, version, out):
    if version not in (1, 2):
        raise Refused(26)
    plain.check(g)
    plain.check_costs(version, g.costs)
    file = blocks.write(text_of(g, version))
    if len(out) < len(file):
        raise Refused(24)
    out[: len(file)] = file
    return [len(file)]


def read_blocks(file, *lists):
    if tuple(len(each) for each in lists) != LISTS:
        raise Refused(7)
    version, g = plain.read_tables(bytes(file))
    for each, front in zip(lists, (g.owners, g.starts, g.symbols, g.costs)):
        each[: len(front)] = front
    plain.check(g)
    return [g.rules, len(g.costs), len(g.owners), len(g.symbols), version]


def house_check():
    return check(HOUSE)


def house_first_fill(first, empty):
    return first_fill(HOUSE, first, empty)


def house_first(first, rule, token):
    return mark(HOUSE, first, rule, token)


def house_empty(empty, rule):
    return rule_mark(HOUSE, empty, rule)


def house_cost_fill(cost):
    return cost_fill(HOUSE, cost)


def house_cost(rule, cost):
    return min_sentence_cost(HOUSE, rule, cost)


def house_row(cost, lengths, out):
    return min_sentence(HOUSE, 0, cost, lengths, out)


# In the order of the driver's table (tools/driver/calls.c). read_blocks takes no grammar, but a file and four lists.
CALLS = {
    "check": Call("", (), 1, check),
    "production": Call("prod", (11,), 2, production),
    "mark": Call("marks rule token", (7, 9, 10), 1, mark),
    "rule_mark": Call("row rule", (7, 9), 1, rule_mark),
    "first_clear": Call("marks row", (7,), 1, first_clear),
    "first_visit": Call("prod marks row", (7, 11), 1, first_visit),
    "first_fill": Call("marks row", (7,), 1, first_fill),
    "has_path": Call("rule rule", (9,), 1, has_path),
    "productive_clear": Call("row", (7,), 1, productive_clear),
    "productive_visit": Call("prod row", (7, 11), 1, productive_visit),
    "productive_fill": Call("row", (7,), 1, productive_fill),
    "cost_clear": Call("entries", (7,), 1, cost_clear),
    "cost_visit": Call("prod entries", (7, 11), 1, cost_visit),
    "cost_fill": Call("entries", (7,), 1, cost_fill),
    "min_sentence_cost": Call("rule entries", (7, 9, 12, 13), 1, min_sentence_cost),
    "dearest_fill": Call("entries", (7,), 1, dearest_fill),
    "reached_fill": Call("reached", (7,), 1, reached_fill),
    "follow_clear": Call("marks", (7,), 1, follow_clear),
    "follow_visit": Call("mode prod marks marks row reached", (7, 8, 11), 1, follow_visit),
    "follow_fill": Call("mode marks marks row reached", (7, 8), 1, follow_fill),
    "profile": Call("marks marks row reached", (7,), 5, profile),
    "slice": Call("job n marks row marks row entries reached", (7, 17), 1, job_slice),
    "min_sentence": Call("rule entries entries room", (7, 9, 12, 13, 14, 15), 1, min_sentence),
    "count_min_sentences": Call("rule entries entries counts", (7, 9, 12, 13, 14, 16), 1, count_min_sentences),
    "min_sentence_at": Call("rule k entries entries counts room", (7, 9, 12, 13, 14, 15, 16), 1, min_sentence_at),
    "write_blocks": Call("version bytes", (24, 25, 26), 1, write_blocks),
    "read_blocks": Call("", (7, 20, 21, 22, 23, 25), 5, read_blocks),
    "house_check": Call("", (), 1, house_check, house=True),
    "house_first_fill": Call("marks row", (7,), 1, house_first_fill, house=True),
    "house_first": Call("marks rule token", (7, 9, 10), 1, house_first, house=True),
    "house_empty": Call("row rule", (7, 9), 1, house_empty, house=True),
    "house_cost_fill": Call("entries", (7,), 1, house_cost_fill, house=True),
    "house_cost": Call("rule entries", (7, 9), 1, house_cost, house=True),
    "house_row": Call("entries entries room", (7, 15), 1, house_row, house=True),
}


def answer(name, parameters):
    """The words of a call's answer: the refusal, 0 for none, and its values, 0 beside a refusal. The lists among the
    parameters are left as the call leaves them."""
    call = CALLS[name]
    try:
        return [0, *call.make(*parameters)]
    except Refused as why:
        return [why.number] + [0] * call.values
