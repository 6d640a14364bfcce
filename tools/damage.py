"""Holds the library, by target/c/calls, to tools/calls.py over random calls, most of them damaged: bin/damage.

    tools/damage.py CALLS SEED PROGRAM..       PROGRAM: what runs target/c/calls

A call's grammar is of a shape of tools/grammars.py, in one of four with further productions of rule 0; as it is or with
refusals made due, one or two, or a list cut, lengthened, emptied or with an entry replaced. Tables hold anything, spare
bits and entries above 65537 included, and may be of a wrong length; a reached row may be the finished one too, or that
with a mark changed or spare bits set; numbers may be out of range, room short; of the calls on all cheapest sentences
many grammars have equal choices, circles or some 65535 rows, and k is around the count. A job's record is of any kind,
anywhere in its round, yes said by any number, now and then done; its slice is of no visit up to all that are left, and
tables of other kinds are of any length, 0 included. A profile's grammar has many productions that one token tells
apart, and in some few that it does not; DEAREST's has loops with and without a cost, rules without a sentence and costs
around 65535. A block file is of either version and has what a file can have wrong; one that is written must be
bin/blocks' own. A house call has no grammar, and the rest of it is drawn as for the built-in one. The answer and every
element of every list must be equal, those of a job's record too. It prints how often each call gave each refusal, 0 for
an answer, how often the profile gave each verdict, and how often DEAREST had each kind of entry; it exits with 1 if an
answer differs, or if of the usual number of calls none gave some refusal that the call can give, or some verdict or
kind.
"""
import array
import collections
import copy
import itertools
import random
import struct
import subprocess
import sys

sys.dont_write_bytecode = True
import calls
import grammars
import plain
from plain import DEAR, MOST, UNKNOWN

USUAL = 100_000
BATCH = 1000
WORD = (1 << 32) - 1
LONGEST = 512 * 16  # the words of the largest table
ENTRIES = 0, 1, 2, MOST - 2, MOST - 1, MOST, DEAR, DEAR, UNKNOWN, UNKNOWN, UNKNOWN + 1, WORD

# Shapes whose answers take the plain side some milliseconds or more are drawn less often.
SLOW = ["long_sentences", "single_file", "many_rules", "wide_both", "wide_tokens"]
QUICK = [name for name in grammars.shapes if name not in SLOW and name not in grammars.large]
SENTENCES = ["min_sentence_cost", "min_sentence"]
LISTS = ["count_min_sentences", "min_sentence_at"]
VISITS = ["cost_visit", "follow_visit"]
REACHED = ["follow_visit", "follow_fill", "reached_fill"]
PASS, CLASH, NONE_SHARED = "pass", "clash", "clash without a shared token"
KINDS = {plain.UNBOUNDED: "without bound", plain.NONE: "no sentence", plain.ABOVE: "above 65534"}
COST = "a cost"
# What two calls tell besides their refusals: the profile's verdicts, the kinds of DEAREST's entries.
TOLD = {"profile": (PASS, CLASH, NONE_SHARED), "dearest_fill": (COST, *KINDS.values())}
TABLES = {0: (0, 1), 2: (0, 1, 2, 5), 3: (3,), 4: (4,)}  # of a slice, by the job's kind
# The calls to draw from: more of those with many refusals or cases. File reads have the longest lists.
DRAWN = [name for name in calls.CALLS if name != "read_blocks"] * 2 + SENTENCES * 6 + VISITS * 3 + ["read_blocks"] * 3
DRAWN += ["write_blocks"] * 2 + ["follow_visit"] * 4 + LISTS * 4 + ["min_sentence_at"] * 4 + ["slice"] * 8
DRAWN += ["profile"] * 6 + ["dearest_fill"] * 4
# The shapes that show most of a call: sentences that are refused, visits that read what they have written, rules that
# are not reached, jobs of several rounds, productions that one token tells apart or not, loops and sums of any kind,
# files of several blocks.
TELLING = {name: ["no_sentence", "dear", "dear_flat", "unit_cycles"] for name in SENTENCES}
TELLING |= {name: ["equal_choices"] * 5 + ["unit_cycles", "no_sentence", "dear_flat", "layered"] for name in LISTS}
TELLING |= {name: ["own_rule", "empty_chains", "right_recursion"] for name in VISITS}
TELLING |= {name: TELLING.get(name, []) + ["unreached", "unreached", "many_rules"] for name in REACHED}
TELLING |= {"slice": ["own_rule", "empty_chains", "right_recursion", "unreached", "layered", "dear"]}
TELLING |= {"profile": ["one_token"] * 4 + ["unreached", "empty_chains", "right_recursion", "many_rules", "wide_both"]}
TELLING |= {"dearest_fill": ["unit_cycles", "mutual_recursion", "free_tokens", "no_sentence", "dear", "dear_flat",
                             "layered", "many_rules"]}
TELLING |= {"write_blocks": ["wide_tokens", "wide_both", "many_rules", "dear_flat"]}


# Grammars.


def edited(draw, items, most):
    """A list one shorter or longer, without entries, or with another entry somewhere."""
    entry = draw.choice((0, 1, min(len(items), most), most, draw.randint(0, most)))
    return draw.choice((items[:-1], items[1:], items + [entry], [], grammars.replaced(draw, items, entry)))


def edited_grammar(draw, g):
    """The grammar with one list edited."""
    name = draw.choice(("owners", "starts", "symbols", "costs"))
    return g._replace(**{name: edited(draw, getattr(g, name), 255 if name == "costs" else MOST)})


def any_grammar(draw, quick=QUICK):
    """A grammar of some shape, with several exports in one of four; as it is in two of three, else damaged."""
    g = grammars.shapes[draw.choice(quick if draw.random() < 0.97 else SLOW)](draw)
    if draw.random() < 0.25:
        g = grammars.more_starts(draw, g)
    chance = draw.random()
    if chance < 0.67:
        return g
    if chance < 0.9:
        return grammars.damaged(draw, g, draw.sample(range(1, 7), draw.randint(1, 2)))
    return edited_grammar(draw, g)


# Parameters behind the grammar.


def number_below(draw, count):
    """Below the count in most cases; else the count, the largest number, or any."""
    if count and draw.random() < 0.85:
        return draw.randrange(count)
    return draw.choice((min(count, MOST), MOST, draw.randint(0, MOST)))


def any_production(draw, g):
    """Any, in one of four cases one of rule 0's, if it owns some."""
    own = [p for p, owner in enumerate(g.owners) if owner == 0]
    return draw.choice(own) if own and draw.random() < 0.25 else number_below(draw, len(g.owners))


def any_mode(draw):
    """A mode: 2 in most cases, else 1 or another number."""
    return 2 if draw.random() < 0.85 else draw.choice((0, 1, 1, 3, MOST, draw.randint(0, MOST)))


def any_version(draw):
    """A version: 1 or 2 in most cases, else another number."""
    return draw.choice((1, 2)) if draw.random() < 0.85 else draw.choice((0, 3, MOST, draw.randint(0, MOST)))


def any_length(draw, length):
    """The length due in most cases; else one less or more, none, or twice as much. Where a refused grammar's would be
    longer than the largest table, that one's."""
    length = min(length, LONGEST)
    if draw.random() < 0.9:
        return length
    return draw.choice((max(length - 1, 0), length + 1, 0, 2 * length))


def any_marks(draw, length):
    """Words of no, all, some or few marks, with their spare bits."""
    length = any_length(draw, length)
    kind = draw.randrange(4)
    if kind < 2:
        return [WORD * kind] * length
    few = WORD if kind == 2 else 0
    return [draw.getrandbits(32) & (few or draw.getrandbits(32) & draw.getrandbits(32)) for _ in range(length)]


def any_reached(draw, g):
    """Any row; or, of a well-formed grammar, the finished one, as it is, with one rule's mark turned round, or with its
    spare bits set. It may be of a wrong length."""
    if plain.refusal(g) or draw.random() < 0.4:
        return any_marks(draw, calls.row_length(g))
    length = any_length(draw, calls.row_length(g))
    held = plain.reached(g) ^ draw.choice((set(), {0}, {draw.randrange(g.rules)}))
    held |= draw.choice((set(), set(range(g.rules, 32 * length))))
    return [sum(1 << r % 32 for r in held if r // 32 == k) for k in range(length)]


def any_entries(draw, length):
    """Costs, lengths or counts: none known, all dear, edges, or anything."""
    length = any_length(draw, length)
    kind = draw.randrange(5)
    if kind == 0:
        return [draw.choice((DEAR, UNKNOWN))] * length
    if kind < 4:
        return [draw.choice(ENTRIES) for _ in range(length)]
    return [draw.choice((draw.randint(0, MOST), draw.getrandbits(32))) for _ in range(length)]


def any_k(draw, g, rule):
    """The number of a sentence in the rule's list, the last one's, the count, or any of 32 bits."""
    try:
        count = plain.sentence_count(g, rule)
    except plain.Refused:
        count = draw.choice((1, 4, MOST))
    some = 0, count - 1, draw.randrange(count), draw.randrange(count)
    return draw.choice((*some, *some, count, count + 1, MOST, MOST + 1, WORD, draw.getrandbits(32)))


def any_room(draw, g, rule=0, *k):
    """Room for the output: as long as the sentence, if there is one, one shorter or longer, or any. The sentence is the
    start's if no rule is given, and number k if that is given."""
    try:
        exact = len(plain.sentence_at(g, rule, *k) if k else plain.sentence(g, rule))
    except plain.Refused:
        exact = draw.randint(0, 9)
    length = draw.choice((exact, exact, max(exact - 1, 0), exact + 1, 0, exact + draw.randint(0, 9)))
    return [draw.randint(0, MOST) for _ in range(length)]


def any_bytes(draw, g):
    """Room for a block file: as long as the grammar's, a byte or a block shorter or longer, or any."""
    payload = 2 * (4 + len(g.owners) + len(g.starts) + len(g.symbols)) + len(g.costs)
    exact = -(-payload // 508) * 512
    length = draw.choice((exact, exact, exact - 1, exact - 512, exact + 1, exact + 512, 0, draw.randint(0, 2 * exact)))
    return list(draw.randbytes(length)) if draw.random() < 0.5 else [draw.choice((0, 1, 255))] * length


def any_yes(draw, chance):
    """A record's yes or no: yes with that chance, by 1 or by another number."""
    return draw.choice((1, 1, 2, MOST)) if draw.random() < chance else 0


def any_job(draw, g):
    """A record: a kind that there is in nine of ten, at the round's beginning, its last production or elsewhere, and in
    some done."""
    kind = draw.choice([*TABLES]) if draw.random() < 0.9 else draw.choice((1, 1, 5, MOST, draw.randint(0, MOST)))
    at = draw.choice((0, max(len(g.owners) - 1, 0))) if draw.random() < 0.4 else number_below(draw, len(g.owners))
    return [kind, at, any_yes(draw, 0.4), any_yes(draw, 0.12)]


def any_n(draw, g):
    """The visits of a slice: none, few, about a round, three rounds, now and then all that there can be."""
    count = len(g.owners)
    if draw.random() < 0.1:
        return WORD
    return draw.choice((0, 1, draw.randint(2, 9), max(count - 1, 0), count, count + 1, 3 * count, 3 * count))


def any_tables(draw, job, tables):
    """The tables of a slice: those of the job's kind as they are, the others often of another length."""
    due = TABLES.get(job[0], ())
    return [table if k in due or draw.random() < 0.3 else table[: draw.choice((0, 0, 1))] + draw.choice(([], table))
            for k, table in enumerate(tables)]


# By the words of calls.Call.takes: of a random.Random, the grammar and the parameters so far.
PARAMETERS = {
    "rule": lambda draw, g, _: number_below(draw, g.rules),
    "token": lambda draw, g, _: number_below(draw, len(g.costs)),
    "prod": lambda draw, g, _: any_production(draw, g),
    "mode": lambda draw, g, _: any_mode(draw),
    "version": lambda draw, g, _: any_version(draw),
    "marks": lambda draw, g, _: any_marks(draw, calls.marks_length(g)),
    "row": lambda draw, g, _: any_marks(draw, calls.row_length(g)),
    "reached": lambda draw, g, _: any_reached(draw, g),
    "entries": lambda draw, g, _: any_entries(draw, calls.cost_length(g)),
    "counts": lambda draw, g, _: any_entries(draw, calls.cost_length(g)),
    "k": lambda draw, g, before: any_k(draw, g, before[0]),
    "job": lambda draw, g, _: any_job(draw, g),
    "n": lambda draw, g, _: any_n(draw, g),
    "room": lambda draw, g, before: any_room(draw, g, *(each for each in before if isinstance(each, int))),
    "bytes": lambda draw, g, _: any_bytes(draw, g),
}


def parameters(draw, name, g):
    """What is asked and lent behind the grammar."""
    given = []
    for word in calls.CALLS[name].takes.split():
        given.append(PARAMETERS[word](draw, g, given))
    if name == "slice":
        given[2:] = any_tables(draw, given[0], given[2:])
    return given


# Block files.


def block(number, payload):
    body = struct.pack("<H", number) + payload
    return body + struct.pack("<H", sum(body) % 65536)


def any_counts(draw, counts):
    """The counts, or with one of them at or beyond a limit."""
    if draw.random() < 0.9:
        return counts
    edges = 0, 1, 2, 512, 513, 4096, 4097, 16384, 16385, MOST
    return grammars.replaced(draw, counts, draw.choice((*edges, *(plain.VERSION + edge for edge in edges[:5]))))


def payload_of(draw, g):
    """The payload that says a grammar in some version, with zeros to the end of its last block; now and then another
    byte."""
    field = g.rules + draw.choice((0, plain.VERSION)) if g.rules < plain.VERSION else g.rules
    sizes = [field, len(g.costs), len(g.owners), len(g.symbols)]
    numbers = any_counts(draw, sizes) + g.owners + g.starts + g.symbols
    said = struct.pack(f"<{len(numbers)}H", *numbers) + bytes(g.costs)
    payload = bytearray(said.ljust(-(-len(said) // 508) * 508, b"\0"))
    if draw.random() < 0.2:
        payload[draw.choice((-1, draw.randrange(len(payload)))) % len(payload)] = draw.choice((0, 1, 255))
    return payload


def stored(draw, g):
    """The grammar to be stored: in two of three without free tokens, eof now and then excepted, and of these in one of
    four with one."""
    if not g.costs or draw.random() < 0.33:
        return g
    costs = [cost or 1 for cost in g.costs[:-1]] + [draw.choice((0, g.costs[-1]))]
    return g._replace(costs=costs if draw.random() < 0.75 else grammars.replaced(draw, costs, 0))


def any_file(draw):
    """The bytes of a block file, right or wrong."""
    payload = payload_of(draw, stored(draw, any_grammar(draw)))
    if draw.random() < 0.15:
        payload = draw.choice((payload[:-508], payload + bytes(508), payload * 4, payload.ljust(98 * 508, b"\0"),
                               payload.ljust(99 * 508, b"\0"), draw.randbytes(508)))
    parts = [payload[k : k + 508] for k in range(0, len(payload), 508)]
    wrong = draw.randrange(len(parts) or 1) if draw.random() < 0.12 else None
    data = bytearray().join(block(k + (k == wrong), bytes(part)) for k, part in enumerate(parts))
    if data and draw.random() < 0.15:
        data[draw.choice((510, 511, draw.randrange(len(data))))] ^= draw.choice((1, 128, 255))
    if draw.random() < 0.15:
        data = draw.choice((data[:-1], data + b"\0", data[:511], data[:0], draw.randbytes(512)))
    return data


def any_lists(draw):
    """Four lists of the reader's lengths; one of another length now and then."""
    lengths = list(calls.LISTS)
    if draw.random() < 0.15:
        at = draw.randrange(4)
        lengths[at] = draw.choice((lengths[at] - 1, lengths[at] + 1, 0))
    return [[draw.randint(0, 255)] * length for length in lengths]


def any_call(draw):
    """A call's name and parameters, the grammar's five as one."""
    name = draw.choice(DRAWN)
    if name == "read_blocks":
        return name, [list(any_file(draw)), *any_lists(draw)]
    if calls.CALLS[name].house:
        return name, parameters(draw, name, calls.HOUSE)
    many = name in LISTS and draw.random() < 0.04
    g = any_grammar(draw, ["many_rows"] if many else TELLING.get(name, QUICK) if draw.random() < 0.6 else QUICK)
    if name == "write_blocks":
        # in some all tokens are dear, so that a block's bytes add up to more than 65535
        g = g._replace(costs=[255] * len(g.costs)) if draw.random() < 0.3 else stored(draw, g)
    return name, [g, *parameters(draw, name, g)]


# The comparison.


def flat(given):
    """The parameters one by one."""
    return list(itertools.chain(*([*each] if isinstance(each, plain.Grammar) else [each] for each in given)))


def sent(name, given):
    """The call as the driver reads it."""
    numbers = [list(calls.CALLS).index(name)]
    for each in flat(given):
        numbers += [len(each), *each] if isinstance(each, list) else [each]
    return array.array("I", numbers)


def expected(name, given):
    """What the driver should write: the answer, and every list as the call leaves it."""
    left = copy.deepcopy(given)
    found = calls.answer(name, left)
    return array.array("I", found + list(itertools.chain(*(each for each in flat(left) if isinstance(each, list)))))


def shown(name, given, due, seen):
    """A call that differs."""
    at = next((k for k, (a, b) in enumerate(zip(due, seen)) if a != b), min(len(due), len(seen)))
    words = f"word {at} of the answer and the lists is {seen[at : at + 1]} and not {due[at : at + 1]}"
    return f"{name}: {words}: {given}"[:3000]


def verdict(g, words):
    """Which verdict the words of a profile's answer say on a grammar."""
    _, clash, _, _, _, token = words[:6]
    if not clash:
        return PASS
    return CLASH if token < len(g.costs) else NONE_SHARED


def told(name, given, words):
    """What the words of a call that answered tell: a profile's verdict, the kinds of DEAREST's entries."""
    if name == "profile":
        return [verdict(given[0], words)]
    return [KINDS.get(entry, COST) for entry in words[-given[0].rules :]] if name == "dearest_fill" else []


def batch(draw, count, program, counts, tells):
    """So many calls; what is wrong with them."""
    made = [any_call(draw) for _ in range(count)]
    due = [expected(*call) for call in made]
    asked = b"".join(sent(*call).tobytes() for call in made)
    done = subprocess.run(program, input=asked, stdout=subprocess.PIPE, check=True)
    seen = array.array("I", done.stdout)
    wrong, at = [], 0
    for call, words in zip(made, due):
        counts[call[0], words[0]] += 1
        tells.update((call[0], each) for each in (told(*call, words) if words[0] == 0 else []))
        if seen[at : at + len(words)] != words:
            wrong.append(shown(*call, words, seen[at : at + len(words)]))
        at += len(words)
    return wrong if at == len(seen) else wrong + [f"{len(seen)} words and not {at}"]


def table(counts):
    """The counts by call and by refusal, 0 for an answer."""
    numbers = sorted({number for _, number in counts})
    yield f"{'':20}" + "".join(f"{number:>6}" for number in numbers)
    for name in calls.CALLS:
        yield f"{name:20}" + "".join(f"{counts[name, number] or '':>6}" for number in numbers)


def never(counts, tells):
    """What a call can answer by the documents and did not."""
    for name, call in calls.CALLS.items():
        for number in (0, *(() if call.house else range(1, 7)), *call.refusals):
            if not counts[name, number]:
                yield f"{name} never gave {number}"
    yield from (f"{name} never gave {each}" for name in TOLD for each in TOLD[name] if not tells[name, each])


def main(words):
    count, seed, program = int(words[0]), int(words[1]), words[2:]
    draw, counts, tells, wrong = random.Random(seed), collections.Counter(), collections.Counter(), []
    for start in range(0, count, BATCH):
        wrong += batch(draw, min(BATCH, count - start), program, counts, tells)
    print("\n".join(table(counts)))
    for name, kinds in TOLD.items():
        print(f"{name}: " + ", ".join(f"{tells[name, each]} {each}" for each in kinds))
    missing = list(never(counts, tells)) if count >= USUAL else []
    print("\n".join(missing + wrong[:10]), end="\n" if missing or wrong else "")
    print(f"{sum(counts.values())} calls, {len(wrong)} wrong")
    return 1 if wrong or missing else 0


if __name__ == "__main__":
    sys.exit(main(sys.argv[1:]))
