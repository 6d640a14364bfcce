#!/usr/bin/env python3
"""Makes the files of the program `replay` from answers of the Rust, by target/oracle/oracle (tools/oracle/build):

    tools/replay.py          writes crates/replay/stdin, the grammars, and crates/replay/stdout, the answers

The Rust's productions are the grammar's, which the oracle has seen to: a line for each, and then one for each rule.
The sample is those well-formed grammars of tools/named.py that the Rust builds, and of each shape of tools/grammars.py
the first so many from one seed whose lines take no more bytes than SIZES says; at_limits and most_rules are too long
for it. A rule's line has what the Rust gave: EMPTY, FIRST, the rules to which there is a path; its cost, if the
costs came back; and its sentence, if that came back and no production used has the place at which document 01 says that
the Rust's differs (only this is worked out here, by tools/reading.py; no answer is). What did not come back stays
empty, and `stdin` says of each rule which it is.
"""
import random
import sys

sys.dont_write_bytecode = True
import compare
import grammars
import named
import plain
import reading

FOLDER = compare.TOP / "crates" / "replay"
COST, COST_AND_SENTENCE, SENTENCE = 1, 2, 3
HEADING = "rule,empty,first,paths,cost,sentence\n"
SEED = 1
SIZES = {shape: (2000, 16) for shape in grammars.shapes if shape not in grammars.large} | {"one_limit": (20000, 2)}


def numbers(items):
    return " ".join(str(item) for item in items)


def came_back(outcome):
    return compare.kind_of(outcome) == "returned"


def asked(g, rust):
    """What is asked of each rule: COST, COST_AND_SENTENCE, SENTENCE or nothing."""
    read, cost = reading.Reading(g), came_back(rust["costs"])
    given = [came_back(outcome) and not read.place(r) for r, outcome in enumerate(rust["sentences"])]
    return [(COST_AND_SENTENCE if cost else SENTENCE) if sentence else COST * cost for sentence in given]


def lines(asks, rust):
    """The Rust's answers, a line for each rule."""
    for r, ask in enumerate(asks):
        to = [b for b, held in enumerate(rust["path"][r]) if held]
        cost = rust["costs"]["returned"][r] if ask in (COST, COST_AND_SENTENCE) else ""
        sentence = rust["sentences"][r]["returned"] if ask in (COST_AND_SENTENCE, SENTENCE) else []
        sets = [numbers(held) for held in (rust["first"][r], to)]
        yield ",".join([str(r), str(rust["empty"][r]), *sets, str(cost), numbers(sentence)]) + "\n"


def stored(g, rust):
    """The grammar as `stdin` has it, and its lines."""
    asks = asked(g, rust)
    prods = "".join(f"prod {p},{numbers(body)}\n" for p, (_, body) in enumerate(g.productions()))
    return f"{grammars.line(g)} {numbers(asks)}\n", prods + "".join(lines(asks, rust))


def short(ask, shape, most, count):
    """So many of a shape whose lines take at most so many bytes."""
    draw, kept = random.Random(f"{SEED} {shape}"), []
    while len(kept) < count:
        g = grammars.shapes[shape](draw)
        pair = stored(g, ask(g)) if len(grammars.line(g)) < most else ("", "")
        if 0 < len(pair[0]) + len(pair[1]) <= most:
            kept.append(pair)
    return kept


def main():
    ask = compare.Asked([*compare.ORACLE, str(compare.AGAIN)])
    pairs = [stored(g, ask(g)) for _, g in named.named() if plain.built(g)]
    for shape, (most, count) in SIZES.items():
        pairs += short(ask, shape, most, count)
    (FOLDER / "stdin").write_text(f"{len(pairs)}\n" + "".join(given for given, _ in pairs))
    (FOLDER / "stdout").write_text(HEADING + "".join(answer for _, answer in pairs))
    print(f"{len(pairs)} grammars")


if __name__ == "__main__":
    main()
