#!/usr/bin/env python3
"""Writes the text (for bin/blocks) of examples/largest/98-blocks, a grammar at the limits: R 512, T 512, P 4096,
N 16384. Its report is short: rules and tokens stand in groups of eight, and a production holds symbols of its rule's
group only, but for one that leads on to the next group. tools/limits.py writes a grammar with full tables.

    tools/largest.py | bin/blocks write - FILE
"""
R, T, P, N, GROUP = 512, 512, 4096, 16384, 8


def dice():
    """Numbers without order, the same on every machine."""
    at = 1
    while True:
        at = (at * 1103515245 + 12345) % 2**31
        yield at >> 16


def symbol(first, numbers):
    """A rule or a token of the group that starts with this number; not rule 0, not eof."""
    at = first + next(numbers) % GROUP
    return f"t{min(at, T - 2)}" if next(numbers) % 3 else f"r{max(at, 1)}"


def body(p, owner, numbers):
    """The symbols of production p."""
    place, first = owner % GROUP, owner - owner % GROUP
    made = [symbol(first, numbers) for _ in range((3, 5, 4)[p % 3])]
    if first % 64 == 40:  # a tower of rules, each of which is the next one some times, up to dear ones
        return [f"r{owner + 1}" if place < 7 else f"t{first}"] * len(made)
    if first % 64 == 48 and place == 7:  # a rule that holds itself has no sentence
        return made[:-1] + [f"r{owner}"]
    if place == 5 and p < R:  # a rule that can vanish
        return []
    if place == 1 and p < R and owner < R - GROUP:
        return [f"t{first}", f"r{owner + GROUP}", *made[2:]]
    return made


def text():
    numbers = dice()
    owners = [0] + [1 + p % (R - 1) for p in range(P - 1)]
    bodies = [["r1"]] + [body(p, owners[p], numbers) for p in range(1, P)]
    for p in range(P - (N - sum(map(len, bodies))), P):
        bodies[p].append(bodies[p][-1])
    lines = [f"r{owner}: {' '.join(made)}\n" for owner, made in zip(owners, bodies)]
    tokens, rules = (f"t{t}={7 * t % 256}" for t in range(T)), (f"r{r}" for r in range(R))
    return f"tokens {' '.join(tokens)}\nrules {' '.join(rules)}\n{''.join(lines)}"


if __name__ == "__main__":
    print(text(), end="")
