#!/usr/bin/env python3
"""Writes the text (for bin/blocks) of a grammar at the limits: R 512, T 512, P 4096, N 16384. Its rules 1 to 511 stand
in a ring and rule 1 starts with and is followed by each token, so that their FIRST and FOLLOW are full.

    tools/limits.py | bin/blocks write - FILE
"""
import random

R, T, P, N = 512, 512, 4096, 16384
random.seed(1)
lines = ["tokens " + " ".join(f"t{t}={t % 256}" for t in range(T)), "rules " + " ".join(f"r{r}" for r in range(R))]
bodies = [(0, ["r1"])]
bodies += [(r, [f"r{r % (R - 1) + 1}"]) for r in range(1, R)]
bodies += [(1, [f"t{t}"]) for t in range(T - 1)]
bodies += [(1, ["r1", f"t{t}"]) for t in range(T - 1)]
left = N - sum(len(body) for _, body in bodies)
while len(bodies) < P:
    size = -(-left // (P - len(bodies)))
    names = [random.choice((f"r{random.randrange(1, R)}", f"t{random.randrange(T - 1)}")) for _ in range(size)]
    bodies.append((random.randrange(1, R), names))
    left -= size
lines += [f"r{owner}: " + " ".join(body) for owner, body in bodies]
print("\n".join(lines))
