"""Runs the Rust crate, by target/oracle/oracle, and the library, by target/c/ask, on the same grammars: bin/compare.

    tools/compare.py SECONDS SEED [PROGRAM..]      PROGRAM: what runs target/c/ask; none for tools/plain.py in its place

First come the inputs of docs/DIFFERENCES.md and the examples; what is said of the Rust and of ours on one of them is
held to their answers. Then, until the time is over, two processes take all small grammars of tools/grammars.py and
random ones of each shape. In these rule 0 owns one production. A grammar in which it owns several, as an example does,
is not given to the Rust, which builds none; ours is then held to tools/plain.py alone.

FIRST, EMPTY and all paths must be equal; so must the costs where the Rust returns, and a sentence where it returns and
no production used has a rule followed by a token or by a rule whose sentence is not empty. At such a place the Rust's
sentence must be the one that taking the rest again gives. The list of all cheapest sentences must be that of the Rust's
min_sentences, row by row, where it is short and the Rust returns. Where the Rust does not return, or panics, the
grammar must have what the named difference says, worked out from the grammar alone; if it runs out of time without such
a reason, it is asked again with more time, which is counted. What we answer there must be what the documents say. The
reached rules must be rule 0 and those to which the Rust has a path from it. FOLLOW must be what the documents say, and
the Rust's what its own rule gives: over all productions, with the next symbol alone read. Ours must hold what that rule
gives over the productions of reached rules, so that a mark which it lacks comes from another rule. The profile, which
the Rust has not, must be what the documents say.

The greatest costs must be what the documents say, and the Rust's what its own order of work gives; it may panic only
where that comes to a sum of 65535 or more. Both must be the same for a rule if three things hold for it and for each
rule that it reaches: it has a sentence; it is without bound where it reaches itself; and by the Rust's own numbers no
production of it comes to more than it. What does not hold is why they differ.

Each kind is counted, and each kind of difference shown with the smallest grammar that has it; where FOLLOW of a grammar
with a name differs, a line says so by the names of its text. The program exits with 1 if a difference is not explained.
"""
import collections
import concurrent.futures
import functools
import itertools
import json
import random
import subprocess
import sys
import time

sys.dont_write_bytecode = True
import grammars
import plain
from block_text import TOP
from named import OVERFLOWS, SAID, named, refused, returned, texts
from reading import STEPS, Reading, crate_dearest, crate_follows, parting

ORACLE = [str(TOP / "target" / "oracle" / "oracle")]
WORKERS = 2
LARGE_EVERY = 2000  # so many random grammars from a large one to the next, which takes seconds
UNEXPLAINED = "UNEXPLAINED "
STOPPED = ("out of time", "out of memory")
PLAIN = 100  # rules of a grammar with a name; with more tools/plain.py takes minutes, and is not asked
AGAIN = 20  # times the time for a grammar on which the Rust ran out of it without a reason
PASSES, CLASHES = "profile: the grammar passes", "profile: the grammar clashes"
# Whether FOLLOW of ours has marks that the Rust has not, and whether the Rust has marks that ours has not.
FOLLOW = {
    (False, False): "FOLLOW: the same",
    (True, False): "FOLLOW: more, since the Rust looks one symbol ahead",
    (False, True): "FOLLOW: fewer, since the Rust counts the productions of rules that are not reached",
    (True, True): "FOLLOW: more and fewer, for both reasons",
}


def part(answer, path):
    """What stands there in an answer: names and numbers with spaces between."""
    for word in path.split():
        answer = answer[int(word) if word.isdigit() else word]
    return answer


class Asked:
    """A program that answers a grammar a line, and rules whose lists are asked for, with a line of JSON."""

    def __init__(self, words):
        self.words = words
        self.program = subprocess.Popen(words, stdin=subprocess.PIPE, stdout=subprocess.PIPE, text=True)

    def __call__(self, g, rules=()):
        self.program.stdin.write(" ".join([grammars.line(g), str(len(rules)), *map(str, rules)]) + "\n")
        self.program.stdin.flush()
        answer = self.program.stdout.readline()
        if not answer:
            raise SystemExit(f"compare: {self.words} ended at {grammars.shown(g)}")
        answer = json.loads(answer)
        if "lists" in answer:
            answer["lists"] = dict(zip(rules, answer["lists"], strict=True))
        return answer


def outcome(call, *words):
    """What a call of plain answers, as a list, or its refusal."""
    try:
        answer = call(*words)
    except plain.Refused as why:
        return refused(why.number)
    return returned(*(answer if isinstance(answer, list) else [int(answer)]))


def plain_list(g, r):
    """All cheapest sentences of a rule, by their numbers."""
    found = plain.numbered(g, r)
    return [found.row(r, k) for k in range(found.counts[r])]


def plain_answer(g, listed=()):
    """What tools/plain.py answers, in the form of target/c/ask."""
    if plain.refusal(g):
        return refused(plain.refusal(g))
    rules, empty = range(g.rules), plain.empties(g)
    return {
        "first": [sorted(held) for held in plain.firsts(g)],
        "empty": [int(r in empty) for r in rules],
        "follow": [sorted(held) for held in plain.follows(g)],
        "reached": [int(r in plain.reached(g)) for r in rules],
        "profile": plain.verdict(g),
        "path": [[int(plain.has_path(g, a, b)) for b in rules] for a in rules],
        "beyond": [outcome(plain.production, g, len(g.owners)), outcome(plain.has_path, g, g.rules, 0),
                   outcome(plain.has_path, g, 0, g.rules)],
        "dearest": plain.dearest(g),
        "costs": [outcome(plain.sentence_cost, g, r) for r in rules],
        "sentences": [outcome(plain.sentence, g, r) for r in rules],
        "counts": [outcome(plain.sentence_count, g, r) for r in rules],
        "lists": {r: outcome(plain_list, g, r) for r in listed},
    }


def said_lists(name):
    """The rules of whose lists something is said, in a grammar with a name."""
    parts = [said[1].split() for said in SAID if said[0] == name]
    return [int(words[1]) for words in parts if words[0] == "lists"]


def kind_of(outcome):
    """Returned, panicked, or what ran out."""
    return outcome if isinstance(outcome, str) else next(iter(outcome))


def not_within(table, other):
    """Whether some rule has a mark in the one table and not in the other."""
    return any(not held <= also for held, also in zip(table, other))


def size(g):
    return len(g.symbols), len(g.owners)


class Comparison:
    """Counts by kind and by shape, and the smallest grammar of each kind of difference."""

    def __init__(self):
        self.kinds, self.shapes, self.smallest = collections.Counter(), collections.Counter(), {}

    def add(self, other):
        self.kinds += other.kinds
        self.shapes += other.shapes
        for kind, (g, details) in other.smallest.items():
            self.keep(kind, g, details)

    def keep(self, kind, g, details):
        """Keeps the grammar if none so far has fewer symbols, or as many and fewer productions."""
        if kind not in self.smallest or size(g) < size(self.smallest[kind][0]):
            self.smallest[kind] = g, details


class Comparer(Comparison):
    """Compares the answers on one grammar after the other."""

    def __init__(self, rust, patient, ours):
        super().__init__()
        self.ask_rust, self.ask_patiently, self.ask_ours = rust, patient, ours

    def count(self, kind):
        self.kinds[kind] += 1

    def differs(self, kind, details=""):
        self.count(kind)
        self.keep(kind, self.g, details)

    def unexplained(self, kind, details):
        self.differs(f"{UNEXPLAINED}{kind}", f"{self.name}: {details[:300]}: ")

    def same(self, kind, rust, ours):
        if rust == ours:
            self.count(f"{kind}: equal")
        else:
            self.unexplained(f"{kind}: differs", f"the Rust {rust}, ours {ours}")

    def compare(self, shape, name, g):
        self.name, self.g, self.rust, well = name, g, {}, plain.refusal(g) == 0
        self.shapes[shape] += 1
        if well:
            self.reading = Reading(g)
        self.listed = sorted({*self.reading.listed(), *said_lists(name)}) if well else []
        self.ours = self.ask_ours(g, self.listed)
        if well and "refused" not in self.ours:
            self.profile()
        if well and not plain.built(g):
            self.alone()
            return
        self.rust = self.ask_rust(g, self.listed)
        if "refused" in self.ours:
            self.same("a grammar refused", plain.refusal(g), self.ours["refused"])
        else:
            if self.hurried():
                self.count(f"asked again, with {AGAIN} times the time")
                self.rust = self.ask_patiently(g, self.listed)
            self.tables()
            self.dearest()
            self.costs()
            for r in range(g.rules):
                self.sentence(r)
                self.counted(r)
            for r in self.listed:
                self.list(r)
        for said in SAID:
            if said[0] == name:
                self.said(*said[1:])

    def profile(self):
        """The verdict on one-token readers, which the Rust has not."""
        ours, due = self.ours["profile"], plain.verdict(self.g)
        if ours == due:
            self.count(CLASHES if due[0] else PASSES)
        else:
            self.unexplained("profile: ours is not document 02's", f"{ours} and not {due}")

    def alone(self):
        """Rule 0 owns several productions, so the Rust is not asked."""
        due = plain_answer(self.g, self.listed)
        if self.ours == due:
            self.count("several productions of rule 0, not given to the Rust: ours is document 01's")
        else:
            self.unexplained("several productions of rule 0", f"ours {self.ours} and not {due}")

    def hurried(self):
        """Whether the Rust ran out of time without a reason: on a busy machine its time may have been too short. What
        it does with more time is what counts."""
        if self.rust["dearest"] in STOPPED:
            return True
        read = self.reading
        late = [r for r, outcome in enumerate(self.rust["sentences"]) if outcome in STOPPED]
        late_lists = [r for r, outcome in self.rust["lists"].items() if outcome in STOPPED and not read.made_again(r)]
        if read.endless is not None:
            return any(not read.asks(r) for r in late + late_lists)
        if self.rust["costs"] in STOPPED or late_lists:
            return True
        return any(r not in read.choice or read.steps(r) <= STEPS for r in late)

    def said(self, rust_part, rust, ours_part, ours):
        seen = part(self.rust, rust_part), part(self.ours, ours_part)
        if seen == (rust, ours):
            self.count("what is said of one grammar: as said")
        else:
            self.unexplained("what is said of one grammar", f"{seen} and not {(rust, ours)}")

    def tables(self):
        for kind, name in ("FIRST", "first"), ("EMPTY", "empty"), ("paths", "path"):
            self.same(kind, self.rust[name], self.ours[name])
        self.same("reached rules, by paths from rule 0", [1] + self.rust["path"][0][1:], self.ours["reached"])
        self.follow()
        self.beyond()

    def follow(self):
        """FOLLOW: ours by the documents, the Rust's by its own rule, and why they differ."""
        due, rust = plain.follows(self.g), [set(held) for held in self.rust["follow"]]
        all_rules, reached = (crate_follows(self.g, rules) for rules in (range(self.g.rules), plain.reached(self.g)))
        kind = FOLLOW[not_within(due, rust), not_within(rust, due)]
        if self.ours["follow"] != [sorted(held) for held in due]:
            self.unexplained("FOLLOW: ours is not the documents'", f"{self.ours['follow']} and not {due}")
        elif rust != all_rules:
            self.unexplained("FOLLOW: the Rust's is not what its rule gives", f"{rust} and not {all_rules}")
        elif not_within(reached, due):
            self.unexplained("FOLLOW: a mark is lost that a reached rule gives", f"the Rust {rust}, ours {due}")
        elif due == rust:
            self.count(kind)
        else:
            self.differs(kind)

    def follow_lines(self, names):
        """A line on the first rule of the last grammar whose FOLLOW differs, by the names of its text; else none."""
        words = {symbol: word for word, symbol in names.items()}
        pairs = zip(self.rust.get("follow", ()), self.ours.get("follow", ()))
        differing = [(r, pair) for r, pair in enumerate(pairs) if pair[0] != pair[1]]
        for r, pair in differing[:1]:
            rust, ours = (" ".join(words[t] for t in held) or "nothing" for held in pair)
            more = f" (the first of {len(differing)} rules)" if len(differing) > 1 else ""
            yield f"{self.name}: FOLLOW({words[plain.RULE + r]}): the Rust {rust}; here {ours}{more}"

    def beyond(self):
        """Production P, the path from rule R to 0 and that from 0 to R."""
        kinds = [kind_of(outcome) for outcome in self.rust["beyond"][:2]] + self.rust["beyond"][2:]
        if (kinds, self.ours["beyond"]) == (["panicked", "panicked", returned(0)], [refused(n) for n in (11, 9, 9)]):
            self.count("numbers out of range: as listed")
        else:
            self.unexplained("numbers out of range", f"the Rust {self.rust['beyond']}, ours {self.ours['beyond']}")

    def dearest(self):
        """The greatest costs: ours by the documents, the Rust's by its order of work."""
        ours, due, given = self.ours["dearest"], plain.dearest(self.g), crate_dearest(self.g)
        outcome = self.rust["dearest"]
        kind = kind_of(outcome)
        if ours != due:
            self.unexplained("dearest: ours is not document 02's", f"{ours} and not {due}")
        elif kind == "panicked" and given is None and outcome["panicked"] in OVERFLOWS:
            here = "a rule is above" if plain.ABOVE in ours else "no rule is above"
            self.differs(f"dearest: the Rust panics: a sum of 65535 or more; here {here}")
        elif kind != "returned":
            self.unexplained(f"dearest: {kind}", f"{outcome}; its order of work gives {given}")
        else:
            told = [plain.UNBOUNDED if cost is None else cost for cost in outcome["returned"]]
            self.dearest_told(told, given, due)

    def dearest_told(self, told, given, due):
        if told != given:
            self.unexplained("dearest: the Rust's is not what its order of work gives", f"{told} and not {given}")
            return
        for r, why in enumerate(parting(self.g, due, told)):
            reasons = " and ".join(sorted(why))
            if told[r] == due[r]:
                self.count(f"dearest: the same, though there is {reasons}" if why else "dearest: the same")
            elif why:
                self.differs(f"dearest: differs: {reasons}")
            else:
                self.unexplained("dearest: differs", f"rule {r}: the Rust {told[r]}, here {due[r]}")

    def costs(self):
        kind, ours = kind_of(self.rust["costs"]), self.ours["costs"]
        due = [self.reading.cost(r) for r in range(self.g.rules)]
        endless, overflows = self.reading.endless, self.reading.overflows
        if ours != due:
            self.unexplained("costs: ours are not document 01's", f"{ours} and not {due}")
        elif kind == "returned" and endless is None:
            self.same("costs", [returned(cost) for cost in self.rust["costs"]["returned"]], ours)
        elif kind in STOPPED and endless is not None:
            self.differs(f"costs: the Rust does not return: {endless}")
        elif kind == "panicked" and overflows is not None:
            self.differs(f"costs: the Rust panics: {overflows}")
        else:
            self.unexplained(f"costs: {kind}", f"to not return: {endless}; to panic: {overflows}")

    def sentence(self, r):
        outcome, ours, due = self.rust["sentences"][r], self.ours["sentences"][r], self.reading.sentence(r)
        kind, costs = kind_of(outcome), kind_of(self.rust["costs"])
        if ours != due:
            self.unexplained("sentence: ours is not document 01's", f"rule {r}: {ours} and not {due}")
        elif self.reading.asks(r) and costs != "returned":
            self.without_costs(r, kind, ours)
        elif self.reading.dear(self.reading.used(r)):
            self.panics(r, kind)
        elif kind in STOPPED and self.reading.steps(r) > STEPS:
            self.differs("sentence: the Rust does not return: the rest taken again, over 100,000 steps")
        elif kind == "returned":
            self.both(r, outcome, ours)
        else:
            self.unexplained(f"sentence: {kind}", f"rule {r}")

    def counted(self, r):
        """How many cheapest sentences ours has."""
        ours, due = self.ours["counts"][r], self.reading.count(r)
        if ours != due:
            self.unexplained("list: our count is not document 02's", f"rule {r}: {ours} and not {due}")
        elif r not in self.listed:
            answer = f"refused {ours['refused']}" if "refused" in ours else "longer than is asked of the Rust"
            self.count(f"list: not asked of the Rust: here {answer}")

    def list(self, r):
        outcome, ours, due = self.rust["lists"][r], self.ours["lists"][r], self.reading.list(r)
        kind = kind_of(outcome)
        if ours != due:
            self.unexplained("list: ours is not document 02's", f"rule {r}: {ours} and not {due}")
        elif "refused" in ours:
            gives = "returns one" if kind == "returned" else "gives none"
            self.differs(f"list: the Rust {gives}: here refused {ours['refused']}")
        elif self.reading.asks(r) and kind_of(self.rust["costs"]) != "returned":
            self.list_without_costs(r, kind)
        elif self.reading.dear(self.reading.used_by_list(r)):
            if kind == "panicked":
                self.differs("list: the Rust panics: its own sum above 65535")
            else:
                self.unexplained(f"list: {kind}, its own sum above 65535", f"rule {r}")
        elif kind in STOPPED and self.reading.made_again(r):
            self.differs("list: the Rust does not return: lists made again, over 100,000 steps")
        elif kind == "returned":
            rows = len(due["returned"])
            self.same("list of one row" if rows == 1 else "list of several rows", outcome, ours)
            self.kinds["rows of these lists"] += rows
        else:
            self.unexplained(f"list: {kind}", f"rule {r}")

    def list_without_costs(self, r, kind):
        if kind in STOPPED and self.reading.endless or kind == "panicked" and self.reading.overflows:
            self.differs("list: the Rust gives none, since its costs are not given: here a list")
        else:
            self.unexplained(f"list: {kind}, costs not given", f"rule {r}")

    def without_costs(self, r, kind, ours):
        if kind in STOPPED and self.reading.endless or kind == "panicked" and self.reading.overflows:
            answer = f"refused {ours['refused']}" if "refused" in ours else "a sentence"
            self.differs(f"sentence: the Rust gives none, since its costs are not given: here {answer}")
        else:
            self.unexplained(f"sentence: {kind}, costs not given", f"rule {r}")

    def panics(self, r, kind):
        if kind == "panicked":
            self.differs("sentence: the Rust panics: its own sum above 65535")
        else:
            self.unexplained(f"sentence: {kind}, its own sum above 65535", f"rule {r}")

    def both(self, r, rust, ours):
        if not self.reading.place(r):
            self.same("sentence" if self.reading.asks(r) else "sentence, no costs asked for", rust, ours)
        elif rust == ours or rust != returned(*self.reading.again(r)):
            self.unexplained("sentence: not what taking the rest again gives", f"rule {r}: {rust}")
        else:
            self.differs("sentence: differs at a place that document 01 names, as taking the rest again gives")


def given(seed, worker):
    """One worker's part of all small grammars, each followed by a random one; now and then a large one."""
    small = itertools.islice(grammars.small(), worker, None, WORKERS)
    large = list(grammars.large)
    usual = [name for name in grammars.shapes if name not in large]
    for k in itertools.count():
        g = next(small, None)
        if g:
            yield "all small", f"small {worker + k * WORKERS}", g
        yield drawn(usual[k % len(usual)], seed, worker, k)
        if k % LARGE_EVERY == LARGE_EVERY // 20:
            yield drawn(large[(worker + k // LARGE_EVERY) % len(large)], seed, worker, k)


def drawn(shape, *numbers):
    """The random grammar of that shape and these numbers."""
    name = " ".join(str(word) for word in (shape, *numbers))
    return shape, name, grammars.shapes[shape](random.Random(name))


def comparer(words):
    return Comparer(Asked(ORACLE), Asked([*ORACLE, str(AGAIN)]), Asked(words) if words else plain_answer)


def work(words, seed, deadline, worker):
    done = comparer(words)
    for shape, name, g in given(seed, worker):
        if time.monotonic() > deadline:
            break
        done.compare(shape, name, g)
    result = Comparison()
    result.add(done)
    return result


def compared(words, seconds, seed):
    """What was counted, and the lines on FOLLOW of the grammars with names."""
    deadline = time.monotonic() + seconds
    first, lines = comparer(words), []
    names = {name: made.names for name, made in texts()}
    missing = {said[0] for said in SAID} - {*names}
    assert not missing, missing
    for name, g in named():
        if not words and g.rules > PLAIN and plain.refusal(g) == 0:
            continue
        first.compare("named", name, g)
        lines += first.follow_lines(names[name])
    with concurrent.futures.ProcessPoolExecutor(WORKERS) as pool:
        for result in pool.map(functools.partial(work, words, seed, deadline), range(WORKERS)):
            first.add(result)
    return first, lines


def main(words):
    seconds, seed = int(words[0]), int(words[1])
    result, lines = compared(words[2:], seconds, seed)
    for counts in result.shapes, result.kinds:
        for name in sorted(counts):
            print(f"{counts[name]:8}  {name}")
        print()
    print("where FOLLOW of a grammar with a name differs:", *lines, "", sep="\n")
    print("the smallest grammar of each difference:")
    for kind, (g, details) in sorted(result.smallest.items()):
        print(f"{kind}: {details}{grammars.shown(g)[:1000]}")
    wrong = sum(number for kind, number in result.kinds.items() if kind.startswith(UNEXPLAINED))
    profiles = f"{result.kinds[PASSES]} pass the profile and {result.kinds[CLASHES]} clash"
    print(f"{sum(result.shapes.values())} grammars, {wrong} unexplained; {profiles}")
    return 1 if wrong else 0


if __name__ == "__main__":
    sys.exit(main(sys.argv[1:]))
