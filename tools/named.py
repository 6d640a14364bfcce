"""The grammars with names that bin/compare runs first, and what docs/DIFFERENCES.md and document 01 say of them."""
import plain
from block_text import TOP, blocks, tables

# Inputs of docs/DIFFERENCES.md that are no examples, in the form of bin/blocks; and document 01's sixty rules.
CASES = {
    "ahead": "tokens c eof|rules start A B|start: A|A: A B c|B:",
    "unused": "tokens z eof|rules start A U|start: A|A:|U: A z",
    "rest": "tokens a eof|rules start A B|start: A|A: B a|B:",
    "empty loop": "tokens eof|rules start A|start: A|A: A|A:",
    "order": "tokens a b eof|rules start X Y|start: X|X: Y a|Y: b",
    "free loop": "tokens f=0 a eof|rules start A|start: A|A: A f|A: a",
    "bound loop": "tokens a eof|rules start A|start: A|A: A A|A: a",
    "no way out": "tokens eof|rules start A|start: A|A: A",
    "one without": "tokens a eof|rules start A B|start: A|A: a|B: B",
    "own sum": "tokens a b=255 eof|rules start A B|start: A|A:|A: B B a|B: b*129",
    "again": "tokens eof|rules start A B|start: A|A: B*40|B:",
    "sixty": "tokens eof|rules start " + " ".join(f"r{k}" for k in range(1, 61)) + "|start: r1"
    + "".join(f"|r{k}: r{k + 1}*2" for k in range(1, 60)) + "|r60:",
    "early": "tokens a eof|rules start A B|start: A|A: a|A: B|B: a a",
    "S below B": "tokens x y eof|rules start S B|start: S|S: x|S: B|B: y*3",
    "B below S": "tokens x y eof|rules start B S|start: S|S: x|S: B|B: y*3",
    "free list": "tokens x=0 eof|rules start A|start: A|A: A x|A: x",
    "most": "tokens a=255 b=254 eof|rules start A|start: A|A: a*256 b",
    "doublings": "tokens x eof|rules start " + " ".join(f"A{k}" for k in range(1, 502)) + "|start: A1"
    + "".join(f"|A{k}: A{k + 1}*2" for k in range(1, 501)) + "|A501: x",
    "round": "tokens a eof|rules start A|start: A|A: a|A: A",
    "many": "tokens a eof|rules start A B|start: A|A: B B" + "|B: a" * 256,
    "513 rules": "tokens a eof|rules start " + " ".join(f"r{k}" for k in range(1, 513)) + "|start: r1"
    + "".join(f"|r{k}: a" for k in range(1, 513)),
}
ROW = [0, 4, 0, 4, 0, 2, 0, 5, 0, *[2] * 36, 6]  # the house export's cheapest row, by hand
OVERFLOWS = "Overflow occurred when calculating rule costs", "Unable to represent cost in 64 bits."
OVERFLOW, AT_65535 = ({"panicked": message} for message in OVERFLOWS)
LATE = "out of time"


def returned(*numbers):
    return {"returned": [*numbers]}


def refused(number):
    return {"refused": number}


# What is said of one grammar: a part of the Rust's answer, and that of ours.
SAID = [
    ("g1", "sentences 0", returned(0, 0), "sentences 0", returned(0)),
    ("g2", "follow 2", [1], "follow 2", [1, 2]),
    ("g3", "costs", LATE, "costs 1", returned(1)),
    ("g3", "sentences 1", LATE, "sentences 1", refused(14)),
    ("g4", "costs", OVERFLOW, "costs 1", refused(12)),
    ("g5", "costs", returned(65535, 65535), "costs 1", returned(65535)),
    ("g5-dear", "costs", OVERFLOW, "costs 1", refused(13)),
    ("g5-either", "costs", OVERFLOW, "costs 1", returned(1)),
    ("g6", "costs", returned(1, 1), "costs 1", returned(1)),
    ("g6", "sentences 1", returned(1), "sentences 1", returned(1)),
    ("ahead", "follow 1", [1], "follow 1", [0, 1]),
    ("comma", "follow 2", [3], "follow 2", [2, 3, 4]),
    ("dead", "follow 2", [1, 2], "follow 2", [2]),
    ("dead", "path 0", [0, 1, 1, 0], "reached", [1, 1, 1, 0]),
    ("unused", "follow 1", [0, 1], "follow 1", [1]),
    ("rest", "sentences 1", returned(0, 0), "sentences 1", returned(0)),
    ("empty loop", "costs", LATE, "costs 1", returned(0)),
    ("empty loop", "sentences 1", LATE, "sentences 1", refused(14)),
    ("order", "sentences 1", returned(0, 1, 0), "sentences 1", returned(1, 0)),
    ("free loop", "costs", LATE, "costs 1", returned(1)),
    ("bound loop", "costs", LATE, "costs 1", returned(1)),
    ("bound loop", "sentences 1", LATE, "sentences 1", returned(0)),
    ("no way out", "costs", LATE, "costs 1", refused(12)),
    ("one without", "costs", LATE, "costs", [returned(1), returned(1), refused(12)]),
    ("one without", "sentences 0", LATE, "sentences 0", returned(0)),
    ("one without", "sentences 1", returned(0), "sentences 1", returned(0)),
    ("own sum", "costs", returned(0, 0, 32895), "costs 2", returned(32895)),
    ("own sum", "sentences 1", {"panicked": "attempt to add with overflow"}, "sentences 1", returned()),
    ("again", "costs", returned(0, 0, 0), "costs 1", returned(0)),
    ("again", "sentences 1", LATE, "sentences 1", returned()),
    ("sixty", "sentences 1", LATE, "sentences 1", returned()),
    ("g1", "lists 0", returned([0]), "lists 0", returned([0])),
    ("g3", "lists 1", LATE, "counts 1", refused(14)),
    ("g6", "lists 1", returned([1]), "counts 1", returned(1)),
    ("order", "lists 1", returned([1, 0]), "lists 1", returned([1, 0])),
    ("round", "sentences 1", LATE, "sentences 1", returned(0)),
    ("round", "lists 1", LATE, "lists 1", refused(14)),
    ("many", "lists 1", returned(*[[0, 0]] * 65536), "lists 1", refused(16)),
    ("many", "lists 2", returned(*[[0]] * 256), "counts 2", returned(256)),
    ("own sum", "lists 1", {"panicked": "attempt to add with overflow"}, "lists 1", returned([])),
    ("again", "lists 1", returned([]), "lists 1", returned([])),
    ("sixty", "lists 1", LATE, "lists 1", returned([])),
    ("early", "dearest", returned(1, 1, 2), "dearest", [2, 2, 2]),
    ("S below B", "dearest", returned(1, 1, 3), "dearest", [3, 3, 3]),
    ("B below S", "dearest", returned(3, 3, 3), "dearest", [3, 3, 3]),
    ("no way out", "dearest", returned(None, None), "dearest", [plain.NONE] * 2),
    ("empty loop", "dearest", returned(None, None), "dearest", [0, 0]),
    ("g3", "dearest", returned(None, None), "dearest", [1, 1]),
    ("free list", "dearest", returned(None, None), "dearest", [0, 0]),
    ("bound loop", "dearest", returned(None, None), "dearest", [plain.UNBOUNDED] * 2),
    ("most", "dearest", returned(65534, 65534), "dearest", [65534, 65534]),
    ("g5", "dearest", AT_65535, "dearest", [plain.ABOVE] * 2),
    ("doublings", "dearest", OVERFLOW, "dearest 1", plain.ABOVE),
    ("513 rules", "sentences 512", returned(0), "refused", 1),
    ("house", "first 14", [0, 3], "first 14", [0, 3]),
    ("house", "dearest returned 0", 142, "dearest 0", 142),
    ("house", "costs returned 0", 46, "costs 0", returned(46)),
    ("house", "sentences 0 returned 0", 6, "sentences 0", returned(*ROW)),
    ("house", "lists 0", returned(ROW), "lists 0", returned(ROW)),
]


def texts():
    """The examples that are grammars, and the cases, as bin/blocks reads them."""
    found = {path.stem: path.read_text() for path in sorted((TOP / "examples").glob("*.txt"))}
    found |= {name: text.replace("|", "\n") for name, text in CASES.items()}
    for name, text in found.items():
        made = blocks.Text(text)
        if not made.raw and not made.early and not made.late:
            yield name, made


def named():
    """Their grammars."""
    for name, made in texts():
        yield name, plain.Grammar(*tables(made))
