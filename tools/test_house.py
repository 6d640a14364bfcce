#!/usr/bin/env python3
"""Tests of the house export: examples/house.txt by numbers and rows written by hand, its stored files, the header's
constants, and the seven calls of calls.py. Run alone, or with the others of this folder:
python3 -m unittest discover -s tools"""
import re
import sys
import unittest

sys.dont_write_bytecode = True
import calls
import plain
from block_text import TOP, blocks
from plain import RULE

TEXT = blocks.Text((TOP / "examples" / "house.txt").read_text())
HOUSE = calls.HOUSE
DATA = (TOP / "examples" / "house.blk").read_bytes()
HEADER = (TOP / "bindings" / "include" / "boltmarrow.h").read_text()
ROOMS = range(1, 13)
DIGITS, COMMA, SEMICOLON, MINUS, DOT, COLON, NEWLINE, EOF = range(8)
STAMP, DATE, TIME, DEGREES, PERCENT, PARTS, SIGN, FRACTION = range(RULE + 50, RULE + 58)

# By hand: of each rule FIRST as a word, the cost, which is its sentence's length too, and the cheapest row.
FIRST = [1, 1] + [4] * 12 + [9, 1, 1] * 12 + [1, 1, 1, 9, 1, 1, 8, 2]
EMPTY = [0xFFFFC000, 0x0303FFFF]  # rules 14 to 49, 56 and 57
COST = [46, 46] + [3] * 12 + [0] * 36 + [9, 5, 3, 1, 1, 1, 0, 0]
ROW = [DIGITS, DOT, DIGITS, DOT, DIGITS, SEMICOLON, DIGITS, COLON, DIGITS] + [SEMICOLON] * 36 + [NEWLINE]


def room(i):
    """The numbers of room i and of its three values."""
    return 1 + i, 14 + 3 * (i - 1), 15 + 3 * (i - 1), 16 + 3 * (i - 1)


def productions():
    """Owner and symbols of each production, in order."""
    yield 0, [RULE + 1]
    yield 1, [STAMP, *(RULE + room(i)[0] for i in ROOMS), NEWLINE]
    for own, *values in map(room, ROOMS):
        yield own, [symbol for value in values for symbol in (SEMICOLON, RULE + value)]
    for _, *values in map(room, ROOMS):
        for value, kind in zip(values, (DEGREES, PERCENT, PARTS)):
            yield value, [kind]
            yield value, []
    yield 50, [DATE, SEMICOLON, TIME]
    yield 51, [DIGITS, DOT, DIGITS, DOT, DIGITS]
    yield 52, [DIGITS, COLON, DIGITS]
    yield 53, [SIGN, DIGITS, FRACTION]
    yield 54, [DIGITS, FRACTION]
    yield 55, [DIGITS]
    yield 56, [MINUS]
    yield 56, []
    yield 57, [COMMA, DIGITS]
    yield 57, []


def tokens(row):
    """The tokens of a row as a person writes it, without its newline."""
    marks = {",": COMMA, ";": SEMICOLON, "-": MINUS, ".": DOT, ":": COLON}
    return [marks.get(word, DIGITS) for word in re.findall(r"\d+|[,;.:-]", row)] + [NEWLINE, EOF]


def reads(row):
    """Whether a reader that decides by the next token takes the row as a sentence."""
    deciding, due, at = plain.deciding(HOUSE), [RULE], tokens(row)
    while due:
        symbol = due.pop(0)
        if symbol < RULE:
            if symbol != at.pop(0):
                return False
            continue
        own = [p for p, owner in enumerate(HOUSE.owners) if owner == symbol - RULE and at[0] in deciding[p]]
        if not own:
            return False
        due[:0] = HOUSE.body(*own)
    return at == [EOF]


class Text(unittest.TestCase):
    def test_numbers(self):
        counts = HOUSE.rules, len(HOUSE.costs), len(HOUSE.owners), len(HOUSE.symbols)
        self.assertEqual((counts, TEXT.version, HOUSE.costs), ((58, 8, 96, 143), 2, [1] * 7 + [0]))
        self.assertEqual(HOUSE.productions(), list(productions()))
        self.assertEqual(plain.refusal(HOUSE), 0)

    def test_names(self):
        rules = ["start", "Row", *(f"Room{i}" for i in ROOMS)]
        rules += [f"{value}{i}" for i in ROOMS for value in ("Temperature", "Humidity", "Carbon")]
        rules += ["Stamp", "Date", "Time", "Degrees", "Percent", "Parts", "Sign", "Fraction"]
        names = ["digits", "decimal-comma", "semicolon", "minus", "dot", "colon", "newline", "eof"]
        due = {name: t for t, name in enumerate(names)} | {name: RULE + r for r, name in enumerate(rules)}
        self.assertEqual(TEXT.names, due)

    def test_files(self):
        """Two blocks, that of the text, and the stored report, that of the file."""
        self.assertEqual((len(DATA), plain.read_tables(DATA)), (1024, (2, HOUSE)))
        self.assertEqual(blocks.write((TOP / "examples" / "house.txt").read_text()), DATA)
        self.assertEqual(plain.report(DATA), (TOP / "examples" / "house.report").read_text())

    def test_costs_and_row(self):
        self.assertEqual((plain.costs(HOUSE), plain.lengths(HOUSE)), (COST, COST))
        self.assertEqual((plain.sentence(HOUSE, 0), len(ROW)), (ROW, 46))
        # every rule has a cost and one cheapest sentence: none of 12 to 14
        self.assertEqual(plain.counts(HOUSE), [1] * 58)

    def test_stored_row(self):
        by_name, written = (TOP / "examples" / "house.row").read_text().splitlines()
        self.assertEqual([TEXT.names[name] for name in by_name.split()], ROW)
        self.assertEqual(written, "0.0.0;0:0" + ";" * 36)
        self.assertEqual(tokens(written), ROW + [EOF])

    def test_rows_as_a_person_writes_them(self):
        self.assertIsNone(plain.profile(HOUSE))
        stamp, one, other = "14.11.2026;06:15", ";17,4;91,5;1240", ";18,9;;650"
        for rooms in one + other * 10 + ";-2,1;88;410", ";;;" * 12, one * 12, ";;;" * 11 + ";;;410":
            self.assertTrue(reads(stamp + rooms), rooms)
        for row in (
            stamp + one * 11, stamp + one * 13, stamp + one * 12 + ";", one * 12, "14.11.;06:15" + one * 12,
            "14.11.2026;0615" + one * 12, stamp + ";17,4;91,5;12,4" + one * 11, stamp + ";17,4;-91,5;1240" + one * 11,
            stamp + ";17,;91,5;1240" + one * 11, stamp + ";17.4;91,5;1240" + one * 11,
        ):
            self.assertFalse(reads(row), row)

    def test_header(self):
        """The constants say the text's numbers."""
        due = {"RULES": 58, "TOKENS": 8, "FIRST_WORDS": 58, "EMPTY_WORDS": 2, "ROW_LENGTH": 46}
        numbered = {name for name in TEXT.names if name[-1].isdigit()}
        for name in TEXT.names.keys() - numbered - {"start"}:
            due[name.upper().replace("-", "_")] = TEXT.names[name] % RULE
        found = re.findall(r"#define BOLTMARROW_HOUSE_(\w+) (\d+)u\n", HEADER)
        self.assertEqual({name: int(number) for name, number in found}, due)
        found = re.findall(r"#define BOLTMARROW_HOUSE_(\w+)\(i\) \(\(uint16_t\)\((.*)\(i\)\)\)\n", HEADER)
        of_rooms = {}
        for name, words in found:
            before, step = re.fullmatch(r"(\d+)u \+ (?:(\d+)u \* )?", words).groups()
            of_rooms |= {f"{name.title()}{i}": RULE + int(before) + int(step or 1) * i for i in ROOMS}
        self.assertEqual(of_rooms, {name: TEXT.names[name] for name in numbered})


class Calls(unittest.TestCase):
    def test_check(self):
        self.assertEqual(calls.answer("house_check", []), [0, 0])

    def test_first(self):
        for word in 0, 9, 2**32 - 1:
            first, empty = [word] * 58, [word] * 2
            self.assertEqual(calls.answer("house_first_fill", [first, empty]), [0, 0])
            self.assertEqual((first, empty), (FIRST, EMPTY))
        for r in range(58):
            marks = [calls.answer("house_first", [first, r, t]) for t in range(8)]
            self.assertEqual(marks, [[0, FIRST[r] >> t & 1] for t in range(8)])
            self.assertEqual(calls.answer("house_empty", [empty, r]), [0, int(14 <= r < 50 or r > 55)])

    def test_costs(self):
        for word in 0, 65537, 2**32 - 1:
            cost = [word] * 58
            self.assertEqual((calls.answer("house_cost_fill", [cost]), cost), ([0, 0], COST))
            for r in range(58):
                cost = [word] * 58
                self.assertEqual((calls.answer("house_cost", [r, cost]), cost), ([0, COST[r]], COST))

    def test_row(self):
        for length in 0, 1, 45, 46, 47, 100:
            cost, lengths, out = [7] * 58, [7] * 58, [9] * length
            answer = calls.answer("house_row", [cost, lengths, out])
            self.assertEqual((cost, lengths), (COST, COST))
            if length < 46:
                self.assertEqual((answer, out), ([15, 0], [9] * length))
            else:
                self.assertEqual((answer, out), ([0, 46], ROW + [9] * (length - 46)))

    def test_refusals(self):
        """7, 9 and 10 in their order; each leaves all as found."""
        for name, numbers, given, refusal in (
            ("house_first_fill", (57, 2), [], 7), ("house_first_fill", (59, 2), [], 7),
            ("house_first_fill", (58, 1), [], 7), ("house_first_fill", (58, 3), [], 7),
            ("house_first", (57,), [58, 8], 7), ("house_first", (59,), [0, 0], 7), ("house_first", (0,), [0, 0], 7),
            ("house_first", (58,), [58, 8], 9), ("house_first", (58,), [57, 8], 10),
            ("house_empty", (1,), [58], 7), ("house_empty", (3,), [0], 7), ("house_empty", (2,), [58], 9),
            ("house_cost_fill", (57,), [], 7), ("house_cost_fill", (59,), [], 7),
            ("house_row", (57, 58, 0), [], 7), ("house_row", (58, 59, 46), [], 7), ("house_row", (58, 0, 45), [], 7),
        ):
            lists = [[7] * number for number in numbers]
            self.assertEqual(calls.answer(name, [*lists, *given]), [refusal, 0])
            self.assertEqual(lists, [[7] * number for number in numbers])
        for length, rule, refusal in (57, 58, 7), (59, 0, 7), (0, 0, 7), (58, 58, 9), (58, 65535, 9):
            cost = [7] * length
            self.assertEqual((calls.answer("house_cost", [rule, cost]), cost), ([refusal, 0], [7] * length))


if __name__ == "__main__":
    unittest.main()
