#!/usr/bin/env python3
"""Holds the scripts of bindings/scripts to calls.py: every answer, and every list that is shown; some two minutes.
bindings/scripts/README.md has their form. Run alone, or with the others of this folder:
python3 -m unittest discover -s tools"""
import itertools
import pathlib
import re
import sys
import unittest

sys.dont_write_bytecode = True
import calls
import plain

SCRIPTS = pathlib.Path(__file__).resolve().parent.parent / "bindings" / "scripts"
STEPS = {"x": 0, "+": 1, "-": -1}
# A step that makes a call for every number behind the first so many.
EACH = {"first_visit": 0, "productive_visit": 0, "cost_visit": 0, "follow_visit": 1}
EACH |= {"house_first": 1, "house_empty": 0, "house_cost": 0}
SHORT, FRONT = 600, 16  # a list of that length is not shown whole, but its front
OLD = 9999, 9999, 9999, 99  # what the lists are full of that a file is read into
NAMED = 8  # the numbers of a longer front, or of more checks, are not said, but their sum


def numbers(text):
    """The numbers of a list; 7x4, 7+4, 7-4 and 7+4*2 are runs."""
    found = []
    for word in text.split():
        first, kind, length, wide = re.fullmatch(r"(\d+)(?:([x+-])(\d+)(?:\*(\d+))?)?", word).groups()
        step = STEPS[kind or "x"] * int(wide or 1)
        found += [int(first) + k * step for k in range(int(length or 1))]
    return found


def shown(found):
    """What is printed of numbers and refusals: 7 7 7 7 is 7x4."""
    runs = [(each, len(list(run))) for each, run in itertools.groupby(found)]
    return "".join(f" {each}x{length}" if length > 1 else f" {each}" for each, length in runs)


def said(found):
    """The same, without runs."""
    return "".join(f" {each}" for each in found)


def verdict(found):
    """What is printed of the profile's values, or of its refusal."""
    if len(found) == 1:
        return said(found)
    clash, *named = found
    return f" clash{said(named)}" if clash else " passes"


def put(file, changes):
    """Numbers of two bytes at these places."""
    for at, number in zip(changes[::2], changes[1::2], strict=True):
        assert at + 2 <= len(file)
        file[at : at + 2] = number.to_bytes(2, "little")


def file_of(g, length, *changes):
    """The grammar's block file, of so many bytes, with numbers changed; the checks are right for them, but where such a
    number is put over one."""
    told = [g.rules, len(g.costs), len(g.owners), len(g.symbols), *g.owners, *g.starts, *g.symbols]
    payload = b"".join(number.to_bytes(2, "little") for number in told) + bytes(g.costs)
    file, whole = bytearray(), length // 512
    for block in range(whole + 1):  # what is left behind the whole blocks has no number and no check
        number = block if block < whole else 0
        file += number.to_bytes(2, "little") + payload[508 * block : 508 * (block + 1)].ljust(508, b"\0") + b"\0\0"
    file = file[:length]
    put(file, changes)
    for end in range(512, length + 1, 512):
        file[end - 2 : end] = (sum(file[end - 512 : end - 2]) % 65536).to_bytes(2, "little")
    put(file, changes)
    return file


def front(name, filled, old):
    """Of a list that a file was read into: its front, up to the first number that is old, and whether the rest is."""
    length = filled.index(old) if old in filled else len(filled)
    told = f", sum {sum(filled[:length])}" if length > NAMED else ":" + said(filled[:length])
    return f"; {name} {length}{told}, rest {'kept' if set(filled[length:]) <= {old} else 'lost'}"


def checks(file):
    """The check of each block of a file."""
    found = [int.from_bytes(file[end - 2 : end], "little") for end in range(512, len(file) + 1, 512)]
    return f"checks {len(found)}" + (f", sum {sum(found)}" if len(found) > NAMED else ":" + said(found))


class Case:
    def __init__(self, grammar, lent):
        rules, *lists = grammar.split(";")
        self.grammar = plain.Grammar(int(rules), *map(numbers, lists))
        self.a, self.b, self.c, self.out, *d = map(numbers, lent.split(";"))
        self.has_d, self.d = bool(d), d[0] if d else []
        self.job = [0] * 4

    def answers(self, name, given):
        """The line's answer, and what it leaves in the lent lists; None for a line without one."""
        if name == "show":
            *words, out = (shown(each) for each in (self.a, self.b, self.c, self.out))
            if len(self.out) >= SHORT:
                out = shown(self.out[:FRONT]) + " .."
            return ";".join([*words, out, *([shown(self.d)] if self.has_d else [])])
        if name == "at":
            return said([self.out[given[0]]])
        if name == "count":
            return said([self.out.count(given[0])])
        if name == "file":
            self.file = file_of(self.grammar, *given)
            return None
        if name == "job":
            self.job[:] = given
            return None
        if name == "slice":
            return said(self.sliced(*given)) + ";" + shown(self.job)
        if name == "slices":
            return self.slices(*given)
        if name == "read_blocks":
            return self.read(given)
        if name == "write_blocks":
            return self.write(*given)
        if name == "profile":
            return verdict(self.called(name, given))
        if name in EACH:
            before, rest = given[: EACH[name]], given[EACH[name] :]
            return shown([word for number in rest for word in self.called(name, [*before, number])])
        return said(self.called(name, given))

    def called(self, name, given):
        takes, grammar = calls.CALLS[name].takes.split(), [] if calls.CALLS[name].house else [self.grammar]
        lists = iter([self.b] if name in ("rule_mark", "house_empty") else [self.a, self.b, self.c])
        given = iter(given)
        kinds = {"marks": lists, "row": lists, "entries": lists, "counts": lists, "room": iter([self.out])}
        kinds["reached"] = iter([self.d])
        refusal, *values = calls.answer(name, [*grammar, *(next(kinds.get(kind, given)) for kind in takes)])
        return [f"refused {refusal}"] if refusal else values

    def sliced(self, n):
        """One slice. The tables of the job's kind are lent, of the others none; kind 1, which is refused, has those of
        FOLLOW, and any other that there is not COST."""
        by_name = {"first": [], "empty": [], "follow": [], "productive": [], "cost": [], "reached": []}
        if self.job[0] == 0:
            by_name |= {"first": self.a, "empty": self.b}
        elif self.job[0] in (1, 2):
            by_name |= {"follow": self.a, "first": self.b, "empty": self.c, "reached": self.d}
        else:
            by_name |= {"productive" if self.job[0] == 3 else "cost": self.a}
        refusal, made = calls.answer("slice", [self.grammar, self.job, n, *by_name.values()])
        return [f"refused {refusal}"] if refusal else [made]

    def slices(self, n):
        """Slices until the job says that it is done, one refuses, or one makes no visit."""
        made = []
        while True:
            made += self.sliced(n)
            if made[-1] == 0 or isinstance(made[-1], str) or self.job[3]:
                break
        found = made[-1:] if isinstance(made[-1], str) else [len(made), sum(made)]
        return said(found) + ";" + shown(self.job)

    def read(self, lengths):
        lists = [[old] * length for old, length in zip(OLD, lengths, strict=True)]
        refusal, *counts = calls.answer("read_blocks", [self.file, *lists])
        answer = f" refused {refusal}" if refusal else said(counts)
        if all(set(each) <= {old} for each, old in zip(lists, OLD)):
            return answer + ", kept"
        return answer + "".join(map(front, ("owners", "starts", "symbols", "costs"), lists, OLD))

    def write(self, room, version):
        out = [OLD[3]] * room
        refusal, length = calls.answer("write_blocks", [self.grammar, version, out])
        self.file, past = bytearray(out[:length]), out[length:]
        answer = f" refused {refusal}" if refusal else f" {length}; {checks(self.file)}; "
        if not refusal:
            step = [length, 2, 32768 + self.grammar.rules] if version == 2 else [length]
            same = self.file == file_of(self.grammar, *step)
            answer += f"{'as' if same else 'other than'} file({said(step)[1:]})"
        return f"{answer}; {len(past)} {'kept' if set(past) <= {OLD[3]} else 'lost'}"


class Scripts(unittest.TestCase):
    def hold(self, name):
        """Every answer of a script is that of plain Python; how many there are."""
        count = 0
        for text in (SCRIPTS / name).read_text().split("\n\n"):
            if not text.strip():
                continue
            title, grammar, lent, *lines = text.strip("\n").split("\n")
            case, lines = Case(grammar, lent), iter(lines)
            for call in lines:
                step, given = re.fullmatch(r"(\w+)\((.*)\)", call).groups()
                with self.subTest(title=title, call=call):
                    answer = case.answers(step, numbers(given))
                    if answer is not None:
                        self.assertEqual("=" + answer, next(lines))
                        count += 1
        return count

    def test_calls(self):
        self.assertGreater(self.hold("calls.txt"), 400)

    def test_files(self):
        self.assertGreater(self.hold("files.txt"), 100)

    def test_house(self):
        self.assertGreater(self.hold("house.txt"), 150)

    def test_house_written_out(self):
        """The grammar of the house calls stands in some cases, and is that of its text."""
        lines = {line for line in (SCRIPTS / "house.txt").read_text().splitlines() if line.startswith("58;")}
        self.assertEqual([Case(line, ";;;").grammar for line in lines], [calls.HOUSE])

    def test_g1_file(self):
        g1 = Case("4;1 2 2 3 3 0;0 3 4 4 6 6 7;32770 0 32771 2 1 0 32769;1x4", ";;;").grammar
        self.assertEqual(file_of(g1, 512), (SCRIPTS.parent.parent / "examples" / "g1.blk").read_bytes())


if __name__ == "__main__":
    unittest.main()
