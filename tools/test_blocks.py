#!/usr/bin/env python3
"""Tests of bin/blocks. Run alone, or with the others of this folder: python3 -m unittest discover -s tools

bin/blocks shares nothing with the library's writer, which stores well-formed grammars alone. bin/damage holds the two
to each other, byte for byte, on random grammars: there text_of gives bin/blocks each of them as a text."""
import random
import struct
import sys
import unittest

sys.dont_write_bytecode = True
import largest
import plain
from block_text import TOP, blocks, text_of

EXAMPLES = TOP / "examples"
GRAMMARS, REFUSALS = sorted(EXAMPLES.glob("*.txt")), sorted((EXAMPLES / "refused").glob("*.txt"))
G1 = (EXAMPLES / "g1.txt").read_text()

# Lines that, put behind G1, make a wrong file.
WRONG = """raw owners 9 9
raw owners 1 2 2 3 3 9
raw starts 0 3 2 7
raw starts 1 3 4 4 6 6 7
raw starts
raw symbols Num*300 7
raw symbols 3 40000
raw counts 600 4 6 7
raw counts 65535 4 6 7
raw counts 4 9 65535 7
raw counts 0 0 0 0
raw counts 32768 4 6 7
raw counts 33281 4 6 7
version 2
raw blocks 0
raw blocks 3
raw blocks 99
raw length 0
raw length 3
raw length 700
byte 0 7
byte 300 1 2 3
byte! 510 0
9: 7 65535
65535:
tokens late=7""".splitlines()

# Texts that cannot be written, and what is said of each.
REFUSED = {
    "rules A\n\nA: b": "line 3: no token or rule is named b",
    "rules A\nA: A*": "line 2: '' is not a number",
    "A:": "line 1: no token or rule is named A",
    "tokens a\nrules A\na: A": "line 3: a is a token: it has no production",
    "rules A\nA A: A": "line 2: one rule stands before the colon",
    "tokens a=256": "line 1: 256 is above 255",
    "tokens a=x": "line 1: 'x' is not a number",
    "tokens a\nrules a": "line 2: the name a is there already",
    "tokens 7": "line 1: '7' cannot be a name",
    "rules A\nA: 65536": "line 2: 65536 is above 65535",
    "rules A\nA: 7*40000\nA: 7*40000": "line 3: more symbols than a 16-bit start can tell",
    "raw counts 1 2 3": "line 1: 'raw counts' takes 4 numbers",
    "raw sums 1": "line 1: 'raw sums' is not known",
    "raw owners 1\nraw owners 1": "line 2: 'raw owners' is there already",
    "byte 3": "line 1: 'byte 3' is no line of tokens, rules, version, raw or byte, and no production",
    "version 3": "line 1: there is no version 3",
    "version 02": "line 1: there is no version 02",
    "version 2\nversion 2": "line 2: the version is there already",
    "version": "line 1: 'version' is no line of tokens, rules, version, raw or byte, and no production",
    "byte! 512 1": "byte 512 is past the end: the file has 512 bytes",
    "raw owners 1*65535 1": "a list of 65536 is too long for a 16-bit count; 'raw counts' can say another",
}


class Blocks(unittest.TestCase):
    def again(self, data):
        """A file, shown and written, is the same file."""
        self.assertEqual(blocks.write(blocks.show(data)), data)

    def test_g1_is_the_block_of_document_01(self):
        flat = "4 4 6 7  1 2 2 3 3 0  0 3 4 4 6 6 7  32770 0 32771 2 1 0 32769"
        block = struct.pack("<25H4B", 0, *map(int, flat.split()), 1, 1, 1, 1).ljust(510, b"\0")
        self.assertEqual(blocks.write(G1), block + struct.pack("<H", 459))

    def test_a_version_2_file_has_32768_added_to_its_r_field(self):
        one, two = blocks.write(G1 + "version 1"), blocks.write(G1 + "version 2")
        self.assertEqual(one, blocks.write(G1))
        self.assertEqual(two, one[:2] + struct.pack("<H", 32772) + one[4:510] + struct.pack("<H", 587))
        self.assertEqual([data for data in (one, two) if "version 2" in blocks.show(data).splitlines()], [two])

    def test_each_example_is_its_text(self):
        for path in GRAMMARS + REFUSALS:
            with self.subTest(path.name):
                self.assertEqual(blocks.write(path.read_text()), path.with_suffix(".blk").read_bytes())

    def test_each_example_has_its_files(self):
        for folder, kinds in ("", "blk report txt"), ("refused", "blk report txt"), ("largest", "blk report"):
            files, *others = ({path.stem for path in (EXAMPLES / folder).glob(f"*.{kind}")} for kind in kinds.split())
            self.assertTrue(files)
            for other in others:
                self.assertEqual(files, other)

    def test_the_largest_file(self):
        data = blocks.write(largest.text())
        self.assertEqual((len(data), struct.unpack("<4H", data[2:10])), (98 * 512, (512, 512, 4096, 16384)))
        self.assertEqual(data, (EXAMPLES / "largest" / "98-blocks.blk").read_bytes())
        self.assertEqual(data + b"\0", (EXAMPLES / "largest" / "one-byte-more.blk").read_bytes())
        self.again(data)
        self.again(data + b"\0")

    def test_a_grammar_that_was_read_is_written_as_its_file(self):
        for path in [*EXAMPLES.glob("*.blk"), EXAMPLES / "largest" / "98-blocks.blk"]:
            with self.subTest(path.name):
                data = path.read_bytes()
                version, g = plain.read_tables(data)
                self.assertEqual(blocks.write(text_of(g, version)), data)

    def test_refused_examples_say_their_number(self):
        for path in REFUSALS:
            with self.subTest(path.name):
                number = path.name.split("-")[0]
                self.assertEqual(path.with_suffix(".report").read_text(), f"refused {number}\n")
                self.assertTrue(path.read_text().startswith(f"# Refused with {number}: "))

    def test_examples_again(self):
        for path in GRAMMARS:
            with self.subTest(path.name):
                text = blocks.show(path.with_suffix(".blk").read_bytes())
                self.again(path.with_suffix(".blk").read_bytes())
                self.assertNotRegex(text, "raw|byte")
        for path in REFUSALS:
            with self.subTest(path.name):
                self.again(path.with_suffix(".blk").read_bytes())

    def test_wrong_files_again(self):
        sound = blocks.write(G1)
        for line in WRONG:
            with self.subTest(line):
                wrong = blocks.write(G1 + line)
                self.assertNotEqual(wrong, sound)
                self.again(wrong)

    def test_any_bytes_again(self):
        dice = random.Random(1)
        for _ in range(30):
            self.again(dice.randbytes(dice.choice([0, 1, 7, 8, 511, 512, 513, 1024, 1500])))
        g1 = bytearray(blocks.write(G1))
        for at in range(70):
            other = bytes(g1[:at]) + dice.randbytes(1) + bytes(g1[at + 1 :])
            self.again(other)

    def test_what_each_line_does(self):
        sound = blocks.write(G1)
        short = blocks.write(G1 + "raw length 700")
        self.assertEqual(short, sound + bytes(188))
        early, late = blocks.write(G1 + "byte 300 1 2"), blocks.write(G1 + "byte! 300 1 2")
        self.assertEqual(late, sound[:300] + bytes([1, 2]) + sound[302:])
        self.assertEqual(early, late[:510] + struct.pack("<H", 462))
        two = blocks.write(G1 + "raw blocks 2")
        self.assertEqual(two, sound + bytes([1, 0]) + bytes(508) + bytes([1, 0]))
        counts = blocks.write(G1 + "raw counts 1 2 3 4")
        self.assertEqual(counts[2:510], struct.pack("<4H", 1, 2, 3, 4) + sound[10:510])

    def test_what_is_said_of_wrong_texts(self):
        for text, said in REFUSED.items():
            with self.subTest(text):
                with self.assertRaises(blocks.Wrong) as caught:
                    blocks.write(text)
                self.assertEqual(str(caught.exception), said)


if __name__ == "__main__":
    unittest.main()
