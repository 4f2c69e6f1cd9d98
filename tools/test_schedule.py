#!/usr/bin/env python3
"""Tests of schedule.py:  python3 tools/test_schedule.py

Every schedule of docs/examples and of crates/vectors goes to text and back, or, where its output says `bad`, is refused at
the command that the output names; where there is a NAME.txt, it is the text of NAME.sched.
"""
import pathlib
import re
import sys
import unittest

sys.path.insert(0, str(pathlib.Path(__file__).resolve().parent))
from schedule import FileFault, TextError, pack, unpack  # noqa: E402

ROOT = pathlib.Path(__file__).resolve().parent.parent
EXAMPLES = ROOT / "docs" / "examples"
VECTORS = ROOT / "crates" / "vectors"

# The paper's example, in both forms.
EXAMPLE_TEXT = "sizes 16 4 2\n0 insert 5\n0 turns 18\n1 scan 0 9\n1 turns 8\n"
EXAMPLE_BYTES = bytes.fromhex("10 04 02 01 00 0A 05 00 12 04 01 00 12 05 01 08")

OPENING = bytes.fromhex("08 02 01")

# A text that is wrong, its line, and a word of what is said.
WRONG_TEXTS = (
    ("", 0, "sizes"),
    ("# nothing\n\n", 0, "sizes"),
    ("0 insert 5\n", 1, "sizes"),
    ("sizes 8 2\n", 1, "three"),
    ("sizes 8 2 1 1\n", 1, "three"),
    ("sizes 7 2 1\n", 1, "N is 7"),
    ("sizes 1025 2 1\n", 1, "N is 1025"),
    ("sizes 8 1 1\n", 1, "M is 1"),
    ("sizes 8 513 1\n", 1, "M is 513"),
    ("sizes 8 2 0\n", 1, "P is 0"),
    ("sizes 8 2 9\n", 1, "P is 9"),
    ("sizes 8 2 1\nsizes 8 2 1\n", 2, "once"),
    ("sizes 8 2 1\n\n# why\n0 inzert 5\n", 4, "insert"),
    ("sizes 8 2 1\n0\n", 2, "insert"),
    ("sizes 8 2 1\nx insert 5\n", 2, "worker"),
    ("sizes 8 2 1\n-1 insert 5\n", 2, "worker"),
    ("sizes 8 2 1\n4294967296 insert 5\n", 2, "worker"),
    ("sizes 8 2 1\n0 insert\n", 2, "insert"),
    ("sizes 8 2 1\n0 insert 5 6\n", 2, "insert"),
    ("sizes 8 2 1\n0 insert five\n", 2, "key"),
    ("sizes 8 2 1\n0 insert 1.5\n", 2, "key"),
    ("sizes 8 2 1\n0 find 2147483648\n", 2, "key"),
    ("sizes 8 2 1\n0 delete -2147483649\n", 2, "key"),
    ("sizes 8 2 1\n0 scan 5\n", 2, "scan"),
    ("sizes 8 2 1\n0 turns 0\n", 2, "turns"),
    ("sizes 8 2 1\n0 turns 4294967296\n", 2, "turns"),
)

# Bytes that do not read, the command that they stand in, and a word of what is said.
WRONG_FILES = (
    ("", 0, "cut short"),
    ("08 02", 0, "cut short"),
    ("07 02 01", 0, "N is 7"),
    ("08 02 09", 0, "P is 9"),
    ("88 00 02 01", 0, "shortest"),
    ("08 02 01 00", 1, "no command 0"),
    ("08 02 01 06 00", 1, "no command 6"),
    ("08 02 01 01 00", 1, "cut short"),
    ("08 02 01 01 00 0A 05 00 00", 2, "0 turns"),
    ("08 02 01 01 00 80 00", 1, "shortest"),
    ("08 02 01 01 00 FF FF FF FF 10", 1, "too large"),
    ("08 02 01 01 00 80 80 80 80 80 01", 1, "too long"),
)


class Texts(unittest.TestCase):
    def test_example(self):
        self.assertEqual(pack(EXAMPLE_TEXT), EXAMPLE_BYTES)
        self.assertEqual(unpack(EXAMPLE_BYTES), EXAMPLE_TEXT)

    def test_comments_and_blanks(self):
        loose = "# an evening\n\n  sizes  16 4 2 # small\n0 insert 5\n0\tturns 18\n1 scan 0 9#\n1 turns 8"
        self.assertEqual(pack(loose), EXAMPLE_BYTES)

    def test_numbers(self):
        ends = ((0, "00"), (-1, "01"), (1, "02"), (63, "7E"), (-64, "7F"), (64, "80 01"), (2147483647, "FE FF FF FF 0F"), (-2147483648, "FF FF FF FF 0F"))
        for key, spelled in ends:
            data = OPENING + b"\x03\x00" + bytes.fromhex(spelled)
            self.assertEqual(pack(f"sizes 8 2 1\n0 find {key}\n"), data)
            self.assertEqual(unpack(data), f"sizes 8 2 1\n0 find {key}\n")

    def test_largest_count_and_worker(self):
        text = "sizes 1024 512 8\n4294967295 turns 4294967295\n"
        self.assertEqual(unpack(pack(text)), text)

    def test_every_command_comes_back(self):
        for command in ("0 insert -7", "7 delete 300", "200 find 0", "1 scan 9 -9", "3 turns 128"):
            text = f"sizes 8 2 1\n{command}\n"
            self.assertEqual(unpack(pack(text)), text)

    def test_wrong_texts(self):
        for text, line, word in WRONG_TEXTS:
            with self.subTest(text=text), self.assertRaises(TextError) as caught:
                pack(text)
            self.assertEqual(caught.exception.line, line)
            self.assertIn(word, str(caught.exception))

    def test_longest(self):
        # three bytes of sizes and three to each command: one more command ends past byte 65,536
        fits = "sizes 8 2 1\n" + "0 turns 1\n" * 21844
        self.assertEqual(len(pack(fits)), 65535)
        self.assertEqual(unpack(pack(fits)), fits)
        with self.assertRaises(TextError) as caught:
            pack(fits + "0 turns 1\n")
        self.assertEqual(caught.exception.line, 21846)


class Files(unittest.TestCase):
    def test_wrong_files(self):
        for spelled, command, word in WRONG_FILES:
            with self.subTest(bytes=spelled), self.assertRaises(FileFault) as caught:
                unpack(bytes.fromhex(spelled))
            self.assertEqual(caught.exception.command, command)
            self.assertIn(word, str(caught.exception))

    def test_too_long(self):
        whole = OPENING + b"\x05\x00\x01" * 21844 + b"\x05"
        with self.assertRaises(FileFault) as caught:
            unpack(whole)
        self.assertEqual(caught.exception.command, 21845)
        with self.assertRaises(FileFault) as caught:
            unpack(whole + b"\x00")
        self.assertEqual(caught.exception.command, 0)

    def test_examples(self):
        files = sorted(EXAMPLES.glob("*.sched"))
        self.assertTrue(files)
        for file in files:
            with self.subTest(file=file.name):
                self.assertEqual(pack(file.with_suffix(".txt").read_text(encoding="utf-8")), file.read_bytes())
                self.check(file.read_bytes(), file.with_suffix(".out").read_text())

    # what `vectors` prints: each name, then its lines
    def test_vectors(self):
        names = (VECTORS / "stdin").read_text().split()
        self.assertEqual(names, sorted(file.name for file in (VECTORS / "data").iterdir()))
        printed = (VECTORS / "stdout").read_text()
        for name, after in zip(names, names[1:] + [None]):
            begin = printed.index(name + "\n") + len(name) + 1
            end = printed.index(after + "\n") if after else len(printed)
            with self.subTest(file=name):
                self.check((VECTORS / "data" / name).read_bytes(), printed[begin:end])

    def check(self, data, output):
        bad = re.search(r"^bad ([0-9]+)$", output, re.M)
        if not bad:
            self.assertEqual(pack(unpack(data)), data)
            return
        with self.assertRaises(FileFault) as caught:
            unpack(data)
        self.assertEqual(caught.exception.command, int(bad.group(1)))


if __name__ == "__main__":
    unittest.main()
