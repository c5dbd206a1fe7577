"""Hostile dictionaries: each command ends, escapes its output, and reports what it cut."""
import struct
import unittest
import xml.etree.ElementTree as ET
from typing import Dict, Tuple

from .support import (FUNCTION, POINTER, PROGRAM, STRUCT, UNION, WithService, dictionary, integer,
                      member, record)
from .tools import command, write_dictionary

EVIL = b"<script>alert(1)</script>\"'&\x1b[2J\r\n*/"


def control() -> bytes:
    names = b"\0int\0" + EVIL + b"\0"
    return dictionary([integer(1), record(STRUCT, 1, 4, 5, member(5, 1, 0))], names)


def cycles() -> bytes:
    """Structs that point to each other, and a function that takes itself a hundred times."""
    one = record(STRUCT, 1, 8, 5, member(7, 4, 0))
    other = record(STRUCT, 1, 8, 7, member(5, 3, 0))
    pointers = [record(POINTER, 0, 5), record(POINTER, 0, 2), record(POINTER, 0, 7)]
    takes = record(FUNCTION, 100, 1, 0, struct.pack("<100H", *[6] * 100))
    return dictionary([integer(1), one, pointers[1], pointers[0], other, pointers[2], takes],
                      b"\0int\0s\0t\0")


def many() -> bytes:
    """A union and a struct of 1,023 members each, one inside the other."""
    parts = b"".join(member(5, 1, 32 * n) for n in range(1023))
    within = b"".join(member(5, 2, 0) for _ in range(1023))
    return dictionary([integer(1), record(STRUCT, 1023, 4092, 5, parts),
                       record(UNION, 1023, 4092, 7, within)], b"\0int\0s\0u\0")


def doubles() -> bytes:
    """Two unnamed members of the level below, a hundred levels high."""
    records = [integer(1)]
    for level in range(2, 100):
        two = member(0, level - 1, 0) * 2
        records.append(record(STRUCT, 2, 8, 5 if level == 99 else 0, two))
    return dictionary(records, b"\0int\0s\0")


def deep_value() -> bytes:
    """Values nested as deep as the service allows."""
    records = [integer(1)] + [record(STRUCT, 1, 4, 5, member(5, t, 0)) for t in range(1, 500)]
    return dictionary(records, b"\0int\0s\0")


def overlapping() -> bytes:
    """Names that share their bytes, and members that share their bits."""
    over = member(2, 1, 16) + member(3, 1, 0) + member(1, 1, 8)
    return dictionary([integer(1), record(STRUCT, 3, 2, 2, over), record(STRUCT, 0, 0, 3)],
                      b"\0int\0")


MADE = {"control": control, "cycles": cycles, "many": many, "doubles": doubles, "deep": deep_value,
        "overlapping": overlapping}
TYPES: Tuple[Tuple[str, ...], ...] = (
    ("--sizes",), ("--holes",), ("--c",), ("--json",), ("--svg-sizes",), ("--expand", "-C", "*"),
    ("--contains", "int"), ("--contains", "int", "--recursive"), ("--uses", "*"),
    ("--members", "*"), ("--reorganize",), ("--at", "*", "0"), ("--hex", "-C", "*"))


@unittest.skipUnless(PROGRAM, "CTFD names no built service")
class Hostile(WithService):
    def setUp(self) -> None:
        super().setUp()
        self.paths: Dict[str, str] = {name: write_dictionary(self, make())
                                      for name, make in MADE.items()}

    def run_to_end(self, name: str, *words: str) -> str:
        """The output of a command, after a check of its status: for `ctfd-diff`, 4 means a breaking
        change, and 2 that something could not be compared, with a message."""
        done = command(name, *words)
        statuses = (0, 1, 2, 4) if name == "ctfd-diff" else (0, 1)
        if name == "ctfd-diff" and done.returncode == 2:
            self.assertRegex(done.stderr, "than are compared|more work than")
        self.assertIn(done.returncode, statuses, (words, done.stderr[-300:]))
        for said in (done.stdout, done.stderr):
            self.assertNotIn("\x1b", said)
            self.assertLess(len(said), 40_000_000)
        return done.stdout

    def test_ctfd_types(self) -> None:
        for path in self.paths.values():
            for words in TYPES:
                self.run_to_end("ctfd-types", *words, path)

    def test_pictures(self) -> None:
        for name, path in self.paths.items():
            made = self.run_to_end("ctfd-types", "--svg", "*", path)
            if made:
                self.assertEqual(ET.fromstring(made).findall(".//{*}script"), [])
            else:
                self.assertEqual(name, "doubles")

    def test_what_is_cut_is_told(self) -> None:
        told = command("ctfd-types", "--svg", "union u", self.paths["many"]).stdout
        self.assertIn("left out: ", told)
        done = command("ctfd-types", "--contains", "int", self.paths["doubles"])
        self.assertIn("has more members of members than are walked", done.stderr)

    def test_ctfd_diff(self) -> None:
        for path in self.paths.values():
            self.assertEqual(self.run_to_end("ctfd-diff", path, path), "")
            self.run_to_end("ctfd-diff", self.paths["control"], path)

    def test_ctfd_explore(self) -> None:
        for path in self.paths.values():
            self.assertEqual(self.run_to_end("ctfd-explore", path).count("<script"), 2)


if __name__ == "__main__":
    unittest.main()
