"""ctfd-convert on files that were made to mislead it: refused or read, in time and memory
proportional to their size."""
from __future__ import annotations

import os
import resource
import shutil
import struct
import subprocess
import tempfile
import unittest
from pathlib import Path
from typing import List, Sequence, Tuple

from .support import CONVERT, PROGRAM, TOOLS
from .test_convert import CODE, WithFiles

SECONDS, MEGABYTES = 20, 1000
# Abbreviations: the code, the tag, whether there are children, and attributes with their forms.
(UNIT, BASE, STRUCT, MEMBER, POINTER, SUBPROGRAM, COPY, FORMAL, TYPEDEF, BITS, LINKED,
 ENUM) = range(1, 13)
Abbreviation = Tuple[int, int, bool, Sequence[Tuple[int, int]]]
ABBREVIATIONS: List[Abbreviation] = [
    (UNIT, 0x11, True, [(0x13, 0x0B)]),
    (BASE, 0x24, False, [(0x03, 0x08), (0x0B, 0x0B), (0x3E, 0x0B)]),
    (STRUCT, 0x13, True, [(0x03, 0x08), (0x0B, 0x0B)]),
    (MEMBER, 0x0D, False, [(0x03, 0x08), (0x49, 0x13), (0x38, 0x0B)]),
    (POINTER, 0x0F, False, [(0x49, 0x13)]), (SUBPROGRAM, 0x2E, True, [(0x03, 0x08), (0x3F, 0x19)]),
    (COPY, 0x2E, False, [(0x31, 0x13)]), (FORMAL, 0x05, False, [(0x49, 0x13)]),
    (TYPEDEF, 0x16, False, [(0x03, 0x08), (0x49, 0x13)]),
    (BITS, 0x0D, False, [(0x03, 0x08), (0x49, 0x13), (0x0D, 0x0B), (0x0C, 0x0B)]),
    (LINKED, 0x24, False, [(0x03, 0x0E), (0x0B, 0x0B), (0x3E, 0x0B)]),
    (ENUM, 0x04, False, [(0x03, 0x0B)]),
]


def abbreviations() -> bytes:
    made = b""
    for code, tag, has_children, attributes in ABBREVIATIONS:
        made += bytes([code, tag, has_children])
        made += b"".join(bytes(pair) for pair in attributes) + b"\0\0"
    return made + b"\0"


class Unit:
    """A unit of DWARF 4, written entry by entry."""

    def __init__(self) -> None:
        self.body = bytearray(bytes([UNIT, 0x0C]))

    @property
    def here(self) -> int:
        """The offset of the next entry."""
        return 11 + len(self.body)

    def add(self, code: int, *values: bytes) -> int:
        at = self.here
        self.body += bytes([code]) + b"".join(values)
        return at

    def end(self) -> None:
        """Ends a list of children."""
        self.body += b"\0"

    @property
    def bytes(self) -> bytes:
        self.end()
        return struct.pack("<IHIB", len(self.body) + 7, 4, 0, 8) + bytes(self.body)


def to(place: int) -> bytes:
    return struct.pack("<I", place)


def same_name_and_others_behind() -> bytes:
    """Structs of one name that differ only in what they point to."""
    made = b""
    for first in (0, 6000):
        unit = Unit()
        for number in range(first, first + 6000):
            base = unit.add(BASE, b"t%d\0" % number, b"\4\5")
            pointer = unit.add(POINTER, to(base))
            unit.add(STRUCT, b"s\0", b"\x08")
            unit.add(MEMBER, b"m\0", to(pointer), b"\0")
            unit.end()
        made += unit.bytes
    return made


def a_long_chain() -> bytes:
    """Pointers to pointers, without a name on the way."""
    unit = Unit()
    last = unit.add(BASE, b"int\0", b"\4\5")
    for _ in range(40_000):
        last = unit.add(POINTER, to(last))
    unit.add(TYPEDEF, b"end\0", to(last))
    return unit.bytes


def copies_of_one_function() -> bytes:
    unit = Unit()
    base = unit.add(BASE, b"int\0", b"\4\5")
    function = unit.add(SUBPROGRAM, b"wanted\0")
    for _ in range(5000):
        unit.add(FORMAL, to(base))
    unit.end()
    for _ in range(20_000):
        unit.add(COPY, to(function))
    return unit.bytes


def bit_fields_behind_typedefs() -> bytes:
    unit = Unit()
    names = [unit.add(BASE, b"int\0", b"\4\5")]
    for n in range(500):
        names.append(unit.add(TYPEDEF, b"t%d\0" % n, to(names[-1])))
    unit.add(STRUCT, b"s\0", b"\x08")
    for number in range(20_000):
        unit.add(BITS, b"m\0", to(names[1 + number % 500]), b"\1", bytes([number % 32]))
    unit.end()
    return unit.bytes


def names_that_are_ends_of_one() -> bytes:
    unit = Unit()
    for number in range(50_000):
        unit.add(LINKED, to(number), b"\4\5")
    return unit.bytes


def the_shortest_entries() -> bytes:
    unit = Unit()
    unit.add(BASE, b"int\0", b"\4\5")
    for _ in range(500_000):
        unit.add(ENUM, b"\0")
    return unit.bytes


MADE = (same_name_and_others_behind, a_long_chain, copies_of_one_function,
        bit_fields_behind_typedefs, names_that_are_ends_of_one, the_shortest_entries)


def _set_limits() -> None:
    resource.setrlimit(resource.RLIMIT_CPU, (2 * SECONDS, 2 * SECONDS))


class BoundedCase(WithFiles):
    """A test case that limits a command's time and memory."""

    def convert_bounded(self, name: str) -> str:
        """Converts a file within limits, and returns the messages."""
        command = [str(CONVERT), str(self.folder / name), str(self.folder / "out")]
        with tempfile.TemporaryFile("w+") as told:
            child = subprocess.Popen(command, stderr=told, preexec_fn=_set_limits)
            _, status, used = os.wait4(child.pid, 0)
            child.returncode = os.WEXITSTATUS(status)
            told.seek(0)
            said = told.read()
        self.assertIn(os.WEXITSTATUS(status), (0, 1, 2), f"{status}: {said}")
        self.assertLess(used.ru_utime + used.ru_stime, SECONDS)
        self.assertLess(used.ru_maxrss // 1024, MEGABYTES)
        self.assertNotIn("panicked", said)
        return said


@unittest.skipUnless(TOOLS and PROGRAM, "no service, gcc or objcopy here")
class HostileFiles(BoundedCase):
    def test_time_and_memory_go_with_the_bytes(self) -> None:
        empty = self.compile_code("empty.o", "int wanted(void) { return 0; }", "-g0")
        sections = {"abbrev": abbreviations(), "str": b"x" * 100_000 + b"\0"}
        for make in MADE:
            with self.subTest(make.__name__):
                words = ["objcopy", empty, str(self.folder / "made.o")]
                for name, data in {**sections, "info": make()}.items():
                    words[1:1] = ["--add-section",
                                  f".debug_{name}={self.file(name, data)}"]
                subprocess.run(words, check=True)
                self.convert_bounded("made.o")


@unittest.skipUnless(TOOLS and PROGRAM, "no service, gcc or objcopy here")
class NamedFiles(BoundedCase):
    """Files that other files name, and paths and offsets that lead outside."""

    def refusal(self, *words: str) -> str:
        told = self.convert(*words, status=2)[1]
        self.assertEqual(len(told.splitlines()), 1, told)
        return told

    def test_a_header_that_names_no_place(self) -> None:
        data = bytearray(Path(self.compile_code("code.o", CODE)).read_bytes())
        for place in ((1 << 64) - 1, 1 << 63, len(data) - 1):
            struct.pack_into("<Q", data, 40, place)
            path = self.file("far.o", bytes(data))
            self.assertIn("a damaged ELF file", self.refusal(path))

    def test_what_is_read_is_a_file(self) -> None:
        self.assertIn("/dev/zero: not a regular file", self.refusal("/dev/zero"))
        self.assertIn("is a directory", self.refusal(str(self.folder)))

    def test_a_debug_link_names_a_regular_file_beside_it(self) -> None:
        bare = self.compile_code("bare.o", CODE, "-g0")
        for name, make in (("zero.debug", lambda to: os.symlink("/dev/zero", to)),
                           ("pipe.debug", os.mkfifo)):
            apart, linked = self.folder / name, str(self.folder / f"{name}.o")
            apart.write_bytes(b"x")
            subprocess.run(["objcopy", f"--add-gnu-debuglink={apart}", bare, linked], check=True)
            apart.unlink()
            make(apart)
            self.assertIn("no debug information", self.convert_bounded(f"{name}.o"))

    @unittest.skipUnless(shutil.which("dwz"), "no dwz here")
    def test_a_link_of_dwz_stays_in_the_folders_that_are_searched(self) -> None:
        (self.folder / "inside").mkdir()
        source = self.file("main.c", (CODE + "int main(void) { return 0; }\n").encode())
        for name in ("one", "two"):
            subprocess.run(["gcc", "-g", "-w", source, "-o", str(self.folder / "inside" / name)],
                           check=True)
        subprocess.run(["dwz", "-m", "../common", "-M", "../common", "one", "two"], check=True,
                       cwd=self.folder / "inside")
        two = str(self.folder / "inside/two")
        self.assertIn("name its folder by --debug-folder", self.refusal(two))
        self.convert(two, "--debug-folder", str(self.folder))
        (self.folder / "common").unlink()
        os.mkfifo(self.folder / "common")
        self.assertIn("a file that dwz made", self.refusal(two, "--debug-folder", str(self.folder)))

    def test_sections_that_say_more_than_they_can_inflate_to(self) -> None:
        path = self.compile_code("packed.o", CODE, "-g", "-gz")
        data = bytearray(Path(path).read_bytes())
        at = data.index(struct.pack("<I", 1) + bytes(4), 64)  # the header of a compressed section
        struct.pack_into("<Q", data, at + 8, 1 << 40)
        self.assertIn("damage", self.refusal(self.file("far.o", bytes(data))))

    def test_an_archive_that_leads_back(self) -> None:
        self.compile_code("code.o", CODE)
        subprocess.run(["ar", "rc", "code.a", "code.o"], cwd=self.folder, check=True)
        data = (self.folder / "code.a").read_bytes()
        for size in (b"-60       ", b"9999999999"):
            path = self.file("bad.a", data[:8 + 48] + size + data[8 + 58:])
            self.assertRegex(self.refusal(path), "a damaged archive|an archive that is cut off")


if __name__ == "__main__":
    unittest.main()
