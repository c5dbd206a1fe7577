"""Files: ELF, compressed sections, and errors that name other formats."""
import struct
import tempfile
import unittest
import zlib
from typing import Dict, NamedTuple

import ctfd
from ctfd.client.model import Model
from ctfd.files import compiled
from ctfd.files.bundles import Description

from .support import (EXAMPLES, POINTER, TOOLS, WithService, compiles, dictionary, integer,
                      object_file, record)

LUA = (EXAMPLES / "lua.ctf").read_bytes()
ENTRY = 0x1234


def compress(ctf: bytes, body: bytes = b"") -> bytes:
    return ctf[:3] + b"\x01" + ctf[4:36] + zlib.compress(body or ctf[36:])


class Shape(NamedTuple):
    """The formats of the headers in a class of ELF files."""

    number: int
    header: struct.Struct
    section: struct.Struct


BITS_64 = Shape(2, struct.Struct("<HHIQQQIHHHHHH"), struct.Struct("<IIQQQQIIQQ"))
BITS_32 = Shape(1, struct.Struct("<HHIIIIIHHHHHH"), struct.Struct("<10I"))


def elf(ctf: bytes, link: int = 2, sym: bytes = b"", strings: bytes = b"\0",
        shape: Shape = BITS_64) -> bytes:
    """An ELF file of the sections .SUNW_ctf, .symtab and .strtab, and one with their names."""
    names = b"\0.SUNW_ctf\0.symtab\0.strtab\0"
    listed = [(0, 0, b"", 0), (1, 1, ctf, link), (11, 2, sym, 3), (19, 3, strings, 0),
              (19, 3, names, 0)]
    body, headers = b"", b""
    first = 16 + shape.header.size
    for name, kind, data, linked in listed:
        start = first + len(body)
        headers += shape.section.pack(name, kind, 0, 0, start, len(data), linked, 0, 0, 0)
        body += data
    rest = shape.header.pack(1, 62, 1, ENTRY, 0, first + len(body), 0, first, 0, 0,
                             shape.section.size, len(listed), 4)
    return b"\x7fELF" + bytes([shape.number, 1, 1]) + bytes(9) + rest + body + headers


class WithFile(unittest.TestCase):
    """A test that reads some bytes as a file."""

    def of_bytes(self, data: bytes) -> ctfd.Source:
        with tempfile.NamedTemporaryFile() as file:
            file.write(data)
            file.flush()
            return ctfd.read(file.name)

    def check_output(self, data: bytes, words: str) -> None:
        with self.assertRaisesRegex(ctfd.Unreadable, words):
            self.of_bytes(data)


class Inflating(WithFile):
    def test_a_compressed_section(self) -> None:
        self.assertEqual(self.of_bytes(compress(LUA)), self.of_bytes(LUA))
        self.assertEqual(self.of_bytes(LUA).ctf, LUA)

    def test_the_header_bounds_what_is_inflated(self) -> None:
        self.check_output(compress(LUA, bytes(100_000_000)), "inflates to more than 22979 bytes")
        self.check_output(compress(LUA, b"short"), "inflates to 5 bytes")
        self.check_output(compress(LUA[:28] + struct.pack("<II", 1 << 31, 1 << 31)), "67108864")

    def test_damage(self) -> None:
        self.check_output(compress(LUA)[:36] + b"no zlib", "does not inflate .*: damage")
        self.check_output(compress(LUA)[:200], "does not inflate .*: damage")


class Foreign(WithFile):
    def test_formats_are_told_as_what_they_are(self) -> None:
        for data in (b"\xf2\xdf\x04\0", b"\xdf\xf2\x04\0", b"\xcf\xf1\x02\0", b"\xf1\xcf\x03\0"):
            self.check_output(data + bytes(60), "no named types of C")
        self.check_output(struct.pack("<Q", 0x8B47F2A4D7623EEB), "GNU CTF is damaged or cut off")
        self.check_output(b"\xf1\xcf\x01\0" + bytes(60), "CTF version 1, which is not read")
        self.check_output(b"", "it is empty")
        self.check_output(b"#!/bin/sh", "begins with 23212f62")
        self.check_output(b"BC\xc0\xde", "bitcode")
        for damaged in (b"\x02\x02" + bytes(60), b"", b"\x02", b"\x03\x01", b"\x01\x03"):
            self.check_output(b"\x7fELF" + damaged, "a damaged ELF file")

    def test_a_foreign_section_in_an_elf_file(self) -> None:
        self.check_output(elf(b"\xf2\xdf\x04\0" + bytes(60)), "it has no debug information")

    def test_no_such_file(self) -> None:
        for name, why in (("/nowhere/at/all", "No such file"), ("/", "is a directory"),
                          ("/dev/null", "not a regular file"), ("a\0b", "null byte")):
            with self.assertRaisesRegex(ctfd.Unreadable, why):
                ctfd.read(name)


class ElfFiles(WithService, WithFile):
    def test_strings_and_symbols_by_the_link(self) -> None:
        label = self.of_bytes(LUA).label
        for link, sym, how in ((2, bytes(24), "linked"), (3, None, "linked"),
                               (0, bytes(24), "guessed")):
            found = self.of_bytes(elf(LUA, link, bytes(24), b"\0s\0"))
            self.assertEqual(found, ctfd.Source(LUA, sym, b"\0s\0", how, "lp64", label))
        self.assertEqual(self.of_bytes(LUA), ctfd.Source(LUA, label=label))

    def test_symbols_of_32_bits_are_left_out_and_their_strings_are_not(self) -> None:
        for link, how in ((0, "unread"), (2, "unread"), (3, "linked")):
            found = self.of_bytes(elf(LUA, link, bytes(16), b"\0s\0", BITS_32))
            self.assertEqual(found[:5], (LUA, None, b"\0s\0", how, "ilp32"))

    def test_a_file_of_32_bits(self) -> None:
        """int *, with the name of int in the strings of the file's symbol table."""
        ctf = dictionary([integer(0x8000_0001), record(POINTER, 0, 1)])
        slot = ctfd.open_source(self.session, self.of_bytes(
            elf(ctf, 2, bytes(16), b"\0int\0", BITS_32)))
        self.assertEqual((slot.model, slot.how), ("ilp32", "unread"))
        self.assertEqual((slot.type(1).name, slot.type(2).size), ("int", 4))
        with self.assertRaisesRegex(ctfd.Unreadable, "has 32 bits, which is not read"):
            slot.symbol("main")
        for ask in (slot.object, slot.function):
            self.assertRaises(ctfd.Unreadable, ask, 1)

    def test_a_file_that_is_cut_off_anywhere(self) -> None:
        for shape in (BITS_32, BITS_64):
            whole = elf(LUA[:60], 2, bytes(24), b"\0s\0", shape)
            for length in range(len(whole)):
                with self.assertRaises(ctfd.Unreadable):
                    self.of_bytes(whole[:length])

    def test_what_a_file_is(self) -> None:
        models: "Dict[int, Model]" = {1: "ilp32", 2: "lp64"}
        for shape in (BITS_32, BITS_64):
            model = models[shape.number]
            with tempfile.NamedTemporaryFile() as file:
                file.write(elf(LUA, shape=shape))
                file.flush()
                found = compiled.description(file.name)
            self.assertEqual(found, Description("object", model, ENTRY, None, "", True, False))
        self.assertIsNone(compiled.description(str(EXAMPLES / "lua.ctf")))

    def test_symbols_answer_by_name(self) -> None:
        sym, strings = ((EXAMPLES / f"lua.{s}").read_bytes() for s in ("sym", "str"))
        whole = elf(compress(LUA), 2, sym, strings)
        slot = ctfd.open_source(self.session, self.of_bytes(whole))
        said = slot.symbol("closepaux")
        assert isinstance(said, ctfd.Signature)
        self.assertEqual([t.spelled for t in said.arguments], ["lua_State *", "void *"])

    def test_guessed_symbols_that_do_not_fit_are_left_out(self) -> None:
        slot = ctfd.open_source(self.session, self.of_bytes(elf(LUA, 0, bytes(23))))
        self.assertEqual((slot.how, slot.own), ("refused", 526))
        with self.assertRaises(ctfd.BadSymbols):
            ctfd.open_source(self.session, self.of_bytes(elf(LUA, 2, bytes(23))))

    @unittest.skipUnless(TOOLS, "no gcc or objcopy here")
    def test_an_object_file_of_gcc(self) -> None:
        for section in (".SUNW_ctf", ".ctf"):
            for ctf in (LUA, compress(LUA)):
                with tempfile.TemporaryDirectory() as folder:
                    made = object_file(folder, ctf, section)
                    found = ctfd.read(str(made))
                self.assertEqual((found.ctf, found.how), (LUA, "guessed"))
                slot = ctfd.open_source(self.session, found)
                self.assertEqual(slot.find("struct lua_State").size, 200)

    @unittest.skipUnless(compiles("-m32"), "no gcc with -m32, or no objcopy, here")
    def test_an_object_file_of_32_bits(self) -> None:
        with tempfile.TemporaryDirectory() as folder:
            made = object_file(folder, LUA, code="int counter;", options=["-m32"])
            found = ctfd.read(str(made))
        self.assertEqual((found.ctf, found.sym, found.how, found.model),
                         (LUA, None, "unread", "ilp32"))
        self.assertIn(b"\0counter\0", found.strings or b"")

    @unittest.skipUnless(TOOLS, "no gcc or objcopy here")
    def test_an_object_file_without_a_section(self) -> None:
        with tempfile.TemporaryDirectory() as folder:
            made = object_file(folder, LUA, ".other")
            with self.assertRaisesRegex(ctfd.Unreadable, "it has no debug information"):
                ctfd.read(str(made))


if __name__ == "__main__":
    unittest.main()
