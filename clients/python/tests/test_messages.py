"""The commands' error messages: one line that says what is wrong, in which file, and what to do
next."""
from __future__ import annotations

import os
import re
import shutil
import struct
import subprocess
import sys
import tempfile
import unittest
from pathlib import Path
from typing import List, NamedTuple

from .elf import section_named
from .support import (EXAMPLES, PROGRAM, TOOLS, dictionary, integer, object_file, pointer,
                      staged_dictionaries)
from .tools import RUST

FOLDER = Path(__file__).resolve().parents[1]
LUA = EXAMPLES / "lua.ctf"


class Case(NamedTuple):
    """A command and its expected message; `{}` in its arguments is the folder of the files."""

    cause: str
    words: str
    status: int
    says: str


FILES = [
    Case("no such file", "ctfd-types {}/nowhere", 1, r"/nowhere: No such file"),
    Case("no such file", "ctfd-convert {}/nowhere {}/out", 2, r"/nowhere: No such file"),
    Case("an empty file", "ctfd-convert {}/empty {}/out", 2, r"/empty: it is empty"),
    Case("no ELF file", "ctfd-types {}/text", 1,
         r"/text: neither an ELF file nor a CTF section: it begins with 706c6169"),
    Case("no ELF file", "ctfd-convert {}/text {}/out", 2, r"/text: neither an ELF file nor a CTF"),
    Case("big-endian CTF", "ctfd-types {}/big", 1, r"/big: .*it has no named types of C"),
    Case("big-endian ELF", "ctfd-types {}/bigelf", 1, r"/bigelf: it has no debug information"),
    Case("big-endian ELF", "ctfd-convert {}/bigelf {}/out", 2, r"/bigelf: it has no debug inf"),
    Case("version 3", "ctfd-types {}/three", 1, r"/three: .*it has no named types of C"),
    Case("version 3", "ctfd-convert {}/three {}/out", 2, r"/three: .*it has no named types of C"),
    Case("GNU's CTF", "ctfd-types {}/gnu", 1, r"/gnu: its GNU CTF is damaged"),
    Case("damaged GNU CTF", "ctfd-convert {}/gnu {}/out", 2, r"/gnu: its GNU CTF is damaged"),
    Case("damaged BTF", "ctfd-convert {}/btf {}/out", 2, r"/btf: its BTF is damaged or cut off"),
    Case("a cut off dictionary", "ctfd-types {}/cut", 1, r"/cut: PastEnd.*: the list is cut off"),
    Case("a damaged body", "ctfd-types {}/packed", 1, r"/packed: its body does not inflate"),
    Case("a child without its parent", "ctfd-types {}/child", 0,
         r"/child is a child of p, .*: name the parent's file by --parent"),
    Case("a child without its parent", "ctfd-convert {}/child {}/out --only int", 2,
         r"/child: it is a child of p, .*: name the parent's file by --base"),
    Case("a parent that is too short", "ctfd-types --parent {}/short {}/child", 1,
         r"/short, as the parent of .*/child: ParentShort at 3: the child names more types"),
    Case("a parent that is none", "ctfd-types --parent {}/child {}/short", 1,
         r"/child, as the parent of .*: NotChild: .*swapped"),
    Case("no str", "ctfd-types {}/outer", 1, r"/outer: BadName at 36: .*\.strtab of the very file"),
    Case("a wrong str", "ctfd-types --strings {}/empty {}/outer", 1, r"/outer: BadName at 36"),
    Case("no str", "ctfd-convert {}/outer {}/out --only int", 2,
         r"/outer: its names stand in the strings of the ELF file .*: name that file"),
    Case("a name not found", "ctfd-types {}/lua luaL_reg", 1,
         r"no type or symbol is called luaL_reg \(.*\); did you mean .*luaL_Reg.*\?"),
    Case("a word left out", "ctfd-types {}/lua lua_TValue", 1, r"; did you mean .*\?"),
    Case("a name not found", "ctfd-convert {}/lua {}/out --only luaL_reg", 2,
         r"/lua: --only luaL_reg: it has no type of this name; did you mean .*luaL_Reg.*\?"),
    Case("its own input", "ctfd-convert {}/lua {}/lua", 2, r"/lua: it is an input, .*another file"),
    Case("a folder that is not there", "ctfd-convert {}/lua {}/no/out", 2, r"cannot write \S*/no/out: No"),
    Case("no such file", "ctfd-debuginfo {}/nowhere {}/out", 2, r"/nowhere: No such file"),
    Case("no dictionary", "ctfd-debuginfo {}/text {}/out", 2,
         r"/text: neither an ELF file nor a CTF section: it begins with 706c6169"),
    Case("an empty file", "ctfd-debuginfo {}/empty {}/out", 2, r"/empty: it is empty"),
    Case("GNU's CTF", "ctfd-debuginfo {}/gnu {}/out", 2,
         r"/gnu: GNU's CTF, which is not read as it is; ctfd-convert makes CTF of version 2 of it"),
    Case("BTF", "ctfd-debuginfo {}/btf {}/out", 2, r"/btf: BTF, which is not read as it is; ctfd-c"),
    Case("version 3", "ctfd-debuginfo {}/three {}/out", 2, r"/three: .*FreeBSD.* not read as it is"),
    Case("a cut off dictionary", "ctfd-debuginfo {}/cut {}/out", 2, r"/cut: PastEnd.*: the list is"),
    Case("a damaged body", "ctfd-debuginfo {}/packed {}/out", 2, r"/packed: its body does not infl"),
    Case("a child without its parent", "ctfd-debuginfo {}/child {}/out", 2,
         r"/child is a child of p, .*: name the parent's file by --parent"),
    Case("a wrong parent", "ctfd-debuginfo --parent {}/short {}/child {}/out", 2,
         r"/short, as the parent of .*/child: ParentShort at 3: the child names more types"),
    Case("no str", "ctfd-debuginfo {}/outer {}/out", 2, r"/outer: BadName at 36: .*\.strtab of the"),
    Case("its own input", "ctfd-debuginfo {}/lua {}/lua", 2, r"/lua: it is an input, .*another file"),
    Case("no build id", "ctfd-debuginfo --folder {}/lua {}/out", 2,
         r"--folder needs a program with a build id, .*: leave --folder out, and name OUT"),
    Case("a folder that is not there", "ctfd-debuginfo {}/lua {}/no/out", 2,
         r"cannot write \S*/no/out: No such file or directory"),
    Case("a program that is none", "ctfd-debuginfo {}/lua {}/out --program {}/text", 2,
         r"/text is no ELF file: --program names the program that the types are of"),
    Case("symbols of no program", "ctfd-debuginfo {}/lua {}/out --symbols {}/text", 2,
         r"/lua is no ELF file: name the program that its types are of by --program"),
    Case("--section without ELF", "ctfd-convert --section {}/lua {}/out", 2,
         r"/lua: --section needs an ELF file, and this is none: leave --section out"),
    Case("two parents", "ctfd-convert {}/lua {}/out --parent {}/lua --split {}/x", 2,
         r"--parent and --split: give one of them"),
]

OBJECTS = [
    Case("an ELF file without CTF", "ctfd-types {}/bare.o", 1,
         r"/bare\.o: it has no debug information: compile it with -g, or install"),
    Case("the model of another program", "ctfd-types --model ilp32 {}/debug.o", 1,
         r"/debug\.o: its program is of lp64, and ilp32 was asked for"),
    Case("a parent of what is converted", "ctfd-types --parent {}/lua {}/debug.o", 1,
         r"/debug\.o: --parent, .* go with a dictionary, .*: leave them out, or make"),
    Case("an ELF file without CTF", "ctfd-debuginfo {}/bare.o {}/out", 2,
         r"/bare\.o: an ELF file without \.SUNW_ctf or \.ctf; compile it with -g, and let ctfd-conv"),
    Case("debug information", "ctfd-debuginfo {}/debug.o {}/out", 2,
         r"/debug\.o: .*; it has debug information: `ctfd-convert .*/debug\.o OUT` makes CTF of it"),
    Case("the model of another program", "ctfd-debuginfo --model ilp32 {}/strings.o {}/out", 2,
         r"/strings\.o is of ilp32, and .*/strings\.o of lp64: name the program that the types are of"),
    Case("a compressed section", "ctfd-debuginfo {}/squeezed.o {}/out", 2,
         r"SUNW_ctf is compressed as ELF has it, .*: objcopy --decompress-debug-sections"),
    Case("a compressed section", "ctfd-types {}/squeezed.o", 1,
         r"SUNW_ctf is compressed as ELF has it, .*: objcopy --decompress-debug-sections"),
    Case("CTF that is not there", "ctfd-convert --from gnu {}/debug.o {}/out", 2,
         r"/debug\.o: it has no section \.ctf .*--from gnu .*leave that out"),
    Case("names in the file's strings", "ctfd-convert {}/strings.o {}/out", 2,
         r"/strings\.o: its names stand in the strings .*: --self-contained takes them"),
]

DEBUG = [
    Case("no debug information", "ctfd-convert {}/bare.o {}/out", 2,
         r"/bare\.o: it has no debug information: compile it with -g, or install"),
    Case("a debug file that is missing", "ctfd-convert {}/linked.o {}/out", 2,
         r"no debug file is at .*/gone\.debug or .*: compile it with -g, or install the debug"),
    Case("damaged debug information", "ctfd-convert {}/cut.o {}/out", 2, r"/cut\.o: "),
    Case("no objcopy", "PATH={}:/nowhere ctfd-convert --section {}/debug.o {}/out", 2,
         r"--section needs objcopy, which is not on the PATH: install binutils"),
]


def damaged_elf(data: bytes) -> bytes:
    """The file with zeros in place of the abbreviations of its debug information."""
    section = section_named(data, ".debug_abbrev")
    start = section.offset
    return data[:start] + bytes(section.size) + data[start + section.size:]


@unittest.skipUnless(PROGRAM, "CTFD names no built service")
class Messages(unittest.TestCase):
    folder: str

    @classmethod
    def setUpClass(cls) -> None:
        cls.folder = tempfile.mkdtemp()
        cls.addClassCleanup(shutil.rmtree, cls.folder)
        place = Path(cls.folder)
        parent, child = staged_dictionaries("parent.jsonl")[:2]
        lua = LUA.read_bytes()
        files = {
            "empty": b"", "text": b"plain text\n", "big": b"\xcf\xf1\x02\0" + bytes(60),
            "bigelf": b"\x7fELF\x02\x02\x01" + bytes(60), "three": b"\xf1\xcf\x03\0" + bytes(60),
            "gnu": b"\xf2\xdf\x04\0" + bytes(20), "btf": b"\x9f\xeb\x01\0" + bytes(4),
            "cut": lua[:9000], "packed": lua[:3] + b"\x01" + lua[4:], "lua": lua, "child": child,
            "parent": parent, "short": dictionary([integer(1)], b"\0int\0"),
            "outer": dictionary([integer(0x8000_0001)]),
        }
        for name, data in files.items():
            (place / name).write_bytes(data)

    def say(self, cases: List[Case]) -> None:
        for case in cases:
            with self.subTest(case.cause, words=case.words):
                self.check_message(case)

    def check_message(self, case: Case) -> None:
        """Asserts that the command prints one line, which begins with its name."""
        words = case.words.replace("{}", self.folder).split()
        environment = {**os.environ, "CTFD": PROGRAM}
        while "=" in words[0]:
            name, _, value = words.pop(0).partition("=")
            environment[name] = value
        command = [sys.executable, str(FOLDER / words[0])]
        if words[0] in RUST:
            command = [str(RUST[words[0]])]
            if not RUST[words[0]].exists():
                self.skipTest(f"{words[0]} is not compiled")
        command += words[1:]
        done = subprocess.run(command, capture_output=True, text=True, env=environment)
        lines = done.stderr.splitlines()
        self.assertEqual((done.returncode, len(lines)), (case.status, 1), done.stderr)
        self.assertRegex(lines[0], f"^{words[0]}: ")
        self.assertTrue(re.search(case.says, lines[0]), lines[0])
        self.assertFalse((Path(self.folder) / "out").exists())

    def test_files(self) -> None:
        self.say(FILES)

    @unittest.skipUnless(TOOLS, "no gcc or objcopy here")
    def test_object_files(self) -> None:
        self.objects()
        self.say(OBJECTS)

    @unittest.skipUnless(TOOLS, "no gcc or objcopy here")
    def test_debug_information(self) -> None:
        self.objects()
        self.say(DEBUG)

    def objects(self) -> None:
        """Object files without CTF, with and without debug information."""
        place = Path(self.folder)
        (place / "code.c").write_text("struct s { int a; } s;\n")
        for name, option in (("bare.o", "-g0"), ("debug.o", "-g")):
            subprocess.run(["gcc", option, "-c", str(place / "code.c"), "-o", str(place / name)],
                           check=True)
        outer = dictionary([integer(0x8000_0001), pointer(1)])
        object_file(self.folder, outer, code="int first;").rename(place / "strings.o")
        object_file(self.folder, LUA.read_bytes()).rename(place / "squeezed.o")
        self.squeeze(place / "squeezed.o")
        (place / "cut.o").write_bytes(damaged_elf((place / "debug.o").read_bytes()))
        (place / "gone.debug").write_bytes(b"x")
        subprocess.run(["objcopy", f"--add-gnu-debuglink={place / 'gone.debug'}",
                        str(place / "bare.o"), str(place / "linked.o")], check=True)
        (place / "gone.debug").unlink()

    def squeeze(self, path: Path) -> None:
        """Sets the flag in the section's header that says that it is compressed."""
        data = bytearray(path.read_bytes())
        section = section_named(bytes(data), ".SUNW_ctf")
        struct.pack_into("<Q", data, section.header + 8, section.flags | 0x800)
        path.write_bytes(data)


if __name__ == "__main__":
    unittest.main()
