"""Tests of the commands' error messages: who is at fault, and what to do about it."""
from __future__ import annotations

import struct
import subprocess
from pathlib import Path

from .. import writers as w
from ..support import Case, Outcome, run, tool

TOP = b"\1\x0c"
PYTHON = r"\w+Error\b"
WIDE = "enum e%d { E%d = 0x100000000 + %d } e%d;\n"


class Messages(Case):
    def convert(self, path: Path, *words: str) -> Outcome:
        done = run(tool("convert"), *words, path, self.folder / "out.ctf")
        self.assert_tame(done, path.name)
        return done

    def object_of(self, data: bytes, name: str = "made.o") -> Path:
        path = self.folder / name
        path.write_bytes(data)
        return path

    def test_refusals_have_no_words_of_python(self) -> None:
        listed = w.abbreviation(1, 0x11, True, [(0x13, 0x0B)]) + b"\0"
        unknown = "an unknown abbreviation code"  # gimli's message
        for entries, says in ((TOP + b"\x63", "an entry of abbreviation 99, which is not there"),
                              (TOP[:1], "cut off|the end of input"), (b"\2", "abbreviation 2,")):
            done = self.convert(self.object_of(w.debug(w.unit(entries), listed)))
            self.assertEqual(done.status, 2, done.text)
            self.assertRegex(done.errors, f"{says}|{unknown}")
            self.assertIn("damaged", done.errors)
            self.assertNotRegex(done.errors, PYTHON)
        odd = w.abbreviation(1, 0x11, True, [(0x11, 0x01)]) + b"\0"
        done = self.convert(self.object_of(w.debug(w.unit(TOP, address=3), odd)))
        self.assertRegex(done.errors, "addresses of 3 bytes|address size is not supported")

    def test_what_the_system_refuses(self) -> None:
        for name in ("types", "explore", "debuginfo", "diff"):
            words = [self.folder / "nowhere"] * (2 if name in ("diff", "debuginfo") else 1)
            done = run(tool(name), *words)
            self.assertRegex(done.errors, r"nowhere: No such file or directory\n\Z")
            self.assertNotRegex(done.errors, r"Errno")

    def test_objects_of_lto(self) -> None:
        self.needs("ar")
        code = "struct s { int a; } s; int f(struct s *p) { return p->a; }\n"
        thin = self.compile(code, "-g", "-flto", "-fno-fat-lto-objects", name="thin.o")
        fat = self.compile(code, "-g", "-flto", "-ffat-lto-objects", name="fat.o")
        subprocess.run(["ar", "rc", self.folder / "thin.a", thin], check=False,
                       capture_output=True)
        for path in (thin, self.folder / "thin.a"):
            done = self.convert(path)
            self.assertEqual(done.status, 2)
            self.assertRegex(done.errors, "-flto.*linked.*-ffat-lto-objects")
            self.assertNotRegex(done.errors, "compile (it|these) with -g")
        self.assertEqual(self.convert(fat).status, 0)
        linked = self.compile(code + "int main(void) { return f(&s); }\n", "-g", "-flto",
                              name="linked.exe")
        self.assertEqual(self.convert(linked).status, 0)

    def test_a_number_of_a_dictionary_where_there_is_none(self) -> None:
        made = self.compile("struct s { int a; } s;", "-g")
        done = self.convert(made, "--dictionary", "7")
        self.assertEqual(done.status, 2)
        self.assertRegex(done.errors, "--dictionary 7 .* read from DWARF: leave it out")
        types = struct.pack("<I", 0x01000020)
        bare = self.object_of(w.btf(w.btf_type(1, 1, 0, 4, types), b"\0int\0"), "bare.btf")
        self.assertRegex(self.convert(bare, "--dictionary", "1").errors, "from BTF: leave it")

    def test_what_matters_comes_first(self) -> None:
        code = "".join(WIDE % (n, n, n, n) for n in range(70))
        one = self.compile(code, "-g", name="one.o")
        two = self.compiled_as_ada("int two(int x) { return x; }", name="two.o")
        both = self.folder / "both.o"
        subprocess.run(["ld", "-r", "-o", both, one, two], check=True)
        done = self.convert(both)
        self.assertEqual(done.status, 1)
        lines = done.errors.splitlines()
        self.assertRegex(lines[0], "1 unit in Ada of the program")
        self.assertLess(len(lines), 15)
        self.assertRegex(lines[-1], r"59 constructs more .*: --report - lists them all")
        listed = self.convert(both, "--report", "-").output
        self.assertEqual(len([line for line in listed.splitlines() if "lost: enum" in line]), 70)
        told = run(tool("types"), both, "enum e1").errors.splitlines()
        self.assertRegex(told[0], "1 unit in Ada of the program")
        self.assertEqual(len(told), 4)
