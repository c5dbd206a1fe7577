"""Tests of `ctfd-convert` on the output of compilers: it converts everything, or reports what it
does not."""
from __future__ import annotations

import json
import subprocess
from pathlib import Path
from typing import Any

from ..support import SERVICE, Case, Outcome, run, tool

OPENMP = """
double sum(int n, double *restrict values)
{
	double total = 0;
#pragma omp parallel for reduction(+ : total)
	for (int i = 0; i < n; i++)
		total += values[i];
	return total;
}
"""
# An entry of the tag 0x44 (DW_TAG_coarray_type, of Fortran) in place of a C type.
FOREIGN_TAG = """
	.section .debug_info,"",@progbits
	.long 3f-0f
0:	.value 4
	.long abbreviations
	.byte 8
1:	.uleb128 1
	.byte 12
	.asciz "made.c"
2:	.uleb128 2
	.long 4f-0b+4
	.asciz "odd"
4:	.uleb128 3
	.byte 0
3:
	.section .debug_abbrev,"",@progbits
abbreviations:
	.uleb128 1, 0x11
	.byte 1
	.uleb128 0x13, 0x0b, 0x03, 0x08, 0, 0
	.uleb128 2, 0x16
	.byte 0
	.uleb128 0x49, 0x13, 0x03, 0x08, 0, 0
	.uleb128 3, 0x44
	.byte 0
	.uleb128 0, 0
	.byte 0
"""
# A C++ class with a member, and an entry of the tag 0x4321, which no compiler writes.
FOREIGN_PART = """
	.section .debug_info,"",@progbits
	.long 3f-0f
0:	.value 4
	.long abbreviations
	.byte 8
	.uleb128 1
	.byte 4
	.asciz "made.cc"
	.uleb128 2
	.asciz "strange"
	.byte 4
	.uleb128 3
	.asciz "number"
	.long 4f-0b+4
	.byte 0
	.uleb128 5
	.asciz "odd"
	.byte 0
4:	.uleb128 4
	.byte 4, 5
	.asciz "int"
	.byte 0
3:
	.section .debug_abbrev,"",@progbits
abbreviations:
	.uleb128 1, 0x11
	.byte 1
	.uleb128 0x13, 0x0b, 0x03, 0x08, 0, 0
	.uleb128 2, 0x02
	.byte 1
	.uleb128 0x03, 0x08, 0x0b, 0x0b, 0, 0
	.uleb128 3, 0x0d
	.byte 0
	.uleb128 0x03, 0x08, 0x49, 0x13, 0x38, 0x0b, 0, 0
	.uleb128 4, 0x24
	.byte 0
	.uleb128 0x0b, 0x0b, 0x3e, 0x0b, 0x03, 0x08, 0, 0
	.uleb128 5, 0x4321
	.byte 0
	.uleb128 0x03, 0x08, 0, 0
	.byte 0
"""
# Two files with different structs of the same name, and with exported and hidden symbols.
ONE = """
struct pair { int a; char *b; };
struct pair both; static int hidden = 3; int (*hook)(struct pair *, int);
int add(struct pair *p, int by) { return p->a += by + hidden; }
static void quiet(void) { hidden++; }
int many(const char *f, ...) { quiet(); return *f; }
int main(void) { return many("x"); }
"""
TWO = """
struct pair { long c; };
static struct pair other; struct pair *where = &other;
struct half { char *hook; };
double half(double x, struct half *y) { return x / 2; }
"""
EXPORTED = {
    "both": "struct pair both;", "hook": "int (*hook)(struct pair *, int);",
    "where": "struct pair *where;", "add": "int add(struct pair *, int);",
    "many": "int many(const char *, ...);", "main": "int main(void);",
    "half": "double half(double, struct half *);",
}
OWN = {"hidden": "int hidden;", "quiet": "void quiet(void);"}


class Conversion(Case):
    def convert(self, program: Path, *words: str) -> Outcome:
        """Converts a program to `out.ctf`."""
        done = run(tool("convert"), *words, program, self.folder / "out.ctf")
        self.assert_tame(done, program.name)
        return done

    def dump(self, *words: str) -> str:
        """The dictionary, as dumped by the service."""
        done = run(SERVICE, "dump", self.folder / "out.ctf", *words)
        self.assertEqual(done.status, 0, done.text)
        return done.output


class Tags(Conversion):
    def test_a_reference_is_a_pointer(self) -> None:
        self.needs("llvm-dwarfdump")
        made = self.compile(OPENMP, "-g", "-O1", "-fopenmp")
        peer = subprocess.run(["llvm-dwarfdump", made], capture_output=True, text=True).stdout
        self.assertIn("DW_TAG_reference_type", peer)
        done = self.convert(made)
        self.assertEqual((done.status, done.errors), (0, ""))
        self.assertNotIn("unknown", self.dump())
        # llvm-dwarfdump shows `structure  &` behind `restrict`, with the one member `double *`.
        self.assertRegex(peer, r'DW_TAG_restrict_type\n.*"structure  &"')
        shown = run(tool("types"), "--plain", made, "sum._omp_fn.0")
        self.assertEqual(shown.output, "void sum._omp_fn.0(struct {...} *restrict);\n")
        self.assertRegex(self.dump(), r'restrict "" root to=(\d+) .*bytes=8')

    def assemble(self, text: str) -> Path:
        self.needs("gcc")
        source, made = self.folder / "made.s", self.folder / "made.o"
        source.write_text(text)
        subprocess.run(["gcc", "-c", "-o", made, source], check=True)
        return made

    def test_a_tag_that_is_not_known_is_a_loss_in_a_class(self) -> None:
        self.needs("llvm-dwarfdump")
        made = self.assemble(FOREIGN_PART)
        peer = subprocess.run(["llvm-dwarfdump", made], capture_output=True, text=True).stdout
        self.assertIn("DW_TAG_unknown_4321", peer)
        done = self.convert(made)
        self.assertEqual(done.status, 1, done.text)
        self.assertIn("an entry of tag 0x4321 in strange, ", done.errors)
        shown = run(tool("types"), "--plain", self.folder / "out.ctf", "strange")
        self.assertEqual(shown.output, "struct strange {\n\tint number;\n};\n")

    def test_a_tag_that_is_not_known_is_a_loss(self) -> None:
        made = self.assemble(FOREIGN_TAG)
        done = self.convert(made)
        self.assertEqual(done.status, 1, done.text)
        self.assertRegex(done.errors, "tag 0x44.*unknown")
        self.assertIn("unknown", self.dump())


class ForPrograms(Conversion):
    def bundle(self, *words: str) -> "tuple[dict[str, Any], bytes]":
        """The head of a bundle, and the bytes after it."""
        done = subprocess.run([tool("convert"), "--bundle", *words, "-"], capture_output=True)
        self.assertEqual(done.returncode, 0, done.stderr)
        head, _, lists = done.stdout.partition(b"\n")
        return json.loads(head), lists

    def test_a_bundle_has_what_goes_with_the_types(self) -> None:
        made = self.compile("struct s { int a; } shown; int f(struct s *s) { return s->a; }", "-g")
        head, lists = self.bundle("--addresses", str(made))
        (one,) = head["dictionaries"]
        self.assertEqual((head["made"], head["alone"], head["losses"]), (True, True, []))
        self.assertEqual((one["how"], one["model"], sum(head["lists"])),
                         ("named", "lp64", len(lists)))
        self.assertEqual(self.convert(made, "--lossy").status, 0)
        self.assertEqual(lists[:head["lists"][one["ctf"]]], (self.folder / "out.ctf").read_bytes())
        listed = json.loads(lists[len(lists) - head["lists"][one["addresses"]]:])
        self.assertEqual({(name, is_function) for name, _, _, is_function in listed},
                         {("shown", False), ("f", True)})
        again, others = self.bundle(str(self.folder / "out.ctf"))
        self.assertEqual((again["made"], again["dictionaries"][0]["label"], others[:4]),
                         (False, one["label"], b"\xf1\xcf\2\0"))

    def test_what_a_file_is(self) -> None:
        made = self.compile("int shown;", "-g")
        told = json.loads(run(tool("convert"), "--describe", made, "-").output)
        self.assertEqual((told["kind"], told["model"], told["has_ctf"], told["has_debug"]),
                         ("object", "lp64", False, True))
        self.assertEqual(self.convert(made, "--section").status, 0)
        told = json.loads(run(tool("convert"), "--describe", self.folder / "out.ctf", "-").output)
        self.assertTrue(told["has_ctf"])
        (self.folder / "text").write_text("no ELF file")
        self.assertEqual(run(tool("convert"), "--describe", self.folder / "text", "-").output,
                         "null\n")
        for words in (("--bundle", "--describe"), ("--bundle", "--section"), ("--addresses",)):
            self.assertEqual(run(tool("convert"), *words, made, "-").status, 2)


class SymbolsOfGnu(Conversion):
    """Symbols from `gcc -gctf`: by name in an object file, by order in what ld links. They are
    compared with objdump's."""

    def link(self, *options: str) -> Path:
        objects = [self.compile(code, "-gctf", "-fPIC", name=f"{name}.o")
                   for name, code in (("one", ONE), ("two", TWO))]
        made = self.folder / "linked"
        subprocess.run(["gcc", *options, "-o", made, *objects], check=True)
        return made

    def assert_told(self, file: Path, wanted: "dict[str, str]") -> None:
        for name, text in wanted.items():
            self.assertEqual(run(tool("types"), file, name).output, text + "\n", name)

    def assert_report(self, file: Path, told: str, *words: str) -> Outcome:
        done = self.convert(file, "--report", "-", *words)
        self.assertIn(f"symbols: {told}", done.output)
        return done

    def peer(self, file: Path) -> str:
        done = subprocess.run(["objdump", "--ctf=.ctf", "--ctf-parent=.ctf", file],
                              capture_output=True, text=True)
        return done.stdout

    def test_an_object_file(self) -> None:
        made = self.compile(ONE, "-gctf", name="one.o")
        self.assertRegex(self.peer(made),
                         r"(?s)Data objects:.*hidden ->.*Function objects:.*add ->")
        done = self.assert_report(made, "3 of 3 objects, 4 of 4 functions, by .symtab")
        self.assertEqual((done.status, done.errors), (0, ""))
        names = ("both", "hook", "add", "many", "main")
        self.assert_told(made, {**{name: EXPORTED[name] for name in names}, **OWN})

    def test_a_library(self) -> None:
        made = self.link("-shared")
        self.assertRegex(self.peer(made), r"(?s)hook ->.*where ->.*many ->.*add ->.*both ->")
        done = self.assert_report(made, "3 of 13 objects, 4 of 11 functions, by .symtab")
        self.assertEqual((done.status, done.errors), (0, ""))
        self.assert_told(made, EXPORTED)
        self.assert_report(made, "3 of 3 objects, 4 of 4 functions, by .dynsym",
                           "--symbols", "dynsym")
        subprocess.run(["strip", made], check=True)
        done = self.assert_report(made, "0 of 0 objects, 0 of 0 functions, by .symtab")
        self.assertRegex(done.errors, "stripped of .symtab.*--symbols dynsym")
        self.assert_told(made, EXPORTED)

    def test_a_program_of_which_nothing_is_told(self) -> None:
        made = self.link()
        self.assertNotIn("add ->", self.peer(made))
        done = self.convert(made)
        self.assertRegex(done.errors, "its GNU CTF has no types for the .* functions and objects")

    def section_of(self, file: Path) -> Path:
        """The section by itself."""
        made = self.folder / "bare"
        subprocess.run(["objcopy", "-O", "binary", "--only-section=.ctf", "--set-section-flags",
                        ".ctf=alloc", file, made], check=True)
        return made

    def test_a_section_alone(self) -> None:
        done = self.assert_report(self.section_of(self.compile(ONE, "-gctf", name="one.o")),
                                  "3 of 3 objects, 4 of 4 functions, by names")
        self.assertEqual((done.status, done.errors), (0, ""))
        self.assert_told(self.folder / "bare", OWN)

    def test_a_section_whose_symbols_are_elsewhere(self) -> None:
        made = self.compile(ONE, "-gctf", "-fPIC", "-shared", name="one.so")
        done = self.convert(self.section_of(made))
        self.assertEqual(done.status, 1)
        self.assertRegex(done.errors, "5 functions and objects of its GNU CTF are in the order of")
        done = self.convert(self.section_of(self.link("-shared")))  # which also has names of types
        self.assertEqual(done.status, 2)
        self.assertRegex(done.errors, "names stand in the strings of the ELF file")


class SymbolsOfStripped(Conversion):
    def test_those_of_the_debug_file(self) -> None:
        self.needs("objcopy", "strip")
        made = self.compile(ONE, "-g", name="made.exe")
        debug = self.folder / "made.debug"
        subprocess.run(["objcopy", "--only-keep-debug", made, debug], check=True)
        subprocess.run(["strip", made], check=True)
        subprocess.run(["objcopy", f"--add-gnu-debuglink={debug}", made], check=True)
        self.assertNotRegex(subprocess.run(["readelf", "-SW", made], capture_output=True,
                                           text=True).stdout, r"\.symtab")
        done = self.convert(made, "--report", "-")
        self.assertEqual(done.status, 0)
        self.assertIn("symbols: 3 of 3 objects, 4 of 4 functions, by names", done.output)
        self.assertRegex(done.errors, f"stripped of .symtab: the 7 functions and objects are those"
                                      f" of {debug}, by their names")
        for file in (self.folder / "out.ctf", self.with_section(made)):
            for name, text in OWN.items():
                self.assertEqual(run(tool("types"), file, name).output, text + "\n")

    def with_section(self, program: Path) -> Path:
        made = self.folder / "with"
        self.assertEqual(run(tool("convert"), "--section", program, made).status, 0)
        return made
