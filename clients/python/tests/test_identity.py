"""The labels of a dictionary and how readers use them: symbols, data model, parent; several
dictionaries in one file; functions and variables of BTF."""
from __future__ import annotations

import shutil
import struct
import subprocess
import unittest
from pathlib import Path
from typing import List

import ctfd
from ctfd.layout.records import Record, Table
from ctfd.values.program import open_program

from .support import CONVERT, TOOLS, compiles
from .test_convert import CODE, WithFiles
from .tools import command
from .whole.written import section_of

PROGRAM = CODE + "int shown = 3; int main(void) { return add(first, 1) + shown; }\n"
OTHER = "struct other { long l; } second; long more(struct other *one) { return one->l; }\n"
STRIPS = ("-g", "-s", "--strip-unneeded", "--only-keep-debug")


class WithPrograms(WithFiles):
    def program(self, name: str, *options: str) -> str:
        source_file = self.file(f"{name}.c", PROGRAM.encode())
        made = str(self.folder / name)
        subprocess.run(["gcc", "-g", "-w", *options, source_file, "-o", made], check=True)
        return made

    def with_section(self, path: str, *words: str) -> str:
        """A copy of a file with its dictionary."""
        out, _ = self.convert(path, "--section", *words)
        made = f"{path}.made"
        shutil.copy(out, made)
        return made

    def declaration_of(self, path: str, name: str, *words: str) -> str:
        """ctfd-types' answer for a symbol, or its error."""
        done = command("ctfd-types", *words, path, name)
        return done.stdout.strip() if done.returncode == 0 else done.stderr.strip()


@unittest.skipUnless(TOOLS, "no gcc or objcopy here")
class Symbols(WithPrograms):
    def test_a_program_that_was_stripped_tells_no_wrong_symbol(self) -> None:
        made = self.with_section(self.program("program", "-rdynamic"))
        right = "int add(struct node *, u32);"
        self.assertEqual(self.declaration_of(made, "add"), right)
        for how in STRIPS:
            with self.subTest(how):
                stripped = str(self.folder / "stripped")
                shutil.copy(made, stripped)
                subprocess.run(["strip", how, stripped], check=True)
                said = self.declaration_of(stripped, "add")
                self.assertTrue(said == right or "symbols are left out" in said, said)
                listed = subprocess.run(["nm", stripped], capture_output=True, text=True).stdout
                self.assertEqual(said == right, " T add\n" in listed)
                listed = command("ctfd-types", stripped, "struct node").stdout
                self.assertIn("struct node *", listed)

    def test_entries_by_the_exported_symbols_last(self) -> None:
        made = self.with_section(self.program("program", "-rdynamic"), "--symbols", "dynsym")
        subprocess.run(["strip", made], check=True)
        self.assertEqual(self.declaration_of(made, "add"), "int add(struct node *, u32);")
        self.assertEqual(self.declaration_of(made, "shown"), "int shown;")
        self.assertIn("NoSymbol", self.declaration_of(made, "both"))

    def test_that_entries_go_by_the_exported_symbols_is_told(self) -> None:
        told = self.convert(self.program("program", "-rdynamic"), "--symbols", "dynsym")[1]
        self.assertRegex(told, r"^ctfd-convert: .*its types are for the \d+ functions and objects"
                               r" of \.dynsym, which strip keeps.*\n\Z")
        file = self.compile_code("code.o", CODE)
        self.assertIn("no .dynsym", self.convert(file, "--symbols", "dynsym", status=2)[1])

    def test_a_program_without_its_symbol_table(self) -> None:
        path = self.program("program", "-rdynamic")
        subprocess.run(["objcopy", "--only-keep-debug", path, f"{path}.debug"], check=True)
        subprocess.run(["strip", path], check=True)
        subprocess.run(["objcopy", f"--add-gnu-debuglink={path}.debug", path], check=True)
        out, told = self.convert(path, "--section")
        self.assertIn(f"functions and objects are those of {path}.debug, by their names", told)
        self.assertEqual(self.declaration_of(out, "add"), "int add(struct node *, u32);")
        other = self.program("other", "-rdynamic")  # and one without any
        subprocess.run(["objcopy", "-w", "--strip-all", "--keep-section=.debug_*", other],
                       check=True)
        out, told = self.convert(other, "--section")
        self.assertIn("it is stripped of .symtab: symbols are left out", told)
        self.assertIn("symbols are left out", self.declaration_of(out, "add"))

    def test_a_debugger_tells_no_wrong_symbol(self) -> None:
        made = self.with_section(self.program("program", "-rdynamic"))
        self.assertIn("add", open_program(self.session, made).symbols)
        subprocess.run(["strip", made], check=True)
        program = open_program(self.session, made)
        self.assertEqual((program.symbols, program.types.how), ({}, "stripped"))
        with self.assertRaisesRegex(ctfd.Unreadable, "was stripped from the file"):
            program.types.symbol("add")

    def test_differences_of_a_program_that_was_stripped(self) -> None:
        made = self.with_section(self.program("program"))
        shutil.copy(made, f"{made}.stripped")
        subprocess.run(["strip", f"{made}.stripped"], check=True)
        done = command("ctfd-diff", made, f"{made}.stripped")
        self.assertEqual((done.returncode, done.stdout), (2, ""))
        self.assertIn("symbols are left out", done.stderr)


@unittest.skipUnless(TOOLS, "no gcc or objcopy here")
class Several(WithPrograms):
    def link_program(self, *options: str) -> str:
        """A program of two object files with a dictionary each."""
        objects = []
        for name, code in (("one.o", PROGRAM), ("two.o", OTHER)):
            objects.append(self.with_section(self.compile_code(name, code)))
        made = str(self.folder / "linked")
        subprocess.run(["gcc", *options, *objects, "-o", made], check=True)
        return made

    def test_all_are_told_and_one_is_chosen(self) -> None:
        path = self.link_program()
        self.assertIn("struct other", command("ctfd-types", path).stdout)
        said = command("ctfd-types", "--from", "ctf", path).stderr
        self.assertRegex(said, r"it has 2 dictionaries, one behind the other: 1 \(\d+ types,"
                               r" struct inner\), 2 \(\d types, struct other\): one is chosen by"
                               r" --dictionary N")
        self.assertIn("long int", command("ctfd-types", "--dictionary", "2", path,
                                          "struct other").stdout)
        self.assertIn("no number 3", command("ctfd-types", "--dictionary", "3", path).stderr)
        out, _ = self.convert(path, "--dictionary", "2")
        self.assertEqual(self.types(out).find("struct other").size, 8)

    def test_symbols_of_an_object_file_are_none_of_the_program_s(self) -> None:
        said = self.declaration_of(self.link_program(), "second", "--dictionary", "2")
        self.assertIn("no longer fit its symbol table", said)

    def test_a_linked_program_is_converted_anew(self) -> None:
        types = self.types(self.convert(self.link_program())[0])
        self.assertEqual([types.find(f"struct {one}").size for one in ("node", "other")], [32, 8])
        one = self.with_section(self.compile_code("one.o", PROGRAM))
        other = self.compile_code("two.o", OTHER)
        both = str(self.folder / "both")
        subprocess.run(["gcc", one, other, "-o", both], check=True)
        self.assertEqual(self.types(self.convert(both)[0]).find("struct other").size, 8)

    def test_one_by_itself_is_whole(self) -> None:
        ctf = Path(self.convert(self.compile_code("code.o", CODE))[0]).read_bytes()
        for count, data in ((1, ctf), (1, ctf + b"more"), (2, ctf + bytes(3) + ctf), (3, ctf * 3)):
            path = self.file("listed", data)
            if count == 1:
                self.assertEqual(ctfd.read(path).ctf, data)
                continue
            with self.assertRaisesRegex(ctfd.Unreadable, f"it has {count} dictionaries"):
                ctfd.read(path)
            for number in range(1, count + 1):
                self.assertEqual(ctfd.read(path, number).ctf, ctf)


@unittest.skipUnless(TOOLS, "no gcc or objcopy here")
class Of(WithPrograms):
    @unittest.skipUnless(compiles("-m32"), "no gcc with -m32 here")
    def test_a_dictionary_of_32_bits_says_so(self) -> None:
        out, _ = self.convert(self.compile_code("short.o", CODE, "-g", "-m32"), "--lossy")
        self.assertEqual((ctfd.read(out).model, self.types(out).model), ("ilp32", "ilp32"))
        self.assertEqual(self.types(out).find("struct node").size, 20)
        said = command("ctfd-types", "--model", "lp64", out).stderr
        self.assertIn("its model is ilp32, but lp64 was asked for: leave the model out",
                      said)
        module = self.compile_code("module.o", CODE)
        kept = self.file("short.ctf", Path(out).read_bytes())
        told = self.convert(module, "--parent", kept, status=2)[1]
        self.assertIn("its model is ilp32", told)

    def test_a_parent_is_the_one_that_the_child_was_made_over(self) -> None:
        parents: List[str] = []
        for name, code in (("base", CODE), ("other", CODE.replace("char c;", "long c;"))):
            out, _ = self.convert(self.compile_code(f"{name}.o", code))
            parents.append(self.file(f"{name}.ctf", Path(out).read_bytes()))
        module = self.compile_code("module.o", CODE + "struct own { struct node *node; } *own;\n")
        child, _ = self.convert(module, "--parent", parents[0])
        self.assertIn("struct node *",
                      self.declaration_of(child, "struct own", "--parent", parents[0]))
        said = self.declaration_of(child, "struct own", "--parent", parents[1])
        self.assertIn("these are not the types with which the child was made", said)
        kept = self.file("child.ctf", Path(child).read_bytes())
        self.convert(kept, "--base", parents[0], "--only", "struct own")
        told = self.convert(kept, "--base", parents[1], "--only", "struct own", status=2)[1]
        self.assertIn("these are not the types", told)

    def test_labels_of_others_stay(self) -> None:
        table = Table()
        table.labels = [("release-7", 1)]
        table.add(Record("integer", "int", 4))
        path = self.file("labelled", section_of(table))
        out, _ = self.convert(path, "--self-contained")
        self.assertEqual(self.types(out).labels(), [("release-7", 1)])


class Btf(WithFiles):
    def btf(self) -> bytes:
        """`int`, `int one(int)`, `void two()`, and `int count`."""
        names = b"\0int\0one\0two\0count\0"
        types = struct.pack("<IIII", 1, 1 << 24, 4, 1 << 24 | 32)
        types += struct.pack("<IIIII", 0, 13 << 24 | 1, 1, 0, 1)  # type 2, the prototype of `one`
        types += struct.pack("<III", 5, 12 << 24, 2)
        types += struct.pack("<III", 0, 13 << 24, 0)
        types += struct.pack("<III", 9, 12 << 24, 4)
        types += struct.pack("<IIII", 13, 14 << 24, 1, 1)
        header = struct.pack("<HBBIIIII", 0xEB9F, 1, 0, 24, 0, len(types), len(types), len(names))
        return header + types + names

    def test_functions_and_variables_of_a_section_by_itself(self) -> None:
        out, told = self.convert(self.file("plain.btf", self.btf()))
        self.assertEqual(told, "")
        for name, wanted in (("one", "int one(int);"), ("two", "void two(void);"),
                             ("count", "int count;")):
            self.assertEqual(command("ctfd-types", out, name).stdout.strip(), wanted)
        again, _ = self.convert(self.file("again.ctf", Path(out).read_bytes()), "--only", "int")
        self.assertEqual(command("ctfd-types", again, "count").stdout.strip(), "int count;")

    def test_names_that_were_changed_are_not_told(self) -> None:
        out, _ = self.convert(self.file("plain.btf", self.btf()))
        data = Path(out).read_bytes()
        changed = self.file("changed", data.replace(b"\0count\0", b"\0cOunt\0"))
        self.assertEqual(ctfd.read(changed).sym, None)

    @unittest.skipUnless(TOOLS and shutil.which("pahole"), "no gcc or pahole here")
    def test_functions_of_a_file_by_its_symbols(self) -> None:
        file = self.compile_code("code.o", CODE)
        subprocess.run(["pahole", "-J", file], check=True, capture_output=True)
        out, told = self.convert(file, "--from", "btf", "--section")
        self.assertEqual(told, "")
        self.assertEqual(command("ctfd-types", out, "add").stdout.strip(),
                         "int add(struct node *, u32);")


class Statuses(WithFiles):
    @unittest.skipUnless(TOOLS, "no gcc or objcopy here")
    def test_an_output_that_can_not_be_written_is_told_first(self) -> None:
        for out in (str(self.folder), "/nowhere/out"):
            done = command("ctfd-convert", "/no/such/input", out)
            self.assertEqual(done.returncode, 2)
            self.assertRegex(done.stderr, r"\Actfd-convert: cannot write \S+: .*\n\Z")

    @unittest.skipUnless(TOOLS, "no gcc or objcopy here")
    def test_standard_output(self) -> None:
        file = self.compile_code("code.o", CODE)
        whole = Path(self.convert(file)[0]).read_bytes()
        with (self.folder / "piped").open("wb") as piped:
            subprocess.run([str(CONVERT), file, "-"], stdout=piped, check=True)
        self.assertEqual((self.folder / "piped").read_bytes(), whole)
        done = command("ctfd-convert", file, "-", "--report", "-")
        self.assertEqual((done.returncode, done.stdout), (2, ""))
        self.assertIn("--report, --split and OUT must be different files", done.stderr)

    @unittest.skipUnless(TOOLS, "no gcc or objcopy here")
    def test_what_is_lost_often_is_told_once(self) -> None:
        code = "typedef int four __attribute__((vector_size(16)));" \
               "typedef short eight __attribute__((vector_size(16))); four a; eight b;"
        told = self.convert(self.compile_code("code.o", code), status=1)[1]
        self.assertRegex(told, r"\Actfd-convert: a vector: .* \(2 times\)\n\Z")

    @unittest.skipUnless(shutil.which("g++"), "no g++ here")
    def test_other_languages(self) -> None:
        plus = self.file("plus.cc", b"struct in_plus { int x; }; in_plus made; int f() {return 0;}")
        made = str(self.folder / "plus.o")
        subprocess.run(["g++", "-g", "-c", plus, "-o", made], check=True)
        out, told = self.convert(made)
        self.assertEqual((told, self.types(out).find("struct in_plus").size), ("", 4))
        both = str(self.folder / "both.o")
        subprocess.run(["ld", "-r", "-o", both, made, self.compile_code("code.o", CODE)],
                       check=True)
        types = self.types(self.convert(both)[0])
        self.assertEqual(types.find("struct node").size, 32)
        self.assertEqual(len(types.find_all("struct in_plus")), 1)


if __name__ == "__main__":
    unittest.main()
