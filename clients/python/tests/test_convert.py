"""ctfd-convert: its output for each format, and its reports of what CTF cannot represent."""
from __future__ import annotations

import shutil
import struct
import subprocess
import tempfile
import unittest
from pathlib import Path
from typing import List, Tuple

import ctfd
from ctfd.layout.records import Part, Record, Table

from .whole.written import section_of
from .support import (CONVERT, EXAMPLES, TOOLS, WithService, dictionary, integer, object_file,
                      pointer, run)

LUA = EXAMPLES / "lua.ctf"
CODE = """
#include <stddef.h>
typedef unsigned int u32;
struct inner { char c; };
struct node { struct node *next; u32 flags : 3; const struct inner inner; int (*call)(int, ...);
              union { long l; double d; }; char rest[]; } *first;
int add(struct node *node, u32 more) { return node->flags + more; }
static struct inner both[2][3];
void *used(void) { return both; }
"""
WIDE = "struct wide {{ {} }} *wide;\n".format(" ".join(f"int m{n};" for n in range(1500)))
LOSSY = WIDE + """
enum far { NEAR = 7, FAR = 1L << 40 };
enum color { RED, GREEN };
struct some { enum color color : 2; enum far far; } *some;
"""


def btf(count: int) -> bytes:
    """BTF of `count` structs, each with a pointer to the previous one."""
    names = b"\0int\0p\0" + b"".join(b"s%d\0" % n for n in range(count))
    types = struct.pack("<IIII", 1, 1 << 24, 4, 1 << 24 | 32)
    at = names.index(b"s0\0")
    for n in range(count):
        types += struct.pack("<III", 0, 2 << 24, 2 * n + 1)  # to the previous type
        types += struct.pack("<III", at, 4 << 24 | 1, 8) + struct.pack("<III", 5, 2 * n + 2, 0)
        at = names.index(b"\0", at) + 1
    header = struct.pack("<HBBIIIII", 0xEB9F, 1, 0, 24, 0, len(types), len(types), len(names))
    return header + types + names


class WithFiles(WithService):
    """A test case with a folder of its own."""

    def setUp(self) -> None:
        super().setUp()
        self.folder = Path(tempfile.mkdtemp())
        self.addCleanup(shutil.rmtree, self.folder)

    def file(self, name: str, data: bytes) -> str:
        (self.folder / name).write_bytes(data)
        return str(self.folder / name)

    def compile_code(self, name: str, code: str, *options: str) -> str:
        source = self.file(f"{name}.c", code.encode())
        made = str(self.folder / name)
        subprocess.run(["gcc", "-w", *(options or ("-g",)), "-c", source, "-o", made], check=True)
        return made

    def convert(self, *words: str, status: int = 0) -> Tuple[str, str]:
        """Runs the command. Returns the path of its output, and its messages."""
        out = str(self.folder / "out")
        done = run(*words[:1], out, *words[1:], command=CONVERT)
        self.assertEqual(done.returncode, status, done.stderr)
        return out, done.stderr

    def types(self, path: str) -> ctfd.Dictionary:
        return ctfd.open_file(self.session, path)

    def members(self, t: ctfd.Type) -> List[Tuple[str, int, str]]:
        return [(m.name, m.offset, ctfd.declaration(m.type)) for m in t.resolved.members]


@unittest.skipUnless(TOOLS, "no gcc or objcopy here")
class Dwarf(WithFiles):
    def test_all_that_c_says(self) -> None:
        out, told = self.convert(self.compile_code("code", CODE))
        types = self.types(out)
        node = types.find("struct node")
        self.assertEqual((told, node.size), ("", 32))
        self.assertEqual(self.members(node), [
            ("next", 0, "struct node *"), ("flags", 64, "u32"), ("inner", 72, "const struct inner"),
            ("call", 128, "int (*)(int, ...)"), ("", 192, "union {...}"),
            ("rest", 256, "char [0]")])
        bits = node.member("flags").type
        self.assertEqual((bits.is_root, bits.bit_field and bits.bit_field.bits), (False, 3))
        self.assertEqual(types.find("u32").bit_field, None)

    def test_bit_fields_of_a_union_begin_with_it(self) -> None:
        code = ("typedef unsigned long long loose __attribute__((aligned(1)));"
                "union u { loose a : 18; loose b : 1; unsigned c : 9; } u;")
        out, _ = self.convert(self.compile_code("union", code))
        members = self.types(out).find("union u").members
        self.assertEqual([(m.name, m.offset) for m in members], [("a", 0), ("b", 0), ("c", 0)])

    def test_symbols(self) -> None:
        file = self.compile_code("code", CODE)
        out, _ = self.convert(file, "--section")
        types = self.types(out)
        add, both = types.symbol("add"), types.symbol("both")
        assert isinstance(add, ctfd.Signature) and isinstance(both, ctfd.Type)
        self.assertEqual([t.spelled for t in add.arguments], ["struct node *", "u32"])
        self.assertEqual(ctfd.declaration(both, "both"), "struct inner both[2][3]")

    def test_what_ctf_cannot_hold_is_told(self) -> None:
        file = self.compile_code("code", LOSSY)
        out, told = self.convert(file, status=1)
        lines = sorted(told.splitlines())
        self.assertEqual(len(lines), 3, told)
        self.assertIn("enum far: its enumerator FAR is 1099511627776", lines[0])
        self.assertIn("struct some: its bit-field color is one of enum color", lines[1])
        self.assertIn("struct wide: it has 1500 members, and CTF holds 1023", lines[2])
        types = self.types(out)
        wide = types.find("struct wide")
        self.assertEqual((wide.size, wide.member("m1499").offset), (6000, 32 * 1499))
        self.assertEqual(types.find("enum far").size, 8)
        self.convert(file, "--lossy")

    def test_only_some(self) -> None:
        out, _ = self.convert(self.compile_code("code", CODE), "--only", "struct inner, u32")
        names = {t.name for t in self.types(out).types()}
        self.assertEqual(names, {"inner", "u32", "char", "unsigned int"})

    def test_a_report(self) -> None:
        report = self.folder / "report"
        self.convert(self.compile_code("code", LOSSY), "--lossy", "--report", str(report))
        text = report.read_text()
        for words in ("DWARF", "4 struct", "lost: enum far", "hidden from look-ups: enum color"):
            self.assertIn(words, text)

    def test_a_debug_file_by_its_name_and_by_its_build_id(self) -> None:
        whole = self.compile_code("code", CODE)
        bare, debug = str(self.folder / "bare"), str(self.folder / "code.debug")
        subprocess.run(["objcopy", "--only-keep-debug", whole, debug], check=True)
        subprocess.run(["objcopy", "--strip-debug", f"--add-gnu-debuglink={debug}", whole, bare],
                       check=True)
        out, _ = self.convert(bare)
        self.assertEqual(self.types(out).find("struct node").size, 32)
        Path(debug).write_bytes(b"another file")
        self.convert(bare, status=2)

    def test_a_build_id(self) -> None:
        source = self.file("main.c", (CODE + "int main(void) { return 0; }\n").encode())
        program, debug = str(self.folder / "program"), self.folder / "debug"
        subprocess.run(["gcc", "-g", "-w", "-Wl,--build-id=0x0123456789", source, "-o", program],
                       check=True)
        (debug / ".build-id/01").mkdir(parents=True)
        apart = str(debug / ".build-id/01/23456789.debug")
        subprocess.run(["objcopy", "--only-keep-debug", program, apart], check=True)
        subprocess.run(["strip", program], check=True)
        out, _ = self.convert(program, "--debug-folder", str(debug))
        self.assertEqual(self.types(out).find("struct node").size, 32)

    def test_two_units_with_types_of_one_name(self) -> None:
        one = self.compile_code("one", CODE)
        other = self.compile_code("other",
                                  "struct inner { long l; } *a; struct node; struct node *b;")
        both = str(self.folder / "both")
        subprocess.run(["ld", "-r", "-o", both, one, other], check=True)
        out, _ = self.convert(both)
        types = self.types(out)
        inners = types.find_all("struct inner")
        self.assertEqual([(t.size, t.is_root) for t in inners], [(1, True), (8, False)])
        self.assertEqual([t.kind for t in types.find_all("struct node")], ["struct"])

    def test_a_child_of_a_dictionary(self) -> None:
        base, _ = self.convert(self.compile_code("base", CODE))
        parent = self.file("base.ctf", Path(base).read_bytes())
        module = self.compile_code("module", CODE + "struct own { struct node *node; } *own;\n")
        out, _ = self.convert(module, "--parent", parent)
        types = self.types(out)
        self.assertEqual((types.is_child, types.parent_name), (True, "base"))
        self.assertEqual(types.own, 2)
        types.import_parent(self.types(parent))
        self.assertEqual(self.members(types.find("struct own")), [("node", 0, "struct node *")])

    def test_older_dwarf_says_the_same(self) -> None:
        told = []
        for version in ("-gdwarf-2", "-gdwarf-3", "-gdwarf-4", "-gdwarf-5"):
            out, _ = self.convert(self.compile_code("code", CODE, version))
            told.append(ctfd.listing(self.types(out).find("struct node")))
        self.assertEqual(told, told[:1] * 4)


class Sections(WithFiles):
    def test_a_dictionary_is_inflated(self) -> None:
        import zlib

        lua = LUA.read_bytes()
        packed = self.file("packed", lua[:3] + b"\1" + lua[4:36] + zlib.compress(lua[36:]))
        out, _ = self.convert(packed)
        self.assertEqual(Path(out).read_bytes(), lua)

    @unittest.skipUnless(TOOLS, "no gcc or objcopy here")
    def test_names_of_the_file_are_taken_into_the_dictionary(self) -> None:
        outer = dictionary([integer(0x8000_0001), pointer(1)])
        made = object_file(str(self.folder), outer, code="int first;")
        self.assertIn("--self-contained", self.convert(str(made), status=2)[1])
        out, _ = self.convert(str(made), "--self-contained")
        self.assertEqual(self.types(out).type(2).spelled, self.types(str(made)).type(2).spelled)

    def test_all_of_a_dictionary_by_way_of_a_table(self) -> None:
        lua = self.types(str(LUA))
        out, _ = self.convert(str(LUA), "--self-contained")
        again = self.types(out)
        for own in (lua, again):
            own.gather([t.number for t in own.types()])
        self.assertEqual([ctfd.listing(t) for t in again.types()],
                         [ctfd.listing(t) for t in lua.types()])

    def test_more_types_than_a_dictionary_holds(self) -> None:
        file = self.file("many.btf", btf(20_000))
        out, told = self.convert(file, "--one", status=1)
        self.assertIn("7236 types are more than the 32766 that a dictionary holds", told)
        self.assertEqual(self.types(out).own, 32_765)

    def test_a_parent_and_a_child(self) -> None:
        parent = str(self.folder / "parent.ctf")
        out, _ = self.convert(self.file("many.btf", btf(20_000)), "--split", parent)
        types, base = self.types(out), self.types(parent)
        types.import_parent(base)
        self.assertEqual((types.own + base.own, types.parent_name), (40_001, "parent"))
        self.assertEqual(self.members(types.find("struct s19999")), [("p", 0, "struct s19998 *")])

    def test_a_module_over_its_base(self) -> None:
        base = self.file("base.btf", btf(10))
        names = b"m\0p\0"
        start = len(btf(10)) - len(btf(10).split(b"int\0", 1)[1]) - 5
        strings = len(btf(10)) - start
        types = struct.pack("<III", 0, 2 << 24, 21)
        types += struct.pack("<III", strings, 4 << 24 | 1, 8)
        types += struct.pack("<III", strings + 2, 22, 0)
        header = struct.pack("<HBBIIIII", 0xEB9F, 1, 0, 24, 0, len(types), len(types), len(names))
        module = self.file("module.btf", header + types + names)
        out, _ = self.convert(module, "--base", base)
        self.assertEqual(self.members(self.types(out).find("struct m")),
                         [("p", 0, "struct s9 *")])
        parent = str(self.folder / "kernel.ctf")
        out, _ = self.convert(module, "--base", base, "--split", parent)
        self.assertEqual(self.types(out).own, 2)

    @unittest.skipUnless(TOOLS and shutil.which("pahole"), "no gcc or pahole here")
    def test_btf_says_what_dwarf_says(self) -> None:
        file = self.compile_code("code", CODE)
        subprocess.run(["pahole", "-J", file], check=True, capture_output=True)
        told = []
        for form in ("dwarf", "btf"):
            out, _ = self.convert(file, "--from", form)
            told.append(ctfd.listing(self.types(out).find("struct node")))
        self.assertEqual(told[0], told[1])


class Choosing(WithFiles):
    def chain(self, count: int) -> str:
        """Structs that each contain the previous one by value."""
        table = Table()
        for number in range(count):
            parts = (Part("m", number, 0),) if number else ()
            table.add(Record("struct", f"s{number}", 1, members=parts))
        return self.file("chain.ctf", section_of(table))

    def test_what_is_held_by_value_comes_along(self) -> None:
        out, _ = self.convert(self.chain(5), "--only", "struct s2")
        self.assertEqual([t.name for t in self.types(out).types()], ["s0", "s1", "s2"])

    def test_nothing_is_cut_in_two(self) -> None:
        """If there are too many types, each kept one has everything that it contains by value."""
        out, _ = self.convert(self.file("many.btf", btf(20_000)), "--one", status=1)
        types = self.types(out)
        self.assertEqual(self.members(types.find("struct s16381")),
                         [("p", 0, "struct s16380 *")])
        self.assertEqual((types.own, len(types.find_all("struct s16382"))), (32_765, 0))

    def test_what_is_wanted_last_comes_last(self) -> None:
        """The first types are kept with what they contain; those left out are named in order."""
        _, told = self.convert(self.file("many.btf", btf(20_000)), "--one", status=1)
        self.assertIn("become void *: struct s16382, struct s16383, ", told)

    def test_the_long_forms(self) -> None:
        table = Table()
        number = table.add(Record("integer", "int", 4))
        table.add(Record("struct", "s", 1 << 33, members=(Part("m", number, 1 << 34),)))
        long = self.file("long.ctf", section_of(table))
        out, _ = self.convert(long, "--self-contained")
        self.assertIn(struct.pack("<IHHII", 5, number, 0, 4, 0), Path(out).read_bytes())


if __name__ == "__main__":
    unittest.main()
