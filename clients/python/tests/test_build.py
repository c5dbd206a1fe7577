"""Types that are created in Python, and from C declarations."""
from __future__ import annotations

import subprocess
import tempfile
import unittest
from pathlib import Path
from typing import List, Tuple

import ctfd
from ctfd import build
from ctfd.build import attributes

from .support import TOOLS, WithService, has_library

TEXT = """
typedef unsigned char u8;                 /* a comment */
enum level { LOW = 1, MIDDLE, HIGH = LOW << 4 };
struct __attribute__((packed)) tight { char a; int *p; u8 b : 3, c : 5; };
struct loose {
    char a; int *p __attribute__((aligned(16))); enum level level : 6; _Alignas(8) u8 z;
};
typedef struct node {
    struct node *next; int (*call)(const char *, ...); u8 rest[HIGH + 1];
} node_t;
union all { char bytes[sizeof(struct tight)]; node_t node; } __attribute__((aligned(64)));
typedef int aligned_t __attribute__((aligned(8)));
static inline int ignored(int a) { return a ? a : 1; }
struct last { char a; aligned_t b; struct { long x; }; int tail[]; };
"""
NAMES = ("struct tight", "struct loose", "struct node", "union all", "struct last", "node_t")


class FromPython(WithService):
    def test_a_struct_is_laid_out_as_a_compiler_does(self) -> None:
        for model, size, places in (("lp64", 24, [0, 64, 128]), ("ilp32", 12, [0, 32, 64])):
            types = build.Types(model)  # type: ignore[arg-type]
            node = types.struct("node")
            types.define(node, [("kind", types.basic("char")), ("next", types.pointer(node)),
                                ("flags", types.basic("unsigned"), 3)])
            found = types.dictionary(self.session).find("struct node")
            self.assertEqual((found.size, [m.offset for m in found.members]), (size, places))
            bits = found.members[2].type.bit_field
            self.assertEqual(bits and bits.bits, 3)

    def test_what_the_service_would_place_elsewhere(self) -> None:
        """The service aligns a struct by its first member, and adds no padding at its end."""
        types = build.Types()
        types.struct("s", [("a", types.basic("int")), ("p", types.pointer()),
                           ("c", types.basic("char"))])
        self.assertEqual(types.dictionary(self.session).find("struct s").size, 24)

    def test_all_kinds(self) -> None:
        types = build.Types()
        color = types.enum("color", ["RED", ("BLUE", 7), "GREEN"])
        call = types.function(types.basic("int"), [types.pointer(types.const(
            types.basic("char")))], varargs=True)
        types.union("u", [("color", color), ("call", types.pointer(call)),
                          ("row", types.array(types.volatile(types.basic("long double")), 3))])
        types.typedef("u_t", types.union("u"))
        types.forward("struct", "elsewhere")
        made = types.dictionary(self.session)
        u = made.find("u_t").resolved
        self.assertEqual([ctfd.declaration(m.type, m.name) for m in u.members],
                         ["enum color color", "int (*call)(const char *, ...)",
                          "volatile long double row[3]"])
        self.assertEqual((u.size, made.find("struct elsewhere").kind), (48, "forward"))
        values = [(e.name, e.value) for e in made.find("enum color").enumerators]
        self.assertEqual(values, [("RED", 0), ("BLUE", 7), ("GREEN", 8)])

    def test_what_is_refused(self) -> None:
        types = build.Types("ilp32")
        node = types.struct("node")
        for wrong in (lambda: types.basic("__int128"), lambda: types.array(node, 2),
                      lambda: types.struct("s", [("n", node)]),
                      lambda: types.struct("b", [("b", types.basic("int"), 33)]),
                      lambda: types.struct("f", [("f", types.basic("float"), 3)])):
            self.assertRaises(ctfd.Error, wrong)
        types.define(node, [])
        with self.assertRaisesRegex(ctfd.Error, "struct node: it is defined already"):
            types.define(node, [])

    def test_what_is_lost_is_told(self) -> None:
        types = build.Types()
        types.enum("far", [("FAR", 1 << 40)])
        self.assertRegex(types.losses[0], "enum far: its enumerator FAR is 1099511627776")


@unittest.skipUnless(has_library("pycparser"), "no pycparser here")
class Declarations(WithService):
    @unittest.skipUnless(TOOLS, "no gcc here")
    def test_sizes_are_those_of_gcc(self) -> None:
        made = build.declare(TEXT).dictionary(self.session)
        told = [str(made.find(name).size) for name in NAMES]
        says = "".join(f'printf("%zu ", sizeof({name}));' for name in NAMES)
        with tempfile.TemporaryDirectory() as folder:
            program = str(Path(folder) / "program")
            code = f"#include <stdio.h>\n{TEXT}\nint main(void) {{ {says} return 0; }}\n"
            subprocess.run(["gcc", "-w", "-x", "c", "-", "-o", program], input=code, text=True,
                           check=True)
            printed = subprocess.run([program], capture_output=True, text=True, check=True).stdout
        self.assertEqual(told, printed.split())

    def test_bit_fields_lie_where_gcc_has_them(self) -> None:
        # As in gcc 12, found with programs that fill each: packed bit-fields of characters are
        # placed as bits too, and units of a type with a greater alignment are counted from the last
        # 16 bytes.
        cases = [
            ("signed char b : 7 __attribute__((packed)), c : 8 __attribute__((packed))", [3, 10]),
            ("void *p, *q; wide c : 39", [64, 128, 640]), ("void *p; wide c : 39", [64, 128])]
        for text, places in cases:
            types = build.declare("typedef long long wide __attribute__((aligned(64)));"
                                  f"struct s {{ unsigned a : 3; {text}; }};")
            found = types.dictionary(self.session).find("struct s")
            self.assertEqual([m.offset for m in found.members], [0, *places], text)

    def test_names_go_on_into_other_declarations(self) -> None:
        types = build.declare("typedef struct a { int x; } a_t; enum { N = 3 };")
        build.declare("struct b { a_t all[N]; };", into=types)
        self.assertEqual(types["struct b"].size, 12)

    def test_constants(self) -> None:
        cases: List[Tuple[str, int]] = [
            ("0x10", 16), ("010", 8), ("'a'", 97), ("'\\n'", 10), ("sizeof(long)", 8),
            ("_Alignof(int)", 4), ("1 ? 2 : 3", 2), ("(7 - 2) * 3 % 4", 3), ("~0 & 6", 6),
            ("-7 / 2 + 9", 6), ("1 << 3 | 1", 9), ("!0 && 2 > 1", 1), ("(int) 5UL", 5)]
        for text, value in cases:
            types = build.declare(f"struct s {{ char c[{text}]; }};")
            self.assertEqual(types["struct s"].size, value, text)

    def test_what_is_refused_is_told_in_one_line(self) -> None:
        cases = [("struct s { int }", "the declarations:"), ("#include <stdio.h>", "preprocess"),
                 ("struct s { struct t t; };", "its type struct t has no size; define it first"),
                 ("struct s { int a; }; struct s { int b; };", "struct s: it is defined already"),
                 ("struct s { int a[n]; };", "n is no constant that can be computed"),
                 ("typedef int v __attribute__((vector_size(16)));", "vector_size is not known"),
                 ("struct s { int a __attribute__((aligned(3))); };", "it must be a power of two"),
                 ("struct s { missing_t a; };", "the declarations:")]
        for text, words in cases:
            with self.subTest(text), self.assertRaisesRegex(ctfd.Error, words) as caught:
                build.declare(text)
            self.assertNotIn("\n", str(caught.exception))

    def test_attributes_that_change_no_layout_are_left_out(self) -> None:
        text = ('extern int f(const char *, ...) __attribute__((format(printf, 1, 2))) '
                '__asm__("g"); struct s { int a __attribute__((deprecated)); } __attribute__(('
                'may_alias)); __extension__ typedef long long l;')
        self.assertEqual(build.declare(text)["struct s"].size, 4)
        self.assertEqual(attributes.without_attributes(text).marks, {})


if __name__ == "__main__":
    unittest.main()
