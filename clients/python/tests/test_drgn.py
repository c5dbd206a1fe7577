"""drgn with the types of a dictionary, if this Python has drgn."""
import unittest

import ctfd

from .support import (STRUCT, UNION, WithService, array, dictionary, has_library, integer, member,
                      pointer, record)

if has_library("drgn"):
    import drgn

    from ctfd.drgn import type_finder

ENUM, TYPEDEF, CONST = 8, 10, 12
NAMES = b"\0int\0point\0x\0next\0bits\0color\0RED\0number\0grid\0u\0"


def name(text: str) -> int:
    return NAMES.index(b"\0" + text.encode() + b"\0") + 1


@unittest.skipUnless(has_library("drgn"), "this Python has no drgn (Debian's python3-drgn)")
class Finder(WithService):
    def setUp(self) -> None:
        super().setUp()
        flags = drgn.PlatformFlags.IS_LITTLE_ENDIAN | drgn.PlatformFlags.IS_64_BIT
        self.program = drgn.Program(drgn.Platform(drgn.Architecture.X86_64, flags))

    def add_types(self, types: ctfd.Dictionary) -> None:
        self.program.add_type_finder(type_finder(self.program, types))

    def test_each_kind(self) -> None:
        self.add_types(self.open_dictionary(dictionary([
            integer(name("int")),
            record(STRUCT, 4, 32, name("point"), member(name("x"), 1, 0)
                       + member(name("next"), 3, 64) + member(name("bits"), 5, 128)
                       + member(name("grid"), 4, 160)),
            pointer(2), array(1, 3), integer(name("int"), 3, 4),
            record(ENUM, 1, 4, name("color"), name("RED").to_bytes(4, "little") + b"\5\0\0\0"),
            record(TYPEDEF, 0, 8, name("number")), record(CONST, 0, 1),
            record(UNION, 1, 4, name("u"), member(name("x"), 6, 0)),
        ], NAMES)))
        point = self.program.type("struct point")
        self.assertEqual(point.size, 32)
        self.assertEqual([(one.name, one.bit_offset) for one in point.members],
                         [("x", 0), ("next", 64), ("bits", 128), ("grid", 160)])
        self.assertEqual(point.members[1].type.type.type_name(), "struct point")
        self.assertEqual(point.members[2].bit_field_size, 3)
        self.assertEqual(point.members[3].type.length, 3)
        self.assertEqual(drgn.offsetof(point, "grid[2]"), 28)
        color = self.program.type("enum color")
        self.assertEqual([(one.name, one.value) for one in color.enumerators], [("RED", 5)])
        number = self.program.type("number")
        self.assertEqual(number.type.qualifiers, drgn.Qualifiers.CONST)
        self.assertEqual(self.program.type("union u").members[0].type.type_name(), "enum color")
        with self.assertRaises(LookupError):
            self.program.type("struct none")

    def test_a_program(self) -> None:
        """Sizes and offsets of all structs of a real program match the dictionary."""
        types = self.example("lua.ctf")
        self.add_types(types)
        named = [t for t in types.types() if t.kind == "struct" and t.name and t.is_root]
        self.assertGreater(len(named), 30)
        for t in named:
            made = self.program.type(t.spelled)
            self.assertEqual(made.size, t.size, t.spelled)
            self.assertEqual([(one.name or "", one.bit_offset, drgn.sizeof(one.type))
                              for one in made.members if one.type.is_complete()],
                             [(one.name, one.offset, one.type.size) for one in t.members
                              if one.type.size], t.spelled)
