"""Types as objects: their properties, the names that find them, and the number of round trips."""
import struct
import unittest

import ctfd
from ctfd.client.dictionary import normal

from .support import (FUNCTION, POINTER, STRUCT, WithService, dictionary, integer, record,
                      staged_dictionaries)


class Lua(WithService):
    def setUp(self) -> None:
        super().setUp()
        self.types = self.example("lua.ctf", symbols=True)

    def test_a_struct(self) -> None:
        found = self.types.find("struct luaL_Reg")
        self.assertEqual((found.kind, found.name), ("struct", "luaL_Reg"))
        self.assertEqual((found.size, found.align), (16, 8))
        told = [(m.name, m.offset, m.type.spelled) for m in found.members]
        self.assertEqual(told, [("name", 0, "const char *"), ("func", 64, "lua_CFunction")])

    def test_a_function_behind_a_pointer(self) -> None:
        called = self.types.find("lua_CFunction").resolved.reference.signature
        self.assertEqual(called.returns.spelled, "int")
        self.assertEqual([t.spelled for t in called.arguments], ["lua_State *"])
        self.assertFalse(called.varargs)

    def test_enumerators_and_arrays(self) -> None:
        expkind = self.types.find("expkind").resolved
        self.assertEqual(expkind.enumerators[:2], [("VVOID", 0), ("VNIL", 1)])
        cache = self.types.find("global_State").member("strcache").type
        self.assertEqual((cache.count, cache.contents.count, cache.size), (53, 2, 848))

    def test_a_member(self) -> None:
        action = self.types.find("struct sigaction")
        self.assertEqual(action.member("sa_flags").offset, 8 * 136)
        with self.assertRaises(KeyError):
            action.member("nothing")

    def test_names_as_c_allows_them(self) -> None:
        self.assertEqual(self.types.find("unsigned  long").name, "long unsigned int")
        self.assertEqual(self.types.find("const struct lua_State").size, 200)
        self.assertEqual(self.types.find("void").kind, "void")
        self.assertEqual(normal("const char *const *"), ("char", 2))

    def test_pointers_that_the_dictionary_has_not(self) -> None:
        found = self.types.find("struct lua_Debug ***")
        self.assertEqual((found.kind, found.size), ("pointer", 8))
        self.assertEqual(found.spelled, "struct lua_Debug ***")
        with self.assertRaises(ctfd.Refused):
            found.members
        self.assertEqual(found, self.types.find("struct lua_Debug ** *"))
        self.assertNotEqual(found, self.types.find("struct lua_Debug **"))

    def test_all_types_of_a_name(self) -> None:
        state = self.types.find("struct lua_State")
        self.assertEqual(self.types.find_all("struct lua_State"), [state])
        self.assertEqual(self.types.find_all("struct nothing"), [])

    def test_symbols(self) -> None:
        said = self.types.symbol("closepaux")
        assert isinstance(said, ctfd.Signature)
        self.assertEqual(said.returns.spelled, "void")
        with self.assertRaises(ctfd.NotFound):
            self.types.symbol("nothing")

    def test_the_largest_struct_takes_few_rounds_and_then_none(self) -> None:
        found = self.types.find("struct global_State")
        before = self.client.rounds
        ctfd.listing(found)
        after = self.client.rounds
        self.assertLess(after - before, 20)
        ctfd.listing(found)
        self.assertEqual(self.client.rounds, after)

    def test_sizes_of_all_are_those_of_their_members(self) -> None:
        for t in self.types.types():
            if t.kind == "struct" and t.members:
                whole = ctfd.layout(t)
                bits = sum(p.gap + p.bits for p in whole.places) + whole.padding
                self.assertEqual(bits, 8 * (t.size or 0), t)


class Zlib(WithService):
    def test_symbols_and_a_forward(self) -> None:
        types = self.example("zlib.ctf", symbols=True)
        self.assertEqual(types.own, 206)
        said = types.symbol("adler32")
        assert isinstance(said, ctfd.Signature)
        self.assertEqual([t.spelled for t in said.arguments], ["uLong", "const Bytef *", "uInt"])
        self.assertEqual(types.find("z_streamp").resolved.reference.size, 112)


class Parents(WithService):
    def setUp(self) -> None:
        super().setUp()
        self.parent, self.child = (self.open_dictionary(ctf)
                                   for ctf in staged_dictionaries("parent.jsonl")[:2])

    def test_a_child_alone(self) -> None:
        self.assertTrue(self.child.is_child)
        (pointer,) = self.child.types()
        self.assertEqual((pointer.number, pointer.kind), (0x8001, "pointer"))
        with self.assertRaises(ctfd.NoParent):
            pointer.reference.kind

    def test_a_child_shares_what_its_parent_was_answered(self) -> None:
        with self.assertRaises(ctfd.NoParent):
            self.child.type(3).kind
        self.child.import_parent(self.parent)
        self.assertEqual(ctfd.definition(self.parent.find("struct point")),
                         ctfd.definition(self.child.type(0x8001).reference))
        rounds = self.client.rounds
        self.assertEqual(self.child.type(3).members, self.parent.type(3).members)
        self.assertEqual(self.client.rounds, rounds)

    def test_a_parent_that_is_none(self) -> None:
        with self.assertRaises(ctfd.Refused) as caught:
            self.parent.import_parent(self.child)
        self.assertEqual(caught.exception.name, "NotChild")


class SmallTypes(WithService):
    def test_names_of_any_bytes(self) -> None:
        types = self.open_dictionary(dictionary([integer(1)], b'\0a"\\\x1b\xff\0'))
        found = types.type(1)
        self.assertEqual(found.raw_name, b'a"\\\x1b\xff')
        self.assertEqual(types.find(found.name), found)
        self.assertEqual(types.find(found.raw_name), found)
        self.assertEqual(ctfd.declaration(found, "x"), 'a"\\\\x1b\\xff x')

    def test_names_that_compilers_spell_in_two_ways(self) -> None:
        for name in (b"unsigned long", b"long unsigned int"):
            types = self.open_dictionary(dictionary([integer(1, 64, 8)], b"\0" + name + b"\0"))
            for asked in ("unsigned long", "long unsigned int", "const unsigned long int"):
                self.assertEqual(types.find(asked), types.type(1), asked)
                self.assertEqual(types.find_all(asked), [types.type(1)], asked)

    def test_unnamed_members_that_double_at_each_level(self) -> None:
        wholes = [record(STRUCT, 2, 4, 0, struct.pack("<IHHIHH", 0, t, 0, 0, t, 0))
                  for t in range(1, 65)]
        types = self.open_dictionary(dictionary([integer(1), *wholes], b"\0int\0"))
        with self.assertRaises(KeyError):
            types.type(65).gather().member("nothing")

    def test_members_of_unnamed_members(self) -> None:
        """struct { struct { int a; }; struct { int b; }; }: b is found too."""
        one, two = (record(STRUCT, 1, 4, 0, struct.pack("<IHH", name, 1, 0)) for name in (5, 7))
        both = record(STRUCT, 2, 8, 0, struct.pack("<IHHIHH", 0, 2, 0, 0, 3, 32))
        types = self.open_dictionary(dictionary([integer(1), one, two, both], b"\0int\0a\0b\0"))
        self.assertEqual([types.type(4).member(name).offset for name in "ab"], [0, 32])

    def test_a_list_that_is_too_long_for_a_reply(self) -> None:
        name = b"\xff" * 8000
        members = b"".join(struct.pack("<IHH", 5, 1, 0) for _ in range(600))
        held = [integer(1), record(STRUCT, 600, 4, 0, members)]
        types = self.open_dictionary(dictionary(held, b"\0int\0" + name + b"\0"))
        found = types.type(2).members
        self.assertEqual((len(found), ctfd.text.raw(found[599].name)), (600, name))

    def test_a_function_that_takes_a_pointer_to_itself(self) -> None:
        takes = struct.pack("<100H", *[3] * 100)
        types = self.open_dictionary(dictionary([integer(1), record(FUNCTION, 100, 1, 0, takes),
                                                 record(POINTER, 0, 2)], b"\0int\0"))
        said = ctfd.declaration(types.type(3).gather(), "f")
        self.assertTrue(said.startswith("int (*f)(int (*)(int (*)("))
        self.assertLess(len(said), 100_000)

    def test_the_deepest_declaration(self) -> None:
        records = [integer(1), *(record(POINTER, 0, t) for t in range(1, 511))]
        types = self.open_dictionary(dictionary(records, b"\0int\0"))
        self.assertEqual(ctfd.declaration(types.type(511), "x"), "int " + "*" * 510 + "x")

    def test_hostile_dictionaries_are_refused(self) -> None:
        itself = record(STRUCT, 1, 4, 0, struct.pack("<IHH", 0, 1, 0))
        for name, place, ctf in (("TooShort", 0, b""),
                                 ("Truncated", 1, dictionary([integer(1)[:9]])),
                                 ("BadReference", 1, dictionary([record(POINTER, 0, 9)])),
                                 ("BadName", 36, dictionary([integer(99)])),
                                 ("ValueDeep", 1, dictionary([itself]))):
            with self.assertRaises(ctfd.BadDictionary) as caught:
                self.open_dictionary(ctf)
            fault = caught.exception
            self.assertEqual((fault.name, fault.place, fault.op), (name, place, "open"))
            self.assertIn(fault.advice, str(fault))


if __name__ == "__main__":
    unittest.main()
