"""Values that the service reads from memory, and the cost of hostile types."""
import struct
import unittest

from ctfd.client.faults import Error
from ctfd.values.parse import Characters, Leaf, Lost, Parts, Unclear, parse
from ctfd.values.reading import Bounds, Wanted, value, values

from .support import (ENUM, INTEGER, STRUCT, UNION, WithService, array, dictionary, integer, member,
                      record)

NAMES = b"\0int\0a\0b\0char\0"
INT, A, B, CHAR = 1, 5, 7, 9


def character() -> bytes:
    return record(INTEGER, 0, 1, CHAR, struct.pack("<I", 3 << 24 | 8))


class WholeValues(WithService):
    def setUp(self) -> None:
        super().setUp()
        both = member(A, 1, 0) + member(B, 3, 32)
        self.types = self.open_dictionary(dictionary(
            [integer(INT), character(), array(2, 4, 4), record(STRUCT, 2, 8, 0, both)], NAMES))
        self.pair = self.types.type(4)

    def test_a_struct_is_one_request(self) -> None:
        self.pair.gather()
        before = self.client.requests
        told = value(self.pair, struct.pack("<i4s", -2, b"hey"))
        self.assertEqual(told, Parts([Leaf("-2"), Characters(b"hey\0", 4)], 2))
        self.assertEqual(self.client.requests - before, 1)

    def test_many_values_are_one_round(self) -> None:
        memory = struct.pack("<100i", *range(100))
        wanted = [Wanted(self.types.type(1), 4 * number) for number in range(100)]
        self.types.type(1).gather()
        before = self.client.rounds
        told = values(wanted, lambda at, size: memory[at:at + size])
        self.assertEqual(told, [Leaf(str(number)) for number in range(100)])
        self.assertEqual(self.client.rounds - before, 1)

    def test_what_can_be_read_of_a_struct_is(self) -> None:
        told = value(self.pair, struct.pack("<i", 7))
        self.assertEqual(told, Parts([Leaf("7"), Lost("ShortMemory")], 2))

    def test_bits_behind_the_start_of_a_byte(self) -> None:
        memory = (5 << 3).to_bytes(5, "little")
        told = values([Wanted(self.types.type(1), 0, 3)], lambda at, size: memory[at:at + size])
        self.assertEqual(told, [Leaf("5")])


class LargeValues(WithService):
    def test_an_array_that_is_too_long_for_a_text(self) -> None:
        types = self.open_dictionary(dictionary([integer(INT), array(1, 1_000_000)], NAMES))
        memory = struct.pack("<10i", *range(10))
        told = value(types.type(2), memory, Bounds(elements=12))
        assert isinstance(told, Parts)
        self.assertEqual(told.total, 1_000_000)
        self.assertEqual(told.items[8:], [Leaf("8"), Leaf("9"), *[Lost("ShortMemory")] * 2])

    def test_memory_that_ends_within_a_value(self) -> None:
        types = self.open_dictionary(dictionary([integer(INT), array(1, 200_000)], NAMES))

        def read(at: int, size: int) -> bytes:
            if at >= 8:
                raise Error("nothing is there")
            return struct.pack("<2i", 5, 6)[at:at + size]

        (told,) = values([Wanted(types.type(2), 0)], read, Bounds(elements=3))
        self.assertEqual(told, Parts([Leaf("5"), Leaf("6"), Lost("ShortMemory")], 200_000))
        with self.assertRaisesRegex(Error, "nothing is there"):
            values([Wanted(types.type(1), 8)], read)
        with self.assertRaisesRegex(Error, "nothing is there"):
            values([Wanted(types.type(2), 8)], read)

    def test_long_arrays_of_characters_are_taken_from_memory(self) -> None:
        types = self.open_dictionary(dictionary([integer(INT), character(), array(2, 1_000_000)],
                                                NAMES))
        before = self.client.requests
        told = value(types.type(3), b"x" * 1_000_000)
        self.assertEqual(told, Characters(b"x" * 65_536, 1_000_000))
        self.assertLess(self.client.requests - before, 10)


class Hostile(WithService):
    def doubling(self, kind: int, levels: int) -> bytes:
        """Structs or unions of two of the previous one, beginning with an int."""
        wholes = []
        for level in range(levels):
            size = 4 << level + 1 if kind == STRUCT else 4
            offset = 32 << level if kind == STRUCT else 0
            parts = member(A, level + 1, 0) + member(B, level + 1, offset)
            wholes.append(record(kind, 2, size, 0, parts))
        return dictionary([integer(INT), *wholes], NAMES)

    def test_a_union_that_doubles_ends_at_the_bounds(self) -> None:
        types = self.open_dictionary(self.doubling(UNION, 24))
        before = self.client.requests
        told = value(types.type(25), bytes(4), Bounds(pieces=64, text=300_000))
        self.assertIsInstance(told, Parts)
        self.assertLess(self.client.requests - before, 256)

    def test_arrays_of_arrays_end_at_the_bounds(self) -> None:
        """char [60000][60000][60000]: none is asked for as a whole, and each has 60,000 parts."""
        types = self.open_dictionary(dictionary(
            [integer(INT), character(), array(2, 60_000, 60_000), array(3, 60_000),
             array(4, 60_000)], NAMES))
        told = value(types.type(5), b"x" * 10, Bounds(elements=3000, pieces=4000))
        assert isinstance(told, Parts) and isinstance(told.items[0], Parts)
        self.assertEqual(told.items[0].items[0], Characters(b"x" * 10, 60_000))
        self.assertEqual(len(told.items[0].items), 999)
        self.assertEqual(told.items[-1], Lost("cut"))

    def test_values_that_lie_deep_in_each_other(self) -> None:
        wholes = [record(STRUCT, 1, 4, 0, member(A, level + 1, 0)) for level in range(500)]
        types = self.open_dictionary(dictionary([integer(INT), *wholes], NAMES))
        told = value(types.type(501), struct.pack("<i", 9))
        for _ in range(500):
            assert isinstance(told, Parts)
            (told,) = told.items
        self.assertEqual(told, Leaf("9"))

    def test_enumerators_whose_names_look_like_text(self) -> None:
        """enum { "A", "A, b = 1" }: both members of the struct would give the same text."""
        listed = struct.pack("<IiIi", 1, 0, 3, 1)
        parts = member(18, 1, 0) + member(20, 1, 32)
        types = self.open_dictionary(dictionary(
            [record(ENUM, 2, 4, 0, listed), record(STRUCT, 2, 8, 0, parts)],
            b"\0A\0A, b = 1}, {A\0a\0b\0"))
        told = value(types.type(2), struct.pack("<ii", 1, 0))
        self.assertEqual(told, Parts([Leaf("A, b = 1}, {A"), Leaf("A")], 2))

    def test_a_text_of_another_value_is_unclear(self) -> None:
        types = self.open_dictionary(dictionary([integer(INT), array(1, 2, 8)], NAMES))
        for shown in ("", "[1, 2", "[1, 2]]", "[1]", "{1, 2}", "[1, 2, 3]"):
            with self.assertRaises(Unclear):
                parse(types.type(2), shown)


if __name__ == "__main__":
    unittest.main()
