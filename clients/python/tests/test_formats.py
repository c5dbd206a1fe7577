"""Values as gdb 13.1 prints them."""
import struct
import unittest

from ctfd.client.types import Encoding, Enumerator
from ctfd.values import floats
from ctfd.values.formats import Formatter, Style, flags_of
from ctfd.values.quoting import one, quote
from ctfd.values.reading import value

from .support import WithService


class NoTexts:
    """Addresses without symbols, and with the same text everywhere."""

    def label(self, address: int, is_code: bool = False) -> str:
        return "<main+4>" if address == 0x1004 else ""

    def string(self, address: int, limit: int, size: int = 1, before: str = "") -> str:
        return '"text"'


class Floats(unittest.TestCase):
    def text_of(self, raw: bytes, flags: int) -> str:
        return floats.number(raw, Encoding(flags, 0, 8 * len(raw)))

    def test_single_and_double(self) -> None:
        for number, said in ((0.1, "0.100000001"), (16777216, "16777216"), (1e30, "1.00000002e+30"),
                             (float("inf"), "inf"), (-0.0, "-0")):
            self.assertEqual(self.text_of(struct.pack("<f", number), 1), said)
        for number, said in ((0.1, "0.10000000000000001"), (5e-324, "4.9406564584124654e-324")):
            self.assertEqual(self.text_of(struct.pack("<d", number), 2), said)

    def test_what_is_no_number(self) -> None:
        self.assertEqual(self.text_of(bytes.fromhex("0500c0ff"), 1), "-nan(0x400005)")
        self.assertEqual(self.text_of(bytes.fromhex("000000000000f87f"), 2), "nan(0x8000000000000)")

    def test_long_double(self) -> None:
        for raw, said in (("cdccccccccccccccfb3f", "0.100000000000000000001"),
                          ("00000000000000c0ffbf", "-1.5"), ("00" * 10, "0"),
                          ("0000000000000080ff7f", "inf")):
            data = bytes.fromhex(raw) + bytes(6)
            self.assertEqual(self.text_of(data, 6), said)

    def test_what_is_not_known_is_shown_as_it_is(self) -> None:
        self.assertEqual(self.text_of(b"\1\2", 1), "0x0201")


class Quotes(unittest.TestCase):
    def test_escapes(self) -> None:
        self.assertEqual(quote(b"a\t\"\\'\x1b\x7f\xff", 200, 10), '"a\\t\\"\\\\\'\\033\\177\\377"')
        self.assertEqual(one(ord("'")), "'\\''")
        self.assertEqual(one(0x263A, "L"), "L'\\x263a'")

    def test_repeats_and_the_limit(self) -> None:
        self.assertEqual(quote(b"ab" + b"c" * 11 + b"d", 200, 10),
                         "\"ab\", 'c' <repeats 11 times>, \"d\"")
        self.assertEqual(quote(b"c" * 10, 200, 10), '"cccccccccc"')
        self.assertEqual(quote(b'"' * 11, 200, 10), "'\\\"' <repeats 11 times>")
        self.assertEqual(quote(b"'" * 11, 200, 10), "''' <repeats 11 times>")
        self.assertEqual(quote(b"abcdef", 4, 10), '"abcd"...')
        self.assertEqual(quote(b"abccc", 3, 10), '"abccc"')
        self.assertEqual(quote(b"c" * 300, 4, 0), '"' + "c" * 300 + '"')
        self.assertEqual(quote(b"", 4, 10), '""')

    def test_a_digit_behind_a_number_is_no_part_of_it(self) -> None:
        """A letter that would continue an escape is escaped, as gdb does in L"\\x3b1" "ag"."""
        for codes, text in (([0x3b1, 0x61, 0x67], 'L"\\x3b1\\141g"'), ([0x3b1, 0x67, 0x61], 'L"\\x3b1ga"'),
                            ([0o777, 0x61], 'L"\\777a"'), ([0x3b1, 0x3b2, 0x46], 'L"\\x3b1\\x3b2\\106"'),
                            ([0x3b1] + 11 * [0x61], 'L"\\x3b1", L\'\\141\' <repeats 11 times>')):
            self.assertEqual(quote(codes, 200, 10, False, "L"), text)


class Flags(unittest.TestCase):
    def test_an_enum_of_single_bits(self) -> None:
        flags = [Enumerator("R", 1), Enumerator("W", 2), Enumerator("AGAIN", 1), Enumerator("X", 4)]
        for number, said in ((3, "(R | W)"), (0, "0"), (9, "(R | unknown: 0x8)"),
                             (8, "(unknown: 0x8)"), (6, "(W | X)")):
            self.assertEqual(flags_of(flags, number), said)

    def test_other_enums(self) -> None:
        for listed in ([1, 6], [1, -2], [3]):
            flags = [Enumerator(str(bits), bits) for bits in listed]
            self.assertEqual(flags_of(flags, 7), "7")


class WholeValues(WithService):
    def setUp(self) -> None:
        super().setUp()
        self.types = self.example("lua.ctf")

    def text_of(self, name: str, memory: bytes, style: Style = Style()) -> str:
        t = self.types.find(name)
        return Formatter(NoTexts(), style).top(t, value(t, memory))

    def test_a_struct_with_pointers(self) -> None:
        memory = struct.pack("<QQ", 0x1000, 0x1004)
        self.assertEqual(self.text_of("struct luaL_Reg", memory),
                         '{name = 0x1000 "text", func = 0x1004 <main+4>}')
        self.assertEqual(self.text_of("struct luaL_Reg", memory, Style(hexadecimal=True)),
                         "{name = 0x1000, func = 0x1004}")

    def test_a_pointer_by_itself(self) -> None:
        memory = struct.pack("<Q", 0)
        self.assertEqual(self.text_of("struct lua_State *", memory), "(struct lua_State *) 0x0")
        self.assertEqual(self.text_of("char *", struct.pack("<Q", 8)), '0x8 "text"')

    def test_numbers(self) -> None:
        self.assertEqual(self.text_of("unsigned char", b"\xc8"), "200 '\\310'")
        self.assertEqual(self.text_of("int", b"\xfe\xff\xff\xff"), "-2")
        self.assertEqual(self.text_of("int", b"\xfe\xff\xff\xff", Style(hexadecimal=True)),
                         "0xfffffffe")
        self.assertEqual(self.text_of("double", struct.pack("<d", -2.5)), "-2.5")
        self.assertEqual(self.text_of("expkind", struct.pack("<i", 1)), "VNIL")
        self.assertEqual(self.text_of("expkind", struct.pack("<i", 77)), "77")

    def test_memory_that_is_not_there(self) -> None:
        told = self.text_of("struct luaL_Reg", bytes(8))
        self.assertEqual(told, "{name = 0x0, func = <not read>}")

    def test_depth(self) -> None:
        told = self.text_of("TValue", bytes(16), Style(deepest=1))
        self.assertEqual(told, "{value_ = {...}, tt_ = 0 '\\000'}")


if __name__ == "__main__":
    unittest.main()
