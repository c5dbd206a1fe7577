"""Types of a program's symbols, and labels."""
from __future__ import annotations

from typing import Any

from .dictionaries import (FUNCTION, INTEGER, NAMES, OBJECT, PROGRAM, Dictionary, of_program,
                                  symbol)
from .service import Fault, OverService


def signature(args: list[int], varargs: bool = False) -> dict[str, Any]:
    """The answer for a function that returns type 1."""
    return {"return": 1, "args": args, "varargs": varargs}


class Symbols(OverService):
    """Objects and functions, by number and by name."""

    def test_entries(self) -> None:
        for functions, told in ((b"\0\0", Fault("NoInfo")),
                                (b"\x01\x28\x01\0\x01\0", signature([1])),
                                (b"\x01\x28\x01\0\0\0", signature([], varargs=True)),
                                (b"\0\x28\x01\0\0\0", signature([]))):
            d = self.open_lists(of_program(b"\x01\0", functions), PROGRAM, NAMES)
            self.assertEqual(self.ask("object", d=d, sym=4), {"t": 1})
            self.assertEqual(self.ask("object", d=d, sym=5), Fault("NoInfo"))
            self.assertEqual(self.ask("function", d=d, sym=6), told)

    def test_by_number(self) -> None:
        d = self.open_lists(of_program(b"\x01\0", b"\x01\x28\x01\0\0\0"), PROGRAM, NAMES)
        objects = ("NotData", "NoInfo", "NoInfo", "NoInfo", None, "NoInfo", "NotData", "NoSymbol")
        functions = (*6 * ("NotFunction",), None, "NoSymbol")
        for number, (of_object, of_function) in enumerate(zip(objects, functions)):
            answer = self.ask("object", d=d, sym=number)
            self.assertEqual(answer, Fault(of_object) if of_object else {"t": 1}, number)
            wanted = Fault(of_function) if of_function else signature([], varargs=True)
            self.assertEqual(self.ask("function", d=d, sym=number), wanted, number)

    def test_the_first_of_a_name(self) -> None:
        """Two more symbols of the name `b`, the second through another copy of the text; a function
        `_END_`, which is a mark; and a function without a name."""
        sym = PROGRAM + b"".join((symbol(13, FUNCTION, 1), symbol(25, OBJECT, 1),
                                  symbol(19, FUNCTION, 1), symbol(0, FUNCTION, 1)))
        ctf = of_program(b"\x01\0", b"\0\0")
        d = self.open_lists(ctf, sym, NAMES + b"_END_\0b\0")
        for name, number, kind in (("b", 4, "object"), ("c", 5, "object"), ("f", 6, "function")):
            answer = self.ask("symbol", d=d, name=name)
            assert isinstance(answer, dict)
            self.assertEqual((answer["sym"], answer["class"]), (number, kind))
        # in no section, an absolute 0, the marks, no name, and an unknown name
        for name in ("x", "a", "_START_", "_END_", "", "bb"):
            self.assertEqual(self.ask("symbol", d=d, name=name), Fault("NoSymbol"), name)
        # without its strings no symbol has a name
        nameless = self.open_lists(ctf, sym)
        self.assertEqual(self.ask("symbol", d=nameless, name="b"), Fault("NoSymbol"))

    def test_hostile_names(self) -> None:
        """10,000 objects, each named by the end of the previous one's name; and as many whose names
        of 75 bytes differ only in the last five."""
        digits = range(10_000, 20_000)
        strs = 10_001 * b"a" + b"\0" + b"".join(70 * b"b" + b"%d\0" % n for n in digits)
        sym = b"".join(symbol(1 + i, OBJECT, 1) for i in range(10_000))
        sym += b"".join(symbol(10_002 + 76 * i, OBJECT, 1) for i in range(10_000))
        d = self.open_lists(of_program(b"\x01\0", b"\0\0"), sym, strs)
        for name, number in (("a", 9_999), (4_321 * "a", 5_679), (10_000 * "a", 0),
                             *((70 * "b" + str(n), n) for n in (10_000, 14_711, 19_999))):
            answer = self.ask("symbol", d=d, name=name)
            assert isinstance(answer, dict)
            self.assertEqual((answer["sym"], answer["class"]), (number, "object"))
        for name in (10_001 * "a", 75 * "b"):
            self.assertEqual(self.ask("symbol", d=d, name=name), Fault("NoSymbol"))

    def test_long_names(self) -> None:
        """100,000 objects with one name of 16 MiB: without an end no object is considered, and if
        it ends with the last byte, all are."""
        sym, strs = 100_000 * symbol(1, OBJECT, 1), 16_777_216 * b"a"
        ctf = of_program(99_999 * b"\0\0" + b"\x01\0")
        d = self.open_lists(ctf, sym, strs)
        self.assertEqual(self.ask("object", d=d, sym=99_999), Fault("NoInfo"))
        d = self.open_lists(ctf, sym, strs[:-1] + b"\0")
        self.assertEqual(self.ask("object", d=d, sym=99_999), {"t": 1})
        self.assertEqual(self.ask("object", d=d, sym=0), Fault("NoInfo"))


class Labels(OverService):
    """The labels `one` (5), `two` (6) and `one` again (7), and four bytes that are no label."""

    def setUp(self) -> None:
        super().setUp()
        labels = bytes.fromhex("0100000005000000 0500000006000000 0100000007000000") + b"rest"
        self.labelled = self.open_lists(Dictionary(INTEGER, b"\0one\0two\0", labels))

    def test_in_order(self) -> None:
        labels = [{"name": "one", "last": 5}, {"name": "two", "last": 6},
                  {"name": "one", "last": 7}]
        self.assertEqual(self.ask("labels", d=self.labelled), {"labels": labels, "total": 3})
        self.assertEqual(self.ask("labels", d=self.labelled, **{"from": 3}),
                         {"labels": [], "total": 3})

    def test_the_first_of_a_name(self) -> None:
        for name, last in (("one", 5), ("two", 6)):
            self.assertEqual(self.ask("label", d=self.labelled, name=name), {"last": last})
        for name in ("", "on", "ones"):
            self.assertEqual(self.ask("label", d=self.labelled, name=name), Fault("NoLabel"))

    def test_none(self) -> None:
        d = self.open_lists(Dictionary())
        self.assertEqual(self.ask("labels", d=d), {"labels": [], "total": 0})
        self.assertEqual(self.ask("label", d=d, name=""), Fault("NoLabel"))
