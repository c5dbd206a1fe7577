"""The number of records, their contents, and the order of the rules."""
from __future__ import annotations

from typing import Any

from .dictionaries import INTEGER, NAMED_INTEGER, Dictionary, Kind, head
from .service import Fault, OverService

EMPTY = Dictionary()
INT = Dictionary(NAMED_INTEGER, b"\0int\0")
# INT's record, whose name is in the program's strings; without strings of its own.
OUTER = Dictionary(b"\x01\0\0\x80" + NAMED_INTEGER[4:])
# INT's record in long form.
LONG = Dictionary(b"\x01\0\0\0\0\x0c\xff\xff\0\0\0\0\x04\0\0\0\x20\0\0\x01", b"\0int\0")


def with_label(name: int = 1) -> bytes:
    """A dictionary with a label without a name, which ends 2 bytes before its section, and two
    records."""
    ctf = Dictionary(NAMED_INTEGER + head(Kind.INTEGER, 4, name=name) + b"\x20\0\0\x01",
                     b"\0int\0", labels=b"\0\0\0\0\x02\0\0\0\xff\xff\xff\xff").bytes()
    return ctf[:16] + b"\x0a\0\0\0\x0a\0\0\0" + ctf[24:]


def with_changes(dictionary: Dictionary, changes: dict[int, int]) -> bytes:
    ctf = bytearray(dictionary.bytes())
    for at, byte in changes.items():
        ctf[at] = byte
    return bytes(ctf)


class Records(OverService):
    """Answers about accepted dictionaries, and the rules that need no memory."""

    def test_too_many(self) -> None:
        types = 32_766 * bytes(8)
        self.assertIsNone(self.first_fault(Dictionary(types)))
        for more in (1, 2):
            self.assertEqual(self.first_fault(Dictionary(types + more * bytes(8))),
                             Fault("TooMany", 32_767))
        self.assertEqual(self.first_fault(Dictionary(types + 2 * bytes(8) + b"\0")),
                         Fault("Truncated", 32_769))

    def test_one_name_of_all(self) -> None:
        """All records have the same name of 4 MiB: reading each name separately would read 128
        GiB."""
        types = 32_766 * head(Kind.UNKNOWN, name=1)
        self.assertIsNone(self.first_fault(Dictionary(types, b"\0" + 0x40_0000 * b"a" + b"\0")))

    def test_overlapping_names(self) -> None:
        """Structs whose names are the ends of two texts of 8,000,000 letters."""
        length = 8_000_000
        types = b"".join(head(Kind.STRUCT, 4, name=start + i)
                         for i in range(16_383) for start in (1, length + 2))
        d = self.open_lists(Dictionary(types, b"\0" + 2 * (length * b"a" + b"\0")))
        self.assertEqual(self.ask("find", d=d, text="struct a"), Fault("NotFound"))

    def test_names(self) -> None:
        rows: tuple[tuple[bytes, bytes | None, list[str]], ...] = (
            (EMPTY.bytes(), None, []),
            (INT.bytes(), None, ["int"]),
            (INT.bytes() + b"\xff", None, ["int"]),
            (LONG.bytes(), None, ["int"]),
            (with_label(), None, ["int", "int"]),
            (OUTER.bytes(), b"\0xn\0", ["xn"]),
            (with_label(2), None, ["int", "nt"]))
        for ctf, strs, names in rows:
            d = self.open_lists(ctf, strs=strs)
            info = self.ask("info", d=d)
            assert isinstance(info, dict)
            self.assertEqual((info["types"], info["child"]), (len(names), False))
            for t, name in enumerate(names, 1):
                record = self.ask("record", d=d, t=t)
                assert isinstance(record, dict)
                self.assertEqual((record["kind"], record["size"], record["name"]),
                                 ("integer", 4, name))
            for t in (0, 3):
                self.assertEqual(self.ask("kind", d=d, t=t), Fault("NoType"))
            self.assertEqual(self.ask("bytes", d=d, **{"from": 0, "count": 100}),
                             {"bytes": ctf.hex(), "length": len(ctf)})

    def test_parents_names(self) -> None:
        rows: tuple[tuple[dict[int, int], bool, str, str], ...] = (
            ({}, False, "", ""), ({4: 1}, False, "", "int"), ({8: 1}, True, "int", ""),
            ({4: 2, 8: 4}, True, "", "nt"))
        for changes, child, parname, parlabel in rows:
            info = self.ask("info", d=self.open_lists(with_changes(INT, changes)))
            assert isinstance(info, dict)
            self.assertEqual((info["child"], info["parname"], info["parlabel"]),
                             (child, parname, parlabel))

    def test_each_other_kind(self) -> None:
        """The parts after the heads; the enum and the union have one item each."""
        others = bytes.fromhex(
            "0000000000000000 000000000010080040000002 0000000000180200"
            "00000000002050000200 01000a000000 000000000138040000000000 02000500"
            "000000000140040001000000ffffffff 0000000000480800 0100000000500200"
            "0000000000580800 0000000000600900 0000000000680300")
        d = self.open_lists(Dictionary(others, b"\0A\0"))
        behind: tuple[dict[str, Any], ...] = (
            {}, {"size": 8}, {"type": 2}, {"size": 80}, {"size": 4}, {"size": 4}, {"tag": "enum"},
            {"type": 2}, {"type": 8}, {"type": 9}, {"type": 3})
        for t, wanted in enumerate(behind, 1):
            record = self.ask("record", d=d, t=t)
            assert isinstance(record, dict)
            self.assertEqual(record["vlen"], 1 if t in (5, 6) else 0)
            self.assertEqual({key: value for key, value in record.items()
                              if key not in ("kind", "name", "root", "vlen")}, wanted)
        lists: tuple[tuple[str, int, dict[str, Any]], ...] = (
            ("encoding", 2, {"encoding": 2, "offset": 0, "bits": 64}),
            ("array", 4, {"contents": 2, "index": 1, "count": 10}),
            ("members", 5, {"members": [{"name": "", "offset": 5, "type": 2}], "total": 1}),
            ("enumerators", 6, {"enumerators": [{"name": "A", "value": -1}], "total": 1}))
        for op, t, listed in lists:
            self.assertEqual(self.ask(op, d=d, t=t), listed)

    def test_first_rules(self) -> None:
        """A function that returns itself; and rules that come before those of chains."""
        for changes, wanted in (
                ({40: 1, 41: 0x28, 42: 1, 44: 0}, Fault("DeclDeep", 1)),
                ({31: 0xFF}, Fault("PastEnd")), ({41: 0x70}, Fault("BadKind", 1)),
                ({36: 9}, Fault("BadName", 36)), ({40: 1, 41: 0x28}, Fault("BadReference", 1))):
            self.assertEqual(self.first_fault(with_changes(INT, changes)), wanted)
        self.assertEqual(self.first_fault(with_label()[:35]), Fault("ShortHeader"))

    def test_two_records(self) -> None:
        """Types are found by number although bytes are left over after the labels."""
        d = self.open_lists(with_label())
        self.assertEqual([self.ask("name", d=d, t=t) for t in (1, 2)], 2 * [{"name": "int"}])
        self.assertEqual(self.ask("labels", d=d), {"labels": [{"name": "", "last": 2}], "total": 1})

    def test_integers_alone(self) -> None:
        self.assertIsNone(self.first_fault(Dictionary(3 * INTEGER)))
