"""The types of its parent that a child needs: the greatest number that it refers to, found by an
import."""
from __future__ import annotations

from typing import Optional

from .dictionaries import NAMES, PROGRAM, Dictionary, Kind, head, of_program
from .service import Fault, OverService

# A child's records, and the number of the parent's type that they need.
ROWS = (
    ("", 0),
    # a pointer to nothing; to the last number of a parent
    ("0000000000180000", 0),
    ("000000000018ff7f", 0x7FFF),
    # a struct of 7 bytes, and a forward
    ("0000000000300700 0000000000480700", 0),
    # an array: of contents; by its index
    ("0000000000200900 0500020007000000", 5),
    ("0000000000200900 0200060007000000", 6),
    # a function: the last argument; its pad is none
    ("0000000003280200 0300000004 00ff7f", 4),
    # members of 8 bytes, one of its own type; of 16 bytes; enumerators
    ("0000000002300400 0000000003000900 0000000002800900 0000000000000000", 3),
    ("0000000002380020 00000000030009000900000009000000 00000000040009000900000009000000", 4),
    ("0000000001400400 0000000007000000", 0),
)


class Needs(OverService):
    """With an empty parent, an import is refused at the type that is needed."""

    def setUp(self) -> None:
        super().setUp()
        self.parent = self.open_lists(Dictionary())

    def needs(self, child: Dictionary, sym: Optional[bytes] = None,
              strs: Optional[bytes] = None) -> int:
        answer = self.ask("import", d=self.open_lists(child, sym, strs), parent=self.parent)
        if isinstance(answer, Fault):
            self.assertEqual(answer.name, "ParentShort")
            return answer.place
        return 0

    def test_records(self) -> None:
        for types, wanted in ROWS:
            child = Dictionary(bytes.fromhex(types), b"\0p\0", parname=1)
            self.assertEqual(self.needs(child), wanted, types)

    def test_the_greatest(self) -> None:
        pointers = [head(Kind.POINTER, to) for to in (0x8002, 3, 0x12, 0, 0x11, 0x8001)]
        child = Dictionary(b"".join(pointers), b"\0p\0", parname=1)
        self.assertEqual(self.needs(child), 0x12)
        types = head(Kind.UNKNOWN) + b"".join(head(Kind.POINTER, to) for to in (1, 2, 0, 1))
        self.assertEqual(self.needs(Dictionary(types, b"\0p\0", parname=1)), 2)
        # the same numbers are its own types if the dictionary is not a child
        own = self.open_lists(Dictionary(types, b"\0p\0"))
        self.assertEqual(self.ask("import", d=own, parent=self.parent), Fault("NotChild"))

    def test_symbols(self) -> None:
        for objects, functions, wanted in (
                (b"\x09\0", b"\0\0", 9), (b"\x01\x80", b"\0\0", 0),
                (b"\x09\0", b"\x01\x28\x0a\0\x03\0", 10),
                (b"\x09\0", b"\x02\x28\x01\0\x0b\0\0\0\xff\xff", 11)):
            child = of_program(objects, functions, parname=1)
            self.assertEqual(self.needs(child, PROGRAM, NAMES), wanted)
            # without its symbols it needs none
            self.assertEqual(self.needs(child, None, NAMES), 0)
