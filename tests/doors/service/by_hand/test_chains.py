"""The longest allowed chain of types, and types that form cycles."""
from __future__ import annotations

import struct
from dataclasses import dataclass
from typing import Callable

from .dictionaries import INTEGER, Dictionary, Kind, head, member
from .service import Fault, OverService

BY_VALUE, BY_DECLARATOR = "ValueDeep", "DeclDeep"


@dataclass(frozen=True)
class Step:
    """A way in which a record refers to a type, and the fault of a chain of too many such steps."""

    fault: str
    to: Callable[[int], bytes]


def array_of(number: int) -> bytes:
    return head(Kind.ARRAY) + struct.pack("<HHI", number, 0, 1)


POINTER = Step(BY_DECLARATOR, lambda to: head(Kind.POINTER, to))
RETURNED = Step(BY_DECLARATOR, lambda to: head(Kind.FUNCTION, to))
TYPEDEF = Step(BY_VALUE, lambda to: head(Kind.TYPEDEF, to))
MEMBER = Step(BY_VALUE, lambda to: head(Kind.STRUCT, 4, 1) + member(to))
TWO_MEMBERS = Step(BY_VALUE, lambda to: head(Kind.UNION, 4, 2) + 2 * member(to))
STEPS = (POINTER, TYPEDEF, RETURNED, Step(BY_VALUE, array_of), MEMBER, TWO_MEMBERS)
QUALIFIERS = tuple(
    Step(BY_VALUE, lambda to, kind=kind: head(kind, to))  # type: ignore[misc]
    for kind in (Kind.VOLATILE, Kind.CONST, Kind.RESTRICT))


def line(step: Step, count: int, base: int = 0) -> bytes:
    """An integer, and types that each refer to the previous one; from the last there are `count`
    steps."""
    return INTEGER + b"".join(step.to(base + i + 1) for i in range(count))


class Chains(OverService):
    """A chain has at most 512 steps."""

    def fault_in(self, types: bytes) -> Fault | None:
        return self.first_fault(Dictionary(types))

    def test_lines_that_lead_back(self) -> None:
        for step in STEPS:
            self.assertIsNone(self.fault_in(line(step, 512)))
            for count in (513, 514, 1023):
                self.assertEqual(self.fault_in(line(step, count)), Fault(step.fault, 514))

    def test_lines_that_lead_onwards(self) -> None:
        """The chain begins at its first record, after an integer that is not in it."""
        for step in STEPS:
            for count, wanted in ((512, None), (513, Fault(step.fault, 2)),
                                  (600, Fault(step.fault, 2))):
                types = INTEGER + b"".join(step.to(i + 3) for i in range(count)) + INTEGER
                self.assertEqual(self.fault_in(types), wanted)

    def test_lines_of_children(self) -> None:
        """A child's own types count from 0x8001; chains do not include types of its parent."""
        for step in STEPS:
            for base, count, wanted in ((0x8000, 512, None), (0x8000, 513, Fault(step.fault, 514)),
                                        (0, 600, None)):
                child = Dictionary(line(step, count, base), b"\0p\0", parname=1)
                self.assertEqual(self.first_fault(child), wanted)

    def test_a_wide_struct(self) -> None:
        """A struct of 1023 members after a line: all refer to its end, or only the last one."""
        for others in (1, 0x1FF, 0x200):
            for count, wanted in ((511, None), (512, Fault(BY_VALUE, 514))):
                struct_ = head(Kind.STRUCT, 4, 1023) + 1022 * member(others) + member(count + 1)
                self.assertEqual(self.fault_in(line(MEMBER, count) + struct_), wanted)

    def test_fans(self) -> None:
        """Many pointers to the end of a line; and levels of structs with sixteen members."""
        for count, wanted in ((511, None), (512, Fault(BY_DECLARATOR, 514))):
            types = line(POINTER, count) + 1000 * POINTER.to(count + 1)
            self.assertEqual(self.fault_in(types), wanted)
        for count, wanted in ((512, None), (513, Fault(BY_VALUE, 514))):
            sixteen = Step(BY_VALUE, lambda to: head(Kind.STRUCT, 4, 16) + 16 * member(to))
            self.assertEqual(self.fault_in(line(sixteen, count)), wanted)

    def test_other_steps_do_not_count(self) -> None:
        """Arguments and the index of an array are no steps, and a pointer is none by value."""
        types = line(POINTER, 512) + head(Kind.FUNCTION, 0, 2) + struct.pack("<HH", 0x201, 0x201)
        types += head(Kind.ARRAY) + struct.pack("<HHI", 0, 0x201, 1) + MEMBER.to(0x201)
        self.assertIsNone(self.fault_in(types))
        self.assertEqual(self.fault_in(types + RETURNED.to(0x201)), Fault(BY_DECLARATOR, 517))

    def test_chains_by_value_come_first(self) -> None:
        types = line(POINTER, 513)
        self.assertEqual(self.fault_in(types), Fault(BY_DECLARATOR, 514))
        types += MEMBER.to(515)
        self.assertEqual(self.fault_in(types), Fault(BY_VALUE, 515))
        types += POINTER.to(517)
        self.assertEqual(self.fault_in(types), Fault("BadReference", 516))


class Cycles(OverService):
    """Types that form a cycle have endless chains."""

    def test_cycles(self) -> None:
        """After an integer, each type refers to the next, and the last to the first."""
        for step in (POINTER, RETURNED, TYPEDEF, *QUALIFIERS):
            for count in (1, 2, 3, 511, 512, 513, 514):
                types = INTEGER + b"".join(step.to(i + 2) for i in range(1, count)) + step.to(2)
                self.assertEqual(self.first_fault(Dictionary(types)), Fault(step.fault, 2))

    def test_a_cycle_of_structs(self) -> None:
        """Of many structs, only the last member of the last one leads back."""
        lead_on = b"".join(
            head(Kind.STRUCT, 4, 3) + member(1) + member(1) + member(i + 3) for i in range(100))
        for back, wanted in ((1, None), (3, Fault(BY_VALUE, 2))):
            types = INTEGER + lead_on + head(Kind.STRUCT, 4, 2) + member(1) + member(back)
            self.assertEqual(self.first_fault(Dictionary(types)), wanted)
