"""Builds dictionaries from their parts: headers, records, labels, symbols."""
from __future__ import annotations

import struct
from dataclasses import dataclass
from enum import IntEnum

MAGIC = b"\xf1\xcf\x02\0"
HEADER_BYTES = 36


class Kind(IntEnum):
    """The kinds of the tests' records."""

    UNKNOWN = 0
    INTEGER = 1
    POINTER = 3
    ARRAY = 4
    FUNCTION = 5
    STRUCT = 6
    UNION = 7
    TYPEDEF = 10
    VOLATILE = 11
    CONST = 12
    RESTRICT = 13


def head(kind: Kind, field: int = 0, vlen: int = 0, name: int = 0) -> bytes:
    """The head of a hidden record in short form; `field` is the size, or the type that it refers
    to."""
    return struct.pack("<IHH", name, kind << 11 | vlen, field)


def member(number: int) -> bytes:
    """An unnamed member of type `number` at offset 0, in the short form of 8 bytes."""
    return struct.pack("<IHH", 0, number, 0)


# An integer of 4 bytes, with the name at offset 1 of the strings; and one without a name.
NAMED_INTEGER = head(Kind.INTEGER, 4, name=1) + b"\x20\0\0\x01"
INTEGER = head(Kind.INTEGER, 4) + b"\x20\0\0\x01"


@dataclass(frozen=True)
class Dictionary:
    """The sections of a dictionary, in the order in which they follow the header."""

    types: bytes = b""
    strings: bytes = b""
    labels: bytes = b""
    objects: bytes = b""
    functions: bytes = b""
    parlabel: int = 0
    parname: int = 0

    def bytes(self) -> bytes:
        sections = (self.labels, self.objects, self.functions, self.types)
        offsets, behind = [0], b""
        for section in sections:
            behind += section
            offsets.append(len(behind))
        front = struct.pack("<II", self.parlabel, self.parname)
        places = struct.pack("<6I", *offsets, len(self.strings))
        return MAGIC + front + places + behind + self.strings


def symbol(name: int, info: int, section: int) -> bytes:
    """A symbol of an ELF64 file, with value 0."""
    return struct.pack("<IBBHQQ", name, info, 0, section, 0, 0)


OBJECT, FUNCTION = 0x11, 0x12
ABSOLUTE = 0xFFF1
# The names of the symbols of PROGRAM.
NAMES = b"\0_START_\0x\0a\0b\0c\0f\0"
# An empty symbol; the linker's mark; an object in no section; an absolute one with value 0; the
# objects `b` (4) and `c` (5); and the function `f` (6).
PROGRAM = b"".join((
    symbol(0, 0, 0), symbol(1, OBJECT, 1), symbol(9, OBJECT, 0), symbol(11, OBJECT, ABSOLUTE),
    symbol(13, OBJECT, 1), symbol(15, OBJECT, 1), symbol(17, FUNCTION, 1)))


def of_program(objects: bytes, functions: bytes = b"", parname: int = 0) -> Dictionary:
    """A dictionary of an integer, with a section of objects and one of functions."""
    return Dictionary(NAMED_INTEGER, b"\0int\0", objects=objects, functions=functions,
                      parname=parname)
