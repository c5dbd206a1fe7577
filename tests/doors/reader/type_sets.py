"""The types of a dictionary without their numbers, to compare dictionaries that number types
differently."""
from __future__ import annotations

import struct
from collections import Counter
from typing import Iterator, NamedTuple

HEADER = 36
LONG_SIZE, LONG_MEMBERS = 0xFFFF, 8192
INTEGER, FLOAT, ARRAY, FUNCTION, STRUCT, UNION, ENUM, FORWARD = 1, 2, 4, 5, 6, 7, 8, 9
# A type is identified by what is within so many references: further than declarations reach.
ROUNDS = 24


class Type(NamedTuple):
    """The content of a record, and the numbers that it refers to."""

    said: object
    named: tuple[int, ...]


def types(ctf: bytes) -> Iterator[Type]:
    """The types of a dictionary of CTF version 2 without a parent."""
    at, end, length = struct.unpack_from("<3I", ctf, 24)
    names = ctf[HEADER + end:HEADER + end + length]
    at, end = HEADER + at, HEADER + end

    def name(place: int) -> bytes:
        return names[place:names.index(b"\0", place)]

    while at < end:
        place, info, size = struct.unpack_from("<IHH", ctf, at)
        at += 8
        if size == LONG_SIZE:
            high, low = struct.unpack_from("<II", ctf, at)
            at, size = at + 8, high << 32 | low
        kind, count = info >> 11, info & 0x3FF
        said: object = size
        named: tuple[int, ...] = ()
        if kind in (INTEGER, FLOAT):
            said, at = (size, ctf[at:at + 4]), at + 4
        elif kind == ARRAY:
            of, index, elements = struct.unpack_from("<HHI", ctf, at)
            said, named, at = (size, elements), (of, index), at + 8
        elif kind == FUNCTION:
            said, named = 0, (size, *struct.unpack_from(f"<{count}H", ctf, at))
            at += 2 * (count + count % 2)
        elif kind in (STRUCT, UNION):
            form = "<IHH" if size < LONG_MEMBERS else "<IHxxII"
            step = struct.calcsize(form)
            members = list(struct.iter_unpack(form, ctf[at:at + count * step]))
            said, at = (size, [(name(one[0]), one[2:]) for one in members]), at + count * step
            named = tuple(one[1] for one in members)
        elif kind == ENUM:
            values = struct.iter_unpack("<Ii", ctf[at:at + 8 * count])
            said, at = (size, [(name(one), value) for one, value in values]), at + 8 * count
        elif kind != FORWARD:
            said, named = 0, (size,)
        yield Type((kind, info >> 10 & 1, count, name(place), said), named)


def type_set(ctf: bytes) -> Counter[int]:
    """For each type of a dictionary, a hash of it and of all that it reaches."""
    found = list(types(ctf))
    own = [hash(repr(one.said)) for one in found]
    told = [0, *own]
    for _ in range(ROUNDS):
        told = [0, *(hash((said, *(told[n] for n in one.named)))
                     for said, one in zip(own, found))]
    return Counter(told[1:])
