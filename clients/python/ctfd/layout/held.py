"""Reduces a table to what CTF of version 2 can represent.

The table's `losses` get one line for each construct that was replaced or left out.
"""
from __future__ import annotations

from typing import Dict, List, Optional, Tuple

from ..client.model import POINTER_SIZES
from ..client.types import Encoding, Enumerator
from .records import AGGREGATES, Part, Record, Table

MOST_PARTS = 1023
MOST_COUNT = 0xFFFFFFFF
DEEPEST = 512
FLOATS = {
    "float": 1, "_Float32": 1, "double": 2, "_Float64": 2, "_Float32x": 2,
    "long double": 6, "_Float64x": 6, "complex float": 3, "_Complex float": 3,
    "complex double": 4, "_Complex double": 4, "complex long double": 5,
    "_Complex long double": 5,
}


def fit_to_ctf(table: Table) -> Table:
    """A copy of a table, reduced to what CTF can represent, with a line for each loss."""
    made = table.subset(table.numbers())
    widths = _Widths(made)
    for number in table.numbers():
        record = made[number]
        if record.kind in AGGREGATES:
            made.put(number, _aggregate(made, record, widths))
        elif record.kind in _HOLD:
            made.put(number, _HOLD[record.kind](made, record))
    made.functions = [one and _function(made, one) for one in made.functions]
    return made


def _float(table: Table, record: Record) -> Record:
    lies = record.encoding
    if lies.flags:
        return record
    known = FLOATS.get(record.name, 0)
    if not known:
        table.losses.append(f"{record.name}: CTF has no word for how this float is encoded; its"
                            " encoding is 0")
    return record._replace(encoding=Encoding(known, lies.offset, lies.bits))


def _atomic(table: Table, record: Record) -> Record:
    """An atomic type as a typedef, with C's spelling as its name: `_Atomic(int)`."""
    return record._replace(kind="typedef", name=f"_Atomic({spelling(table, record.type)})")


def _array(table: Table, record: Record) -> Record:
    if record.elements <= MOST_COUNT:
        return record
    table.losses.append(f"an array of {record.elements} elements: CTF counts up to {MOST_COUNT};"
                        f" so many stand in its place, and its size is right")
    element = size_of(table, record.type)
    return record._replace(elements=MOST_COUNT, size=record.elements * (element or 0))


def _function(table: Table, record: Record) -> Record:
    room = MOST_PARTS - record.varargs
    if len(record.arguments) <= room:
        return record
    table.losses.append(f"a function of {len(record.arguments)} arguments: CTF holds {room};"
                        " the others are left out")
    return record._replace(arguments=record.arguments[:room])


def _enum(table: Table, record: Record) -> Record:
    kept: List[Enumerator] = []
    for one in record.enumerators:
        if _fits(one.value, record.size):
            kept.append(one)
        else:
            table.losses.append(f"{record.name_with_tag}: its enumerator {one.name} is {one.value},"
                                " and CTF holds 32 bits; it is left out")
    if len(kept) > MOST_PARTS:
        table.losses.append(f"{record.name_with_tag}: it has {len(kept)} enumerators, and CTF holds"
                            f" {MOST_PARTS}; those from {kept[MOST_PARTS].name} on are left out")
    return record._replace(enumerators=tuple(kept[:MOST_PARTS]))


def _fits(value: int, size: int) -> bool:
    """Whether an enumerator fits into 32 bits; for an enum of 4 bytes also if unsigned."""
    return -1 << 31 <= value < (1 << 32 if size == 4 else 1 << 31)


def _aggregate(table: Table, record: Record, widths: _Widths) -> Record:
    members = tuple(widths.member(record, part) for part in record.members)
    record = record._replace(members=members)
    if len(members) <= MOST_PARTS:
        return record
    table.losses.append(f"{record.name_with_tag}: it has {len(members)} members, and CTF holds"
                        f" {MOST_PARTS}; they stand in unnamed {record.kind}s within it")
    return _nest_members(table, record)


def _nest_members(table: Table, record: Record) -> Record:
    """Groups members, if there are too many, into unnamed structs or unions of the same size."""
    groups: List[Part] = []
    for start in range(0, len(record.members), MOST_PARTS):
        inner = Record(record.kind, size=record.size,
                       members=record.members[start:start + MOST_PARTS], root=False)
        groups.append(Part("", table.add(inner), 0))
    record = record._replace(members=tuple(groups))
    return record if len(groups) <= MOST_PARTS else _nest_members(table, record)


class _Widths:
    """The integer types of bit-fields, each created once: members are many, and typedefs may be
    deep."""

    def __init__(self, table: Table) -> None:
        self.table = table
        self._bases: Dict[int, Optional[Record]] = {}
        self._narrowed: Dict[Tuple[int, int], int] = {}

    def member(self, whole: Record, part: Part) -> Part:
        """A bit-field with a type of its width; other members are unchanged. A bit-field as wide as
        its type gets a hidden copy of the type, which marks it as one."""
        if part.width is None:
            return part
        base = self._base(part.type)
        is_whole = base is not None and part.width == 8 * base.size
        if base is None or base.kind not in ("integer", "enum") or is_whole and base.kind == "enum":
            return part._replace(width=None)
        if base.kind == "enum":
            self.table.losses.append(
                f"{whole.name_with_tag}: its bit-field {part.name} is one of {base.name_with_tag},"
                f" and CTF has widths of integers alone; an integer of {part.width} bits with the"
                " enum's name stands there")
        return part._replace(type=self._narrow(part.type, part.width), width=None)

    def _base(self, number: int) -> Optional[Record]:
        """The type behind typedefs and qualifiers, or None."""
        if number not in self._bases:
            end = self.table.resolve(number)
            self._bases[number] = self.table[end] if end else None
        return self._bases[number]

    def _narrow(self, number: int, width: int) -> int:
        """A copy of a type with its typedefs and qualifiers, ending in an integer of `width`
        bits."""
        known = self._narrowed.get((number, width))
        if known is None:
            known = self._narrowed[number, width] = self._new_narrow(number, width)
        return known

    def _new_narrow(self, number: int, width: int) -> int:
        record = self.table[number]
        if record.kind == "enum":
            flags = 1 if any(one.value < 0 for one in record.enumerators) else 0
            return self.table.once(Record("integer", record.name_with_tag, record.size,
                                          encoding=Encoding(flags, 0, width), root=False))
        if record.kind == "integer":
            lies = record.encoding
            return self.table.once(record._replace(encoding=lies._replace(bits=width), root=False))
        if record.kind == "atomic":
            return self._narrow(record.type, width)
        inner = self._narrow(record.type, width)
        return self.table.once(record._replace(type=inner, root=False))


_HOLD = {"float": _float, "atomic": _atomic, "array": _array, "function": _function,
         "enum": _enum}


def size_of(table: Table, number: int) -> Optional[int]:
    """The size of a type in bytes, or None if it has none."""
    count = 1
    for _ in range(len(table) + 1):
        number = table.resolve(number)
        record = table[number] if number else Record("unknown")
        if record.kind == "pointer":
            return count * POINTER_SIZES[table.model]
        if record.kind in ("forward", "unknown"):
            return None
        if record.kind != "array" or record.size:
            return count * record.size
        count *= record.elements
        number = record.type
    return None


def spelling(table: Table, number: int) -> str:
    """A type as C writes it in a cast, but without the arguments of functions."""
    left, right = "", ""
    before: List[str] = []
    for _ in range(DEEPEST):
        record = table[number] if number else Record("typedef", "void")
        inner = table[record.type] if record.type else None
        if record.kind == "pointer":
            left = "*" + left
            if inner and inner.kind in ("array", "function"):
                left, right = "(" + left, right + ")"
        elif record.kind == "array":
            right += f"[{record.elements}]"
        elif record.kind == "function":
            right += "()"
        elif record.kind in ("volatile", "const", "restrict"):
            if inner and inner.kind == "pointer":
                left = f"{record.kind} {left}"
            elif record.kind not in before:
                before.append(record.kind)
        else:
            break
        number = record.type
    return " ".join(filter(None, [*before, record.name_with_tag, left + right]))
