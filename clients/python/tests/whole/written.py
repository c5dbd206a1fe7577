"""Writes a dictionary of CTF version 2, from a table that the format can represent."""
from __future__ import annotations

import itertools
import struct
from typing import Dict, List, Optional

from ctfd.layout.records import Record, Table
from ctfd.text import raw

KINDS = ("unknown", "integer", "float", "pointer", "array", "function", "struct", "union", "enum",
         "forward", "typedef", "volatile", "const", "restrict")
FUNCTION = KINDS.index("function")
MAGIC, VERSION = 0xCFF1, 2
LONG_MEMBERS = 8192
LONG_SIZE = 0xFFFF
MOST_TYPES = 32_766
CHILD = 0x8000


class Names:
    """The string section; each name is stored once."""

    def __init__(self) -> None:
        self.bytes = bytearray(b"\0")
        self._known: Dict[bytes, int] = {b"": 0}

    def append(self, names: str) -> int:
        """Stores a label followed by other names, and returns its offset, even if they are there
        already."""
        start = len(self.bytes)
        self.bytes += raw(names) + b"\0"
        return start

    def place(self, name: str) -> int:
        """The offset of a name, which ends at its first zero byte."""
        data = raw(name).split(b"\0")[0]
        known = self._known.get(data)
        if known is None:
            known = self._known[data] = len(self.bytes)
            self.bytes += data + b"\0"
        return known


def section_of(table: Table, parent: str = "", parents: int = 0) -> bytes:
    """The section of a table; with `parent`, a parent's name, it is a child.

    The first `parents` types of the table are then those of the parent, and are not written.
    """
    names = Names()
    named = names.place(parent)

    def number(n: int) -> int:
        return n - parents + CHILD if n > parents and parent else n

    label = names.place(table.parent_label)
    own = [record.renumber(number) for record in table.records[parents:]]
    types = b"".join(_record(record, names) for record in own)
    objects = b"".join(struct.pack("<H", number(n)) for n in table.objects)
    functions = b"".join(_entry(one and one.renumber(number)) for one in table.functions)
    functions += bytes(-(len(objects) + len(functions)) % 4)
    labels = b"".join(struct.pack("<II", names.append(label), number(last))
                      for label, last in table.labels)
    ends = list(itertools.accumulate(map(len, (labels, objects, functions, types)), initial=0))
    header = struct.pack("<HBB8I", MAGIC, VERSION, 0, label, named, *ends, len(names.bytes))
    return header + labels + objects + functions + types + bytes(names.bytes)


def _entry(function: Optional[Record]) -> bytes:
    """The entry of a symbol in the function section."""
    if function is None:
        return struct.pack("<H", 0)
    listed = _arguments(function)
    info = FUNCTION << 11 | 1 << 10 | len(listed)
    return struct.pack(f"<{2 + len(listed)}H", info, function.type, *listed)


def _arguments(function: Record) -> List[int]:
    """The arguments, followed by 0 if the function is variadic."""
    return [*function.arguments, *([0] if function.varargs else [])]


def _record(record: Record, names: Names) -> bytes:
    """One record, in the long form if its size needs it."""
    tail, length = _tail(record, names)
    field = _field(record)
    info = KINDS.index(record.kind) << 11 | record.root << 10 | length
    head = struct.pack("<IHH", names.place(record.name), info, min(field, LONG_SIZE))
    if field >= LONG_SIZE:
        head += struct.pack("<II", field >> 32, field & 0xFFFFFFFF)
    return head + tail


def _field(record: Record) -> int:
    """The field for a size or a type."""
    if record.kind == "forward":
        return KINDS.index(record.tag)
    if record.kind in ("integer", "float", "array", "struct", "union", "enum"):
        return record.size
    return record.type


def _tail(record: Record, names: Names) -> "tuple[bytes, int]":
    """The bytes after the head, and the length of the list in them."""
    if record.kind in ("integer", "float"):
        lies = record.encoding
        return struct.pack("<I", lies.flags << 24 | lies.offset << 16 | lies.bits), 0
    if record.kind == "array":
        return struct.pack("<HHI", record.type, record.indexed_by, record.elements), 0
    if record.kind == "function":
        listed = _arguments(record)
        padded = listed + [0] * (len(listed) % 2)
        return struct.pack(f"<{len(padded)}H", *padded), len(listed)
    if record.kind in ("struct", "union"):
        return _members(record, names), len(record.members)
    listed_values = [struct.pack("<II", names.place(e.name), e.value & 0xFFFFFFFF)
                     for e in record.enumerators]
    return b"".join(listed_values), len(listed_values)


def _members(record: Record, names: Names) -> bytes:
    if record.size < LONG_MEMBERS:
        return b"".join(struct.pack("<IHH", names.place(m.name), m.type, m.offset)
                        for m in record.members)
    return b"".join(struct.pack("<IHHII", names.place(m.name), m.type, 0, m.offset >> 32,
                                m.offset & 0xFFFFFFFF) for m in record.members)
