"""CTF of version 2 as a table: an accepted dictionary, and its parent.

The service has accepted what this reads, so only readability is checked.
"""
from __future__ import annotations

import struct
from typing import List, Optional, Sequence, Tuple

from ctfd.client.faults import Unreadable
from ctfd.client.model import Model
from ctfd.client.types import Encoding, Enumerator
from ctfd.layout.records import Part, Record, Table

from .written import CHILD, KINDS, LONG_MEMBERS, LONG_SIZE



HEADER = 36


class _Reader:
    """The records of one section; those of a child follow the `parents` types of its parent."""

    def __init__(self, ctf: bytes, strings: Optional[bytes], parents: int) -> None:
        label, parent, *ends, length = struct.unpack_from("<8I", ctf, 4)
        body = ctf[HEADER:]
        self.labels, self.objects, self.functions, self.types = (
            body[start:end] for start, end in zip(ends, ends[1:]))
        self.names = body[ends[4]:ends[4] + length]
        self.strings = strings or b""
        self.has_outer = False
        self.is_child = parent != 0
        self.parent, self.parent_label = self.name(parent), self.name(label)
        self.parents = parents
        self.at = 0

    def records(self) -> List[Record]:
        found: List[Record] = []
        while self.at < len(self.types):
            found.append(self._record())
        return found

    def symbols(self, made: Table) -> None:
        """Reads the entries of symbols, and the labels. An entry with a type that does not exist is
        dropped: it is only checked with the symbols."""
        count = len(made)
        objects = [self.number(n) for n in _words(self.objects)]
        made.objects = [n if n <= count else 0 for n in objects]
        made.functions = [one if one and max(one.references) <= count else None
                          for one in self._entries()]
        labels = struct.iter_unpack("<II", self.labels[:len(self.labels) // 8 * 8])
        made.labels = [(self.name(name), self.number(last)) for name, last in labels]
        made.parent_name, made.parent_label = self.parent, self.parent_label

    def _entries(self) -> List[Optional[Record]]:
        """The entries of functions; what remains of the section may not be one."""
        words = _words(self.functions)
        found: List[Optional[Record]] = []
        at = 0
        while at < len(words):
            length = words[at] & 0x3FF
            if words[at] == 0:
                found.append(None)
                at += 1
            elif at + 2 + length > len(words):
                break
            else:
                signature = Record("function", type=self.number(words[at + 1]))
                found.append(self._with_arguments(signature, words[at + 2:at + 2 + length]))
                at += 2 + length
        return found

    def _with_arguments(self, function: Record, listed: Sequence[int]) -> Record:
        """A function with its arguments; a final 0 makes it variadic."""
        varargs = bool(listed) and listed[-1] == 0
        arguments = tuple(map(self.number, listed[:-1] if varargs else listed))
        return function._replace(arguments=arguments, varargs=varargs)

    def name(self, reference: int) -> str:
        """A name, from the dictionary's strings or from those beside it."""
        start = reference & 0x7FFFFFFF
        if not start:
            return ""
        is_outer = bool(reference >> 31)
        if is_outer and not self.strings:
            raise Unreadable("its names stand in the strings of the ELF file that it was taken"
                             " from: name that file in place of the section")
        self.has_outer = self.has_outer or is_outer
        listed = self.strings if is_outer else self.names
        return listed[start:listed.index(b"\0", start)].decode("utf-8", "surrogateescape")

    def number(self, n: int) -> int:
        """The number in the table of a type that a record refers to."""
        return n - CHILD + self.parents if self.is_child and n > CHILD else n

    def _take(self, form: str) -> Tuple[int, ...]:
        taken = struct.unpack_from("<" + form, self.types, self.at)
        self.at += struct.calcsize("<" + form)
        return taken

    def _record(self) -> Record:
        name, info, field = self._take("IHH")
        if field == LONG_SIZE:
            high, low = self._take("II")
            field = high << 32 | low
        kind, length = KINDS[info >> 11], info & 0x3FF
        record = Record(kind, self.name(name), root=bool(info >> 10 & 1))
        if kind in ("integer", "float"):
            lies = self._take("I")[0]
            encoding = Encoding(lies >> 24, lies >> 16 & 0xFF, lies & 0xFFFF)
            return record._replace(size=field, encoding=encoding)
        if kind == "array":
            contents, index, count = self._take("HHI")
            return record._replace(size=field, type=self.number(contents),
                                   indexed_by=self.number(index), elements=count)
        if kind == "function":
            return self._function(record, field, length)
        if kind in ("struct", "union"):
            return record._replace(size=field, members=self._members(field, length))
        if kind == "enum":
            return record._replace(size=field, enumerators=self._enumerators(length))
        if kind == "forward":
            return record._replace(tag=KINDS[field] if field in (7, 8) else "struct")
        return record if kind == "unknown" else record._replace(type=self.number(field))

    def _function(self, record: Record, returns: int, length: int) -> Record:
        listed = self._take(f"{length + length % 2}H")[:length]
        return self._with_arguments(record._replace(type=self.number(returns)), listed)

    def _members(self, size: int, length: int) -> Tuple[Part, ...]:
        made: List[Part] = []
        for _ in range(length):
            if size < LONG_MEMBERS:
                name, held, offset = self._take("IHH")
            else:
                name, held, _, high, low = self._take("IHHII")
                offset = high << 32 | low
            made.append(Part(self.name(name), self.number(held), offset))
        return tuple(made)

    def _enumerators(self, length: int) -> Tuple[Enumerator, ...]:
        return tuple(Enumerator(self.name(name), value)
                     for name, value in (self._take("Ii") for _ in range(length)))


def table_of(ctf: bytes, strings: Optional[bytes] = None, model: Model = "lp64",
             parent: Optional[Table] = None) -> Table:
    """The types of a section, after those of its parent. Without its parent, a child's types follow
    as many unknown types as a parent may have. Raises Unreadable."""
    made = Table(model)
    try:
        reader = _Reader(ctf, strings, len(parent) if parent else CHILD - 1)
        made.lacks_parent = reader.is_child and parent is None
        if reader.is_child:
            made.records = list(parent.records) if parent else [Record("unknown")] * (CHILD - 1)
        made.bases = len(made.records)
        made.records += reader.records()
        reader.symbols(made)
        made.has_outer_names = reader.has_outer
    except (struct.error, IndexError, ValueError) as error:
        raise Unreadable("the dictionary is cut off or damaged") from error
    return made


def _words(data: bytes) -> Tuple[int, ...]:
    """A section as numbers of 16 bits."""
    return struct.unpack(f"<{len(data) // 2}H", data[:len(data) & ~1])
