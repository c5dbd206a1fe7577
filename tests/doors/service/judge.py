"""Checks the 19 rules of a dictionary, in the plainest way.

A second implementation, written only from docs/FORMAT.md and docs/FAULTS.md, with which
tests/doors/service/test_damage.py compares ctfd. Each rule is a function that gives all places
where the lists break it, provided that they keep the rules before it. The first fault is the first
broken rule, at its least place.
"""
from __future__ import annotations

import struct
from dataclasses import dataclass
from functools import cached_property
from typing import Callable, NamedTuple

UNKNOWN, INTEGER, FLOAT, POINTER, ARRAY, FUNCTION, STRUCT, UNION, ENUM, FORWARD = range(10)
RENAMING = (10, 11, 12, 13)  # typedef, volatile, const, restrict
KNOWN_KINDS = range(14)
AGGREGATES = (STRUCT, UNION)
MOST_TYPES = 32_766
MOST_STEPS = 512
HEADER_LEN = 36
SYMBOL_LEN = 24
OBJECT, CODE = 1, 2  # the sort of a symbol
NO_SECTION, ABSOLUTE = 0, 0xFFF1
LAST_SYMBOL = 0xFFFF_FFFF
MARKS = (b"_START_", b"_END_")


class Fault(NamedTuple):
    code: int
    name: str
    place: int


class Header(NamedTuple):
    """The numbers after magic, version and flags. Offsets count from the end of the header."""

    parlabel: int
    parname: int
    lbloff: int
    objtoff: int
    funcoff: int
    typeoff: int
    stroff: int
    strlen: int


class Symbol(NamedTuple):
    number: int
    sort: int


@dataclass(frozen=True)
class Record:
    """A whole type record: its end, and the types and name offsets in it."""

    end: int
    is_long_forward: bool
    types: tuple[int, ...]
    by_value: tuple[int, ...]
    declarator: tuple[int, ...]
    names: tuple[int, ...]


def u16(data: bytes, at: int) -> int:
    return struct.unpack_from("<H", data, at)[0]


def u32(data: bytes, at: int) -> int:
    return struct.unpack_from("<I", data, at)[0]


def u16s(data: bytes, at: int, count: int) -> tuple[int, ...]:
    return struct.unpack_from(f"<{count}H", data, at)


def list_len(kind: int, size: int, vlen: int) -> int:
    """The number of bytes after the head of a record."""
    if kind in (INTEGER, FLOAT):
        return 4
    if kind == ARRAY:
        return 8
    if kind == FUNCTION:
        return 2 * (vlen + vlen % 2)
    if kind in AGGREGATES:
        return vlen * member_len(size)
    return 8 * vlen if kind == ENUM else 0


def member_len(size: int) -> int:
    return 8 if size < 8192 else 16


def text_at(table: bytes | None, offset: int) -> bytes | None:
    """The bytes from an offset of a table to the first zero byte, or None."""
    if table is None or offset >= len(table) or 0 not in table[offset:]:
        return None
    return table[offset : table.index(0, offset)]


def record_at(data: bytes, at: int, section_end: int) -> Record | None:
    """The whole record at an offset of the type section, or None."""
    if section_end - at < 8 or u16(data, at + 4) >> 11 not in KNOWN_KINDS:
        return None
    info, field = u16(data, at + 4), u16(data, at + 6)
    is_long = field == 0xFFFF
    behind = at + (16 if is_long else 8)
    if behind > section_end:
        return None
    size = (u32(data, at + 8) << 32) + u32(data, at + 12) if is_long else field
    kind, vlen = info >> 11, info & 0x3FF
    end = behind + list_len(kind, size, vlen)
    return read_record(data, at, behind, end, kind, field, size) if end <= section_end else None


def read_record(
    data: bytes, at: int, behind: int, end: int, kind: int, field: int, size: int
) -> Record:
    """The references in a record; its list extends from `behind` to `end`."""
    types: tuple[int, ...] = ()
    by_value: tuple[int, ...] = ()
    declarator: tuple[int, ...] = ()
    names: tuple[int, ...] = (at,)
    if kind == POINTER:
        types = declarator = (field,)
    elif kind in RENAMING:
        types = by_value = declarator = (field,)
    elif kind == ARRAY:
        types = u16s(data, behind, 2)
        by_value = declarator = types[:1]
    elif kind == FUNCTION:
        types = (field, *u16s(data, behind, u16(data, at + 4) & 0x3FF))
        declarator = (field,)
    elif kind in AGGREGATES:
        members = range(behind, end, member_len(size))
        types = by_value = tuple(u16(data, member + 4) for member in members)
        names += tuple(members)
    elif kind == ENUM:
        names += tuple(range(behind, end, 8))
    is_long_forward = kind == FORWARD and field == 0xFFFF
    return Record(end, is_long_forward, types, by_value, declarator, names)


@dataclass(frozen=True)
class Lists:
    """A CTF section, optionally with a symbol table and its strings."""

    ctf: bytes
    sym: bytes | None = None
    strs: bytes | None = None

    def with_ctf(self, ctf: bytes) -> Lists:
        """The same lists with another CTF section."""
        return Lists(ctf, self.sym, self.strs)

    @cached_property
    def header(self) -> Header:
        return Header(*struct.unpack_from("<8I", self.ctf, 4))

    @cached_property
    def is_child(self) -> bool:
        return self.header.parname != 0

    def section(self, begin: int, end: int) -> bytes:
        return self.ctf[HEADER_LEN + begin : HEADER_LEN + end]

    @cached_property
    def strings(self) -> bytes:
        return self.section(self.header.stroff, self.header.stroff + self.header.strlen)

    @cached_property
    def records(self) -> tuple[Record, ...]:
        """The whole records of the type section, up to where none begins."""
        at, end = HEADER_LEN + self.header.typeoff, HEADER_LEN + self.header.stroff
        found = []
        while record := record_at(self.ctf, at, end):
            found.append(record)
            at = record.end
        return tuple(found)

    @cached_property
    def rest_of_types(self) -> bytes:
        """The bytes of the type section after the last whole record."""
        begin = HEADER_LEN + self.header.typeoff
        at = self.records[-1].end if self.records else begin
        return self.ctf[at : HEADER_LEN + self.header.stroff]

    def is_name(self, reference: int) -> bool:
        """Whether a reference has a name; offset 0 is the empty name of any table."""
        table = self.strs if reference >> 31 else self.strings
        offset = reference & 0x7FFF_FFFF
        return offset == 0 or text_at(table, offset) is not None

    def own_index(self, number: int) -> int | None:
        """The index of the own type with a number, from 0, whether or not it exists."""
        if self.is_child:
            return number - 0x8001 if number >= 0x8000 else None
        return number - 1

    def is_missing(self, number: int) -> bool:
        """Whether an own type does not exist; 0 is no type, and the import checks a parent's
        types."""
        index = self.own_index(number)
        return number != 0 and index is not None and not 0 <= index < len(self.records)

    @cached_property
    def considered_symbols(self) -> tuple[Symbol, ...]:
        """The symbols for which the dictionary can have types."""
        whole = range(len(self.sym or b"") // SYMBOL_LEN)
        symbols = (self.symbol(number) for number in whole if number <= LAST_SYMBOL)
        return tuple(symbol for symbol in symbols if symbol)

    def symbol(self, number: int) -> Symbol | None:
        """The symbol with a number, if it is considered."""
        at = SYMBOL_LEN * number
        name, info, _, section, value, _ = struct.unpack_from("<IBBHQQ", self.sym or b"", at)
        sort, text = info & 15, text_at(self.strs, name) if name else None
        if sort not in (OBJECT, CODE) or section == NO_SECTION or not text or text in MARKS:
            return None
        if sort == OBJECT and section == ABSOLUTE and value == 0:
            return None
        return Symbol(number, sort)

    @cached_property
    def function_entries(self) -> tuple[tuple[int, bytes], ...]:
        """The considered functions, each with the rest of their section, where its entry begins."""
        left, found = self.section(self.header.funcoff, self.header.typeoff), []
        for symbol in self.considered_symbols:
            if symbol.sort == CODE:
                found.append((symbol.number, left))
                left = left[entry_len(left) :]
        return tuple(found)

    @cached_property
    def entries(self) -> tuple[tuple[int, tuple[int, ...]], ...]:
        """The considered objects, then the functions, each with the types in its entry."""
        objects = self.section(self.header.objtoff, self.header.funcoff)
        numbers = [symbol.number for symbol in self.considered_symbols if symbol.sort == OBJECT]
        of_objects = zip(numbers, ((t,) for t in u16s(objects, 0, len(objects) // 2)))
        of_functions = ((number, signature(left)) for number, left in self.function_entries)
        return (*of_objects, *of_functions)


def is_silent(entry: bytes) -> bool:
    """Whether a function's entry has no types: it is empty, or its kind and length are 0."""
    return not entry or u16(entry, 0) >> 11 == 0 and u16(entry, 0) & 0x3FF == 0


def entry_len(entry: bytes) -> int:
    return 2 if is_silent(entry) else 4 + 2 * (u16(entry, 0) & 0x3FF)


def signature(entry: bytes) -> tuple[int, ...]:
    """The types in an entry: the function's return type and arguments."""
    return () if is_silent(entry) else u16s(entry, 2, 1 + (u16(entry, 0) & 0x3FF))


def nowhere_or_at_0(is_broken: bool) -> list[int]:
    """The places of a rule without a place."""
    return [0] if is_broken else []


def too_short(lists: Lists) -> list[int]:
    return nowhere_or_at_0(len(lists.ctf) < 4)


def bad_magic(lists: Lists) -> list[int]:
    return nowhere_or_at_0(lists.ctf[:2] != b"\xf1\xcf")


def bad_version(lists: Lists) -> list[int]:
    return nowhere_or_at_0(lists.ctf[2] != 2)


def compression(lists: Lists) -> list[int]:
    return nowhere_or_at_0(lists.ctf[3] & 1 == 1)


def short_header(lists: Lists) -> list[int]:
    return nowhere_or_at_0(len(lists.ctf) < HEADER_LEN)


def bad_order(lists: Lists) -> list[int]:
    offsets = list(lists.header[2:7])
    return nowhere_or_at_0(offsets != sorted(offsets))


def bad_align(lists: Lists) -> list[int]:
    _, _, labels, objects, functions, types, _, _ = lists.header
    return nowhere_or_at_0(labels % 4 + objects % 2 + functions % 2 + types % 4 > 0)


def past_end(lists: Lists) -> list[int]:
    return nowhere_or_at_0(HEADER_LEN + lists.header.stroff + lists.header.strlen > len(lists.ctf))


def bad_strings(lists: Lists) -> list[int]:
    return nowhere_or_at_0(lists.strings != b"" and lists.strings[0] != 0)


def has_unknown_kind(rest: bytes) -> bool:
    return len(rest) >= 8 and u16(rest, 4) >> 11 not in KNOWN_KINDS


def truncation(lists: Lists) -> list[int]:
    is_cut = lists.rest_of_types != b"" and not has_unknown_kind(lists.rest_of_types)
    return [len(lists.records) + 1] if is_cut else []


def bad_kind(lists: Lists) -> list[int]:
    return [len(lists.records) + 1] if has_unknown_kind(lists.rest_of_types) else []


def too_many(lists: Lists) -> list[int]:
    return [MOST_TYPES + 1] if len(lists.records) > MOST_TYPES else []


def bad_name(lists: Lists) -> list[int]:
    labels = range(lists.header.lbloff, lists.header.objtoff - 7, 8)
    places = [4, 8, *(HEADER_LEN + label for label in labels)]
    places += [place for record in lists.records for place in record.names]
    return [place for place in places if not lists.is_name(u32(lists.ctf, place))]


def bad_reference(lists: Lists) -> list[int]:
    return [number for number, record in enumerate(lists.records, 1)
            if record.is_long_forward or any(map(lists.is_missing, record.types))]


def deep_records(lists: Lists, steps: list[tuple[int, ...]]) -> list[int]:
    """The records from which more than 512 of these steps lead on, maybe in a cycle."""
    begins = set(range(len(steps)))
    targets = [{lists.own_index(number) for number in of_record} for of_record in steps]
    for _ in range(MOST_STEPS + 1):
        shorter = begins
        begins = {index for index in shorter if targets[index] & shorter}
        if begins == shorter:
            break
    return [index + 1 for index in begins]


def value_deep(lists: Lists) -> list[int]:
    return deep_records(lists, [record.by_value for record in lists.records])


def decl_deep(lists: Lists) -> list[int]:
    return deep_records(lists, [record.declarator for record in lists.records])


def is_bad_entry(entry: bytes) -> bool:
    is_other = not is_silent(entry) and u16(entry, 0) >> 11 != FUNCTION
    return entry != b"" and (len(entry) < entry_len(entry) or is_other)


def bad_funcs(lists: Lists) -> list[int]:
    return [number for number, entry in lists.function_entries if is_bad_entry(entry)]


def bad_symbol_type(lists: Lists) -> list[int]:
    return [number for number, types in lists.entries if any(map(lists.is_missing, types))]


def bad_symtab(lists: Lists) -> list[int]:
    return nowhere_or_at_0(len(lists.sym or b"") % SYMBOL_LEN > 0)


RULES: tuple[tuple[str, Callable[[Lists], list[int]]], ...] = (
    ("TooShort", too_short),
    ("BadMagic", bad_magic),
    ("BadVersion", bad_version),
    ("Compressed", compression),
    ("ShortHeader", short_header),
    ("BadOrder", bad_order),
    ("BadAlign", bad_align),
    ("PastEnd", past_end),
    ("BadStrings", bad_strings),
    ("Truncated", truncation),
    ("BadKind", bad_kind),
    ("TooMany", too_many),
    ("BadName", bad_name),
    ("BadReference", bad_reference),
    ("ValueDeep", value_deep),
    ("DeclDeep", decl_deep),
    ("BadFuncs", bad_funcs),
    ("BadSymbolType", bad_symbol_type),
    ("BadSymtab", bad_symtab),
)


def first_fault(lists: Lists) -> Fault | None:
    """The first rule that the lists break, at its least place."""
    for code, (name, rule) in enumerate(RULES, 1):
        if places := rule(lists):
            return Fault(code, name, min(places))
    return None


def parent_needs(lists: Lists) -> int:
    """The greatest number of a parent's type that an accepted child refers to, or 0."""
    named = [number for record in lists.records for number in record.types]
    named += [number for _, types in lists.entries for number in types]
    return max((n for n in named if n < 0x8000), default=0) if lists.is_child else 0
