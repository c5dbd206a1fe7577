#!/usr/bin/env python3
"""Prints a dictionary as `ctfd dump` does, written only from docs/DUMP.md, the pages that it names
and docs/FORMAT.md.

usage: tests/doors/dump/dump.py [--model lp64|ilp32] CTF [SYM STR]

A second implementation, with which the first is compared. It knows no parents and checks nothing:
the dictionary must be one that ctfd accepts. It made `examples/lua.dump`.
"""
from __future__ import annotations

import argparse
import struct
from collections.abc import Callable, Iterable, Iterator

KINDS = ("unknown integer float pointer array function struct union enum forward typedef volatile"
         " const restrict").split()
(UNKNOWN, INTEGER, FLOAT, POINTER, ARRAY, FUNCTION, STRUCT, UNION, ENUM, FORWARD, TYPEDEF, VOLATILE,
 CONST, RESTRICT) = range(14)
QUALIFIERS = (VOLATILE, CONST, RESTRICT)
AGGREGATES = (STRUCT, UNION)
# The number of bytes of a pointer.
POINTERS = {"lp64": 8, "ilp32": 4}

# An item after a type's head: numbers unpacked by struct.
Item = tuple[int, ...]
# A kind, the root bit, a name, a size or a reference, and the items.
Record = tuple[int, int, bytes, int, list[Item]]


class Fault(Exception):
    pass


def quote(name: bytes) -> str:
    return '"%s"' % "".join(
        chr(b) if 0x20 <= b <= 0x7E and b not in b'"\\' else "\\x%02x" % b for b in name)


def join(numbers: Iterable[int]) -> str:
    return ",".join(str(n) for n in numbers)


class Dictionary:
    def __init__(self, ctf: bytes, strs: bytes, pointer: int) -> None:
        parlabel, parname, labels, objects, functions, types, strings, length = (
            struct.unpack_from("<8I", ctf, 4))
        self.body, self.strs, self.pointer = ctf[36:], strs, pointer
        self.strings = self.body[strings : strings + length]
        self.child, self.parname = parname != 0, self.name(parname)
        self.parlabel = self.name(parlabel)
        self.labels = [struct.unpack_from("<II", self.body, at)
                       for at in range(labels, objects - 7, 8)]
        self.objects, self.functions = self.body[objects:functions], self.body[functions:types]
        self.types = list(self.records(self.body[types:strings]))

    def name(self, reference: int) -> bytes:
        table, at = (self.strs if reference >> 31 else self.strings), reference & 0x7FFFFFFF
        return table[at : table.index(b"\0", at)] if at else b""

    def records(self, section: bytes) -> Iterator[Record]:
        at = 0
        while at < len(section):
            name, info, field = struct.unpack_from("<IHH", section, at)
            kind, root, vlen, size = info >> 11, info >> 10 & 1, info & 0x3FF, field
            at += 8
            if field == 0xFFFF:
                high, low = struct.unpack_from("<II", section, at)
                size = high << 32 | low
                at += 8
            form, count, step = "", 1, 0
            if kind in (INTEGER, FLOAT):
                form, step = "<I", 4
            elif kind == ARRAY:
                form, step = "<HHI", 8
            elif kind == FUNCTION:
                form, count, step = "<H", vlen, 2
            elif kind in AGGREGATES:
                form, count, step = ("<IHH", vlen, 8) if size < 8192 else ("<IHHII", vlen, 16)
            elif kind == ENUM:
                form, count, step = "<Ii", vlen, 8
            items = [struct.unpack_from(form, section, at + step * i)
                     for i in range(count)] if form else []
            at += step * len(items) + (2 if kind == FUNCTION and vlen % 2 else 0)
            if kind in AGGREGATES:
                items = [m[:3] if len(m) == 3 else (m[0], m[1], m[3] << 32 | m[4]) for m in items]
            yield kind, root, self.name(name), size, items

    def type(self, number: int) -> Record:
        return self.types[number - 1]

    def resolve(self, number: int) -> int:
        while number and self.type(number)[0] in QUALIFIERS + (TYPEDEF,):
            number = self.type(number)[3]
        return number

    def size(self, number: int) -> int:
        number = self.resolve(number)
        kind, _, _, size, items = self.type(number) if number else (UNKNOWN, 0, b"", 0, [])
        if kind in (UNKNOWN, FORWARD):
            raise Fault("Incomplete")
        if kind == ARRAY and size == 0:
            size = self.size(items[0][0]) * items[0][2]
            if size >= 1 << 64:
                raise Fault("TooBig")
        own = 4 if kind == ENUM and size == 0 else size
        return {POINTER: self.pointer, FUNCTION: 0}.get(kind, own)

    def align(self, number: int) -> int:
        number = self.resolve(number)
        kind, _, _, _, items = self.type(number) if number else (UNKNOWN, 0, b"", 0, [])
        if kind in (POINTER, FUNCTION):
            return self.pointer
        if kind == ARRAY:
            return self.align(items[0][0])
        if kind == STRUCT:
            return self.align(items[0][1]) if items else 0
        if kind == UNION:
            return max([self.align(m[1]) for m in items], default=0)
        return self.size(number)

    def past(self, number: int) -> int:
        while number and self.type(number)[0] in QUALIFIERS:
            number = self.type(number)[3]
        return self.type(number)[0] if number else UNKNOWN

    def spelling(self, number: int, declared: bytes = b"") -> bytes:
        def behind(word: bytes) -> bytes:
            return word + b" " + declared if declared else word

        if number == 0:
            return behind(b"void")
        kind, _, name, to, items = self.type(number)
        name = name or b"(anon)"
        if kind in (STRUCT, UNION, ENUM):
            return behind(KINDS[kind].encode() + b" " + name)
        if kind == FORWARD:
            return behind({UNION: b"union ", ENUM: b"enum "}.get(to, b"struct ") + name)
        if kind == POINTER:
            wrapped = self.past(to) in (ARRAY, FUNCTION)
            return self.spelling(to, b"(*" + declared + b")" if wrapped else b"*" + declared)
        if kind == ARRAY:
            return self.spelling(items[0][0], declared + b"[%d]" % items[0][2])
        if kind == FUNCTION:
            return self.spelling(to, declared + b"()")
        if kind in QUALIFIERS:
            word = KINDS[kind].encode()
            if self.past(to) == POINTER:
                return self.spelling(to, behind(word))
            return word + b" " + self.spelling(to, declared)
        return behind(name)


def or_fault(figure: Callable[[], int]) -> int | Fault:
    try:
        return figure()
    except Fault as fault:
        return fault


def considered_symbols(sym: bytes, strs: bytes) -> Iterator[tuple[int, int, bytes]]:
    for i in range(len(sym) // 24):
        at, info, _, section, value, _ = struct.unpack_from("<IBBHQQ", sym, 24 * i)
        end = strs.find(b"\0", at)
        name = strs[at:end] if 0 < at <= end else b""
        absolute = info & 15 == 1 and section == 0xFFF1 and value == 0
        is_named = name not in (b"", b"_START_", b"_END_")
        if info & 15 in (1, 2) and section and is_named and not absolute:
            yield i, info & 15, name


def symbol_lines(d: Dictionary, sym: bytes) -> None:
    objects = functions = 0
    for number, class_, name in considered_symbols(sym, d.strs):
        if class_ == 1:
            told = d.objects[objects : objects + 2]
            objects += 2
            if len(told) == 2 and told != b"\0\0":
                print("object", number, quote(name), *struct.unpack("<H", told))
        elif functions + 2 <= len(d.functions):
            (info,) = struct.unpack_from("<H", d.functions, functions)
            functions += 2
            if info & 0xFBFF:
                ret, *args = struct.unpack_from("<%dH" % (1 + (info & 0x3FF)), d.functions,
                                                functions)
                functions += 2 + 2 * len(args)
                print("function", number, quote(name), "return=%d args=%s" % (ret, join(args)))


def detail(kind: int, size: int, items: list[Item]) -> str:
    if kind in (INTEGER, FLOAT):
        (word,) = items[0]
        return " size=%d encoding=%d offset=%d bits=%d" % (
            size, word >> 24, word >> 16 & 255, word & 0xFFFF)
    if kind == ARRAY:
        contents, index, count = items[0]
        return " contents=%d index=%d count=%d size=%d" % (contents, index, count, size)
    if kind == FUNCTION:
        return " return=%d args=%s" % (size, join(a for a, in items))
    if kind in (STRUCT, UNION, ENUM):
        return " size=%d" % size
    if kind == FORWARD:
        return " tag=" + {UNION: "union", ENUM: "enum"}.get(size, "struct")
    return "" if kind == UNKNOWN else " to=%d" % size


def type_lines(d: Dictionary) -> None:
    for number, (kind, root, name, size, items) in enumerate(d.types, 1):
        print(
            "type", number, KINDS[kind], quote(name),
            ("root" if root else "hidden") + detail(kind, size, items), ":",
            quote(d.spelling(number)),
            "bytes=%s align=%s" % (
                or_fault(lambda: d.size(number)), or_fault(lambda: d.align(number))),
        )
        if kind in AGGREGATES:
            for name, to, offset in items:
                print("  member", quote(d.name(name)), "offset=%d type=%d" % (offset, to))
        if kind == ENUM:
            for name, value in items:
                print("  value", quote(d.name(name)), value)


def read(path: str | None) -> bytes:
    if path is None:
        return b""
    with open(path, "rb") as file:
        return file.read()


def words() -> argparse.Namespace:
    parser = argparse.ArgumentParser(description="Prints a dictionary as `ctfd dump` does.")
    parser.add_argument("--model", choices=list(POINTERS), default="lp64")
    parser.add_argument("ctf", metavar="CTF")
    parser.add_argument("sym", metavar="SYM", nargs="?")
    parser.add_argument("strs", metavar="STR", nargs="?")
    return parser.parse_args()


def main() -> None:
    said = words()
    sym = read(said.sym)
    d = Dictionary(read(said.ctf), read(said.strs), POINTERS[said.model])
    print(
        "ctf types=%d child=%s" % (len(d.types), "yes" if d.child else "no"),
        "parname=%s parlabel=%s" % (quote(d.parname), quote(d.parlabel)),
    )
    for name, last in d.labels:
        print("label", quote(d.name(name)), last)
    symbol_lines(d, sym)
    type_lines(d)


main()
