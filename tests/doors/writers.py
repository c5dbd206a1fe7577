"""Files built in code, byte by byte: ELF files, and sections of DWARF, BTF and CTF for them."""
from __future__ import annotations

import struct
from typing import Iterable, List, NamedTuple, Sequence, Tuple

PROGBITS, SYMTAB, STRTAB, NOBITS, REL, DYNSYM = 1, 2, 3, 8, 9, 11
OBJECT, FUNCTION = 1, 2
RELOCATABLE, PROGRAM, SHARED = 1, 2, 3


class Section(NamedTuple):
    """A section of an ELF file. Its header may have a different size and offset."""

    name: str
    data: bytes = b""
    kind: int = PROGBITS
    link: int = 0
    info: int = 0
    flags: int = 0
    entry_size: int = 0
    says_size: int = -1
    says_offset: int = -1


def elf(sections: Sequence[Section], kind: int = RELOCATABLE, bits: int = 64,
        machine: int = 62) -> bytes:
    """An ELF file with these sections, numbered from 1, followed by the section of their names."""
    wide = bits == 64
    names, body = bytearray(b"\0"), bytearray()
    header, entry = (64, struct.Struct("<IIQQQQIIQQ")) if wide else (52, struct.Struct("<10I"))
    rows = [entry.pack(*[0] * 10)]
    for one in [*sections, Section(".shstrtab", kind=STRTAB)]:
        place = len(names)
        names += one.name.encode("utf-8", "surrogateescape") + b"\0"
        data = bytes(names) if one.name == ".shstrtab" else one.data
        body += bytes(-len(body) % 8)
        at = header + len(body)
        if one.kind != NOBITS:
            body += data
        rows.append(entry.pack(place, one.kind, one.flags, 0,
                               at if one.says_offset < 0 else one.says_offset,
                               len(data) if one.says_size < 0 else one.says_size,
                               one.link, one.info, 1, one.entry_size))
    body += bytes(-len(body) % 8)
    start = header + len(body)
    head = b"\x7fELF" + bytes([2 if wide else 1, 1, 1]) + bytes(9)
    form = "<HHIQQQIHHHHHH" if wide else "<HHIIIIIHHHHHH"
    head += struct.pack(form, kind, machine if wide else 3, 1, 0, 0, start, 0, header, 0, 0,
                        entry.size, len(rows), len(rows) - 1)
    return head + bytes(body) + b"".join(rows)


def symbol(name: int, kind: int = OBJECT, section: int = 1, address: int = 0, size: int = 4,
           bits: int = 64) -> bytes:
    """An entry of a symbol table, global."""
    if bits == 64:
        return struct.pack("<IBBHQQ", name, kind | 16, 0, section, address, size)
    return struct.pack("<IIIBBH", name, address, size, kind | 16, 0, section)


def symbols(table: Iterable[bytes], strings: bytes, link: int, bits: int = 64) -> List[Section]:
    """A .symtab and its strings, which are section number `link`."""
    empty = bytes(24 if bits == 64 else 16)
    return [Section(".symtab", empty + b"".join(table), SYMTAB, link, 1,
                    entry_size=len(empty)), Section(".strtab", strings, STRTAB)]


# CTF of version 2.

VISIBLE = 1 << 10
(INTEGER, FLOAT, POINTER, ARRAY, FUNCTION_TYPE, STRUCT, UNION, ENUM, FORWARD, TYPEDEF, VOLATILE,
 CONST, RESTRICT) = range(1, 14)
INT = struct.pack("<I", 0x01000020)


def record(name: int, kind: int, count: int = 0, field: int = 0, rest: bytes = b"") -> bytes:
    """A type's record: the number of its parts, its size or the type that it refers to, and the
    rest."""
    return struct.pack("<IHH", name, kind << 11 | VISIBLE | count, field) + rest


def member(name: int, held: int, offset: int) -> bytes:
    """A member of a struct of less than 8,192 bytes."""
    return struct.pack("<IHH", name, held, offset)


def ctf(types: bytes, strings: bytes, labels: bytes = b"", objects: bytes = b"",
        functions: bytes = b"", parent: int = 0) -> bytes:
    """A dictionary."""
    ends = [0]
    for part in (labels, objects, functions, types):
        ends.append(ends[-1] + len(part))
    head = struct.pack("<HBB8I", 0xCFF1, 2, 0, 0, parent, *ends, len(strings))
    return head + labels + objects + functions + types + strings


# BTF.

def btf(types: bytes, strings: bytes) -> bytes:
    """A section .BTF."""
    return struct.pack("<HBBIIIII", 0xEB9F, 1, 0, 24, 0, len(types), len(types),
                       len(strings)) + types + strings


def btf_type(name: int, kind: int, count: int, field: int, rest: bytes = b"") -> bytes:
    return struct.pack("<III", name, kind << 24 | count, field) + rest


# DWARF.

def uleb(number: int) -> bytes:
    made = bytearray()
    while number > 0x7F:
        made.append(number & 0x7F | 0x80)
        number >>= 7
    return bytes(made + bytes([number]))


Attributes = Sequence[Tuple[int, int]]


def abbreviation(code: int, tag: int, has_children: bool, attributes: Attributes) -> bytes:
    """The abbreviation of a code: pairs of an attribute and its form."""
    listed = b"".join(uleb(name) + uleb(form) for name, form in [*attributes, (0, 0)])
    return uleb(code) + uleb(tag) + bytes([has_children]) + listed


def unit(entries: bytes, version: int = 4, abbreviations: int = 0, address: int = 8) -> bytes:
    """A unit of .debug_info."""
    if version >= 5:
        head = struct.pack("<HBBI", version, 1, address, abbreviations)
    else:
        head = struct.pack("<HIB", version, abbreviations, address)
    return struct.pack("<I", len(head) + len(entries)) + head + entries


def head_size(version: int) -> int:
    """The size of a unit's header in bytes."""
    return 12 if version >= 5 else 11


def debug(info: bytes, abbreviations: bytes, *more: Section, bits: int = 64) -> bytes:
    """An object file with debug information."""
    return elf([Section(".debug_info", info), Section(".debug_abbrev", abbreviations), *more],
               bits=bits)
