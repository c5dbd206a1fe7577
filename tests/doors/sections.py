"""CTF sections and ELF files, built by hand for the tests."""
from __future__ import annotations

import struct
from typing import Iterable, NamedTuple, Sequence

INTEGER, POINTER, ARRAY, STRUCT, TYPEDEF, CONST = 1, 3, 4, 6, 10, 12
SYMTAB, STRTAB, NOBITS, PROGBITS = 2, 3, 8, 1
OBJECT = 1
HEADER = struct.Struct("<4s8I")


def record(kind: int, length: int, size_or_type: int, name: int = 0, rest: bytes = b"") -> bytes:
    """A type's record in its short form, visible to look-ups."""
    return struct.pack("<IHH", name, kind << 11 | 1 << 10 | length, size_or_type) + rest


def integer(name: int, bits: int = 32) -> bytes:
    return record(INTEGER, 0, bits // 8, name, struct.pack("<I", 1 << 24 | bits))


def array(contents: int, index: int, count: int) -> bytes:
    return record(ARRAY, 0, 0, 0, struct.pack("<HHI", contents, index, count))


def section(records: Iterable[bytes], names: bytes = b"\0", labels: bytes = b"") -> bytes:
    """A dictionary of these types. Labels are pairs of a name's offset and a type's number."""
    body = b"".join(records)
    at = len(labels)
    return HEADER.pack(b"\xf1\xcf\x02\0", 0, 0, 0, at, at, at, at + len(body),
                       len(names)) + labels + body + names


class Part(NamedTuple):
    """A section of an ELF file. If `size` is given, its header has this size instead of the true
    one."""

    name: str
    kind: int
    data: bytes
    link: int = 0
    entry: int = 0
    size: int = -1


def symbol(name: int, section_number: int = 1, value: int = 4096, kind: int = OBJECT) -> bytes:
    return struct.pack("<IBBHQQ", name, 1 << 4 | kind, 0, section_number, value, 4)


def elf(parts: Sequence[Part]) -> bytes:
    """An ELF64 file with these sections, numbered from 1, and the section of their names."""
    parts = [*parts, Part(".shstrtab", STRTAB, b"")]
    names = b"\0" + b"".join(part.name.encode() + b"\0" for part in parts)
    parts[-1] = parts[-1]._replace(data=names)
    body, headers, at = b"", bytes(64), 1
    for part in parts:
        place = 64 + len(body)
        size = len(part.data) if part.size < 0 else part.size
        headers += struct.pack("<IIQQQQIIQQ", at, part.kind, 0, 0, place, size, part.link, 0, 8,
                               part.entry)
        at += len(part.name) + 1
        body += part.data
    head = struct.pack("<16sHHIQQQIHHHHHH", b"\x7fELF\x02\x01\x01", 1, 62, 1, 0, 0,
                       64 + len(body), 0, 64, 0, 0, 64, len(parts) + 1, len(parts))
    return head + body + headers
