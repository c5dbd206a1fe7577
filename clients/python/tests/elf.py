"""The sections of a little-endian ELF file, for tests that read or change one."""
from __future__ import annotations

import struct
from typing import List, NamedTuple

FORMS = {1: ("<I", 32, 46, struct.Struct("<10I")), 2: ("<Q", 40, 58, struct.Struct("<IIQQQQIIQQ"))}
MODELS = {1: "ilp32", 2: "lp64"}
NOBITS = 8
DAMAGED = (struct.error, IndexError, KeyError, ValueError)


class Section(NamedTuple):
    """A section's name, the fields of its header, and the header's offset in the file."""

    name: str
    kind: int
    flags: int
    offset: int
    size: int
    link: int
    header: int

    def bytes(self, whole: bytes) -> bytes:
        """The section's content."""
        return whole[self.offset:self.offset + self.size]


def sections(data: bytes) -> List[Section]:
    """The sections of a file of 32 bits or of 64. Raises one of DAMAGED for any other file."""
    if data[:4] != b"\x7fELF":
        raise ValueError("no ELF file")
    word, at, counts, form = FORMS[data[4]]
    (start,) = struct.unpack_from(word, data, at)
    size, count, names = struct.unpack_from("<HHH", data, counts)
    headers = [form.unpack_from(data, start + number * size) for number in range(count)]
    strings = data[headers[names][4]:]
    return [Section(strings[one[0]:strings.index(b"\0", one[0])].decode("latin-1"), one[1], one[2],
                    one[4], one[5], one[6], start + number * size)
            for number, one in enumerate(headers)]


def section_named(data: bytes, name: str) -> Section:
    """The first section with a name, which must exist."""
    return next(one for one in sections(data) if one.name == name)


def model(data: bytes) -> str:
    """The data model of a file's program."""
    return MODELS[data[4]]
