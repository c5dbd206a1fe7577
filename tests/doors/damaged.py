#!/usr/bin/env python3
"""Structurally damaged files, made from sound ones: chains, cycles, tables and names that overlap,
sections without bytes, wrong sizes, forwards with several definitions, dangling links.

usage: damaged.py OUT_FOLDER COUNT SEED

The same seed makes the same files. MANIFEST has a line for each: its name, the sound file that it
was made from (in OUT_FOLDER/sound), and how it was damaged.
"""
from __future__ import annotations

import random
import struct
import sys
from pathlib import Path
from typing import Callable, Dict, Iterator, List, NamedTuple, Tuple

if __package__:
    from . import sound, writers as w
else:
    sys.path.insert(0, str(Path(__file__).resolve().parents[1]))
    from doors import sound, writers as w

MANIFEST = "manifest.txt"
R = sound.Reference
# Sizes and offsets that are too large, or so near to 2^32 and 2^64 that a sum of two overflows.
FAR = (0, 1, 0x7FFFFFFF, 0x80000000, 0xFFFFFFFF, 0xFFFFFFF8, 1 << 32, (1 << 63) - 1,
       (1 << 64) - 1, (1 << 64) - 64)
DEEP = (2, 3, 64, 513, 3000)


class DamagedFile(NamedTuple):
    """A file, the sound file that it was made from, and how it was damaged."""

    data: bytes
    base: str
    what: str


Damage = Callable[[random.Random], Tuple[bytes, str]]


def far(chance: random.Random, bits: int = 32) -> int:
    return chance.choice(FAR) & (1 << bits) - 1


# Debug information.

def dwarf_chain(chance: random.Random) -> Tuple[bytes, str]:
    """A chain of types of one kind, or a cycle of them."""
    made, known = sound.entries(4)
    count, is_ring = chance.choice(DEEP), chance.random() < 0.5
    code = chance.choice((8, 9, 12, 10, 3))
    first, step = len(made.listed), {10: 3, 3: 3}.get(code, 1)
    for n in range(count):
        is_last = n == count - 1
        held = first if is_last and is_ring else known["int"] if is_last else first + step * (n + 1)
        if code == 3:
            made.struct(f"s{n}", 8, ("held", held, 0))
        elif code == 10:
            made.array(held, 1, known["int"])
        else:
            made.add(code, *{8: ["t"], 9: [8], 12: []}[code], R(held))
    return sound.dwarf(4, made), f"{'a ring' if is_ring else 'a chain'} of {count} of code {code}"


def dwarf_forwards(chance: random.Random) -> Tuple[bytes, str]:
    """A forward and several definitions of one tag, and structs that refer to each."""
    made, known = sound.entries(4)
    count = chance.choice((2, 3, 40))
    tags = [made.add(16, "many")]
    tags += [made.struct("many", 4 + n % 3, (f"m{n % 2}", known["int"], 0)) for n in range(count)]
    chance.shuffle(tags)
    for n, tag in enumerate(tags):
        to = made.add(9, 8, R(tag))
        made.struct(f"user{n % 7}", 8, ("to", to, 0))
    return sound.dwarf(4, made), f"a forward and {count} definitions"


def dwarf_reference(chance: random.Random) -> Tuple[bytes, str]:
    """A reference out of the unit, into the middle of an entry, to the top entry or to itself."""
    version = chance.choice((4, 5))
    made, _ = sound.entries(version)
    place = chance.choice([n for n, (_, values) in enumerate(made.listed)
                           if any(isinstance(one, R) for one in values)])
    code, values = made.listed[place]
    to = chance.choice((far(chance), chance.randrange(400)))
    made.listed[place] = code, [struct.pack("<I", to) if isinstance(one, R) else one
                                for one in values]
    return sound.dwarf(version, made), f"a reference to {to:#x}"


def dwarf_sizes(chance: random.Random) -> Tuple[bytes, str]:
    """Impossible sizes and counts."""
    made, known = sound.entries(5)
    size = far(chance, 64)
    made.add(20, "large", struct.pack("<Q", size)), made.add(0)
    last = far(chance, 64)
    array = made.add(10, R(known["int"]))
    made.add(21, R(known["int"]), struct.pack("<Q", last)), made.add(0)
    made.struct("holder", 16, ("a", array, chance.randrange(256)))
    return sound.dwarf(5, made), f"a size of {size:#x}, a last index of {last:#x}"


def dwarf_siblings(chance: random.Random) -> Tuple[bytes, str]:
    """Siblings that point backwards, to themselves or past the end."""
    made, known = sound.entries(4)
    to = chance.choice((0, 11, 200, far(chance)))
    made.add(19, "leads", 4, struct.pack("<I", to))
    made.add(4, "a", R(known["int"]), 0), made.add(0)
    made.struct("behind", 4, ("b", known["int"], 0))
    return sound.dwarf(4, made), f"a sibling at {to:#x}"


def dwarf_strings(chance: random.Random) -> Tuple[bytes, str]:
    """Names that are ends of one text, or of none."""
    made, known = sound.entries(4)
    length = chance.choice((10, 1000, 200_000))
    text = b"n" * length + (b"\0" if chance.random() < 0.7 else b"")
    for n in range(min(length, 300)):
        place = n * (length // 300 or 1) if chance.random() < 0.98 else far(chance)
        made.add(18, struct.pack("<I", place), R(known["int"]))
    return sound.dwarf(4, made, strings=text), f"names that are ends of one of {length} bytes"


def dwarf_units(chance: random.Random) -> Tuple[bytes, str]:
    """Units with wrong lengths and tables of abbreviations."""
    version = chance.choice((4, 5))
    info = w.unit(sound.entries(version)[0].info(), version)
    count = chance.choice((1, 2, 50))
    listed = sound.abbreviations()
    units = []
    for _ in range(count):
        one = bytearray(info)
        place = chance.choice((0, 4, 6, 8, 10))
        value = chance.choice((far(chance), chance.randrange(len(info))))
        struct.pack_into("<I", one, place, value)
        units.append(bytes(one))
    if chance.random() < 0.5:
        listed = bytearray(listed)
        listed[chance.randrange(len(listed))] = chance.randrange(256)
    return w.debug(b"".join(units), bytes(listed)), f"{count} units with other headers"


DWARF: Dict[str, List[Damage]] = {
    "dwarf4.o": [dwarf_chain, dwarf_forwards, dwarf_reference, dwarf_siblings, dwarf_strings],
    "dwarf5.o": [dwarf_reference, dwarf_sizes, dwarf_units],
}


# Dictionaries.

def ctf_types(chance: random.Random) -> Tuple[List[bytes], bytes, str]:
    """The records of a dictionary with a chain, a cycle, or wrong words."""
    listed, strings = sound.records()
    which = chance.randrange(4)
    if which == 0:
        count, is_ring = chance.choice(DEEP), chance.random() < 0.5
        kind, first = chance.choice((w.TYPEDEF, w.POINTER, w.CONST)), len(listed) + 1
        to = [first + n + 1 for n in range(count - 1)] + [first if is_ring else 1]
        listed += [w.record(1, kind, 0, one & 0xFFFF) for one in to]
        return listed, strings, f"a {'ring' if is_ring else 'chain'} of {count} of kind {kind}"
    if which == 1:
        tags = [w.record(1, w.FORWARD, 0, w.STRUCT)] * chance.randrange(3)
        tags += [w.record(1, w.STRUCT, 1, 4 * n, w.member(1, 1, 0)) for n in range(1, 4)]
        chance.shuffle(tags)
        return listed + tags, strings, "a forward and three definitions"
    if which == 2:
        n = chance.randrange(len(listed))
        one = bytearray(listed[n])
        place = chance.randrange(len(one) // 2) * 2
        value = chance.choice((0, 1, n + 1, 0x400, 0x7FFF, 0x8001, 0xFFFF, chance.randrange(65536)))
        struct.pack_into("<H", one, place, value)
        listed[n] = bytes(one)
        return listed, strings, f"record {n + 1} has {value:#x} at {place}"
    cut = chance.randrange(1, len(strings))
    return listed, strings[:cut] + b"x" * chance.choice((0, 1, 50)), f"strings cut at {cut}"


def bare_ctf(chance: random.Random) -> Tuple[bytes, str]:
    listed, strings, what = ctf_types(chance)
    labels = b""
    if chance.random() < 0.3:
        place = chance.choice((1, len(strings) - 1, far(chance)))
        last, count = chance.choice((1, far(chance))), chance.choice((1, 500))
        labels = struct.pack("<II", place, last) * count
        what += f", labels of the text at {place:#x}"
    data = bytearray(w.ctf(b"".join(listed), strings, labels))
    if chance.random() < 0.3:
        place = 3 if chance.random() < 0.2 else 4 + 4 * chance.randrange(8)
        struct.pack_into("<B" if place == 3 else "<I", data, place,
                         1 if place == 3 else chance.choice((far(chance), len(data))))
        what += f", the header has another word at {place}"
    times = chance.choice((1, 1, 1, 2, 30))
    return bytes(data) * times, what + (f", {times} times" if times > 1 else "")


def elf_ctf(chance: random.Random) -> Tuple[bytes, str]:
    listed, strings, what = ctf_types(chance)
    made = w.ctf(b"".join(listed), strings, objects=sound.OBJECTS * chance.choice((1, 1, 3)),
                 functions=sound.FUNCTIONS)
    return sound.with_ctf(made), what


def bare_btf(chance: random.Random) -> Tuple[bytes, str]:
    """BTF with a chain, a cycle, or wrong words."""
    listed, strings = sound.btf_records()
    which = chance.randrange(3)
    if which == 0:
        count, is_ring = chance.choice(DEEP), chance.random() < 0.5
        kind, first = chance.choice((2, 8, 10, 18)), len(listed) + 1
        to = [first + n + 1 for n in range(count - 1)] + [first if is_ring else 1]
        listed += [w.btf_type(1 if kind == 8 else 0, kind, 0, one) for one in to]
        return (w.btf(b"".join(listed), strings),
                f"a {'ring' if is_ring else 'chain'} of {count} of kind {kind}")
    data = bytearray(w.btf(b"".join(listed), strings))
    last = 24 if which == 1 else len(data) - 4
    for _ in range(chance.choice((1, 1, 3))):
        place = chance.randrange(4, last) // 4 * 4
        struct.pack_into("<I", data, place, chance.choice((far(chance), chance.randrange(64))))
    return bytes(data), f"{'header' if which == 1 else 'types'}: other words, last at {place}"


def elf_btf(chance: random.Random) -> Tuple[bytes, str]:
    data, what = bare_btf(chance)
    return w.elf([w.Section(".BTF", data)]), what


def library(chance: random.Random) -> Tuple[bytes, str]:
    """An archive with wrong headers or names, or with damaged members."""
    one, what = chance.choice(DWARF["dwarf4.o"])(chance)
    names = [chance.choice(("one.o", "/0", "/99999999", "//", "#1/99", "../../etc/passwd"))
             for _ in range(chance.choice((1, 2, 20)))]
    is_thin = chance.random() < 0.2
    data = bytearray(sound.archive([(name, one) for name in names], is_thin))
    if chance.random() < 0.4:
        place = 8 + chance.randrange(60)
        data[place] = chance.randrange(256)
    if chance.random() < 0.2:
        data = data[:chance.randrange(8, len(data))]
    return bytes(data), f"an archive of {', '.join(names[:3])}: {what}"


MADE: Dict[str, List[Damage]] = {**DWARF, "bare.ctf": [bare_ctf], "ctf.o": [elf_ctf],
                                 "bare.btf": [bare_btf], "btf.o": [elf_btf], "lib.a": [library]}


# Headers of ELF files.

class Header(NamedTuple):
    """The header of a section of 64 bits: its position in the file, and some of its fields."""

    place: int
    name: str
    offset: int
    size: int


def headers(data: bytes) -> List[Header]:
    start, = struct.unpack_from("<Q", data, 40)
    count, names = struct.unpack_from("<HH", data, 60)
    rows = [struct.unpack_from("<IIQQQQIIQQ", data, start + 64 * n) for n in range(count)]
    at = rows[names][4]
    return [Header(start + 64 * n, data[at + row[0]:data.index(b"\0", at + row[0])].decode(),
                   row[4], row[5]) for n, row in enumerate(rows)]


# The fields of a section header: their offsets and formats.
FIELDS = {"name": (0, "<I"), "type": (4, "<I"), "flags": (8, "<Q"), "offset": (24, "<Q"),
          "size": (32, "<Q"), "link": (40, "<I"), "info": (44, "<I"), "entsize": (56, "<Q")}
TOLD = (".debug_", ".SUNW_ctf", ".ctf", ".BTF", ".symtab", ".strtab", ".dynsym", ".dynstr",
        ".shstrtab", ".rela.debug", ".gnu.version")


def of_headers(data: bytes, chance: random.Random) -> Tuple[bytes, str]:
    """Changes the kind, link, size, offset or entry size in some section headers."""
    made, listed = bytearray(data), [one for one in headers(data) if one.name.startswith(TOLD)]
    told = []
    for _ in range(chance.choice((1, 1, 1, 2, 4))):
        one, other = chance.choice(listed), chance.choice(listed)
        field = chance.choice(list(FIELDS))
        value = {"type": chance.choice((8, 8, 0, 2, 3, 11, far(chance))),
                 "flags": chance.choice((0x800, far(chance, 64))),
                 "offset": chance.choice((other.offset, one.offset + 1, far(chance, 64))),
                 "size": chance.choice((one.size + 1, max(one.size - 1, 0), other.size, len(data),
                                        far(chance, 64))),
                 "entsize": chance.choice((0, 1, 7, 23, 25, far(chance, 64))),
                 }.get(field, chance.choice((0, 1, chance.randrange(40), far(chance))))
        place, form = FIELDS[field]
        bits = 8 * struct.calcsize(form)
        struct.pack_into(form, made, one.place + place, value & (1 << bits) - 1)
        told.append(f"{one.name} {field} {value:#x}")
    return bytes(made), ", ".join(told)


def of_head(data: bytes, chance: random.Random) -> Tuple[bytes, str]:
    """Changes counts and offsets in the file header."""
    made = bytearray(data)
    place, form = chance.choice(((40, "<Q"), (58, "<H"), (60, "<H"), (62, "<H"), (16, "<H"),
                                 (4, "<B"), (18, "<H")))
    bits = 8 * struct.calcsize(form)
    value = chance.choice((0, 1, len(data) - 1, len(data) // 2, far(chance, 64))) & (1 << bits) - 1
    struct.pack_into(form, made, place, value)
    return bytes(made), f"the header has {value:#x} at {place}"


def of_words(data: bytes, chance: random.Random) -> Tuple[bytes, str]:
    """Changes some words in sections."""
    made = bytearray(data)
    listed = [one for one in headers(data) if one.name.startswith(TOLD) and one.size > 8]
    told = []
    for _ in range(chance.choice((1, 2, 8))):
        one = chance.choice(listed)
        place = chance.randrange(one.size - 4)
        if chance.random() < 0.5:
            struct.pack_into("<I", made, one.offset + place, far(chance))
        else:
            made[one.offset + place] = chance.randrange(256)
        told.append(f"{one.name} at {place}")
    return bytes(made), f"other words: {', '.join(told)}"


def of_cut(data: bytes, chance: random.Random) -> Tuple[bytes, str]:
    end = chance.randrange(1, len(data))
    return data[:end], f"cut off at {end}"


def files(count: int, seed: int) -> Iterator[DamagedFile]:
    """`count` damaged files. The first ones are the same for every count."""
    whole = sound.all_files()
    names = sorted(whole)
    for number in range(count):
        chance = random.Random(f"{seed} {number}")
        base = names[number % len(names)]
        data, is_elf = whole[base], whole[base][:4] == b"\x7fELF"
        if base in MADE and chance.random() < (0.6 if is_elf else 0.9):
            made, what = chance.choice(MADE[base])(chance)
        elif is_elf:
            made, what = chance.choice((of_headers, of_headers, of_words, of_words, of_head,
                                        of_cut))(data, chance)
        else:
            made, what = of_cut(data, chance)
        yield DamagedFile(made, base, what)


def write(folder: Path, count: int, seed: int) -> List[Tuple[Path, DamagedFile]]:
    """Writes the files and the manifest."""
    (folder / "sound").mkdir(parents=True, exist_ok=True)
    for name, data in sound.all_files().items():
        (folder / "sound" / name).write_bytes(data)
    made = []
    for number, one in enumerate(files(count, seed)):
        path = folder / f"{number:04}-{one.base}"
        path.write_bytes(one.data)
        made.append((path, one))
    lines = [f"{path.name}\t{one.base}\t{one.what}\n" for path, one in made]
    (folder / MANIFEST).write_text("".join(lines))
    return made


def main() -> int:
    if len(sys.argv) != 4 or not all(one.isdecimal() for one in sys.argv[2:]):
        sys.exit(__doc__)
    made = write(Path(sys.argv[1]), int(sys.argv[2]), int(sys.argv[3]))
    print(f"{len(made)} files in {sys.argv[1]}")
    return 0


if __name__ == "__main__":
    sys.exit(main())
