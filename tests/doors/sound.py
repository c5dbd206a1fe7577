"""Sound files from which damaged ones are made. Each has the same few types, in different
formats."""
from __future__ import annotations

import shutil
import struct
import subprocess
import tempfile
from pathlib import Path
from typing import Dict, List, NamedTuple, Sequence, Tuple, Union

from . import writers as w

CODE = """
typedef unsigned int u32;
enum color { RED, GREEN = 5 };
struct node { struct node *next; u32 key : 3, rest : 29; char name[7]; enum color color; };
union both { struct node node; double d; };
struct opaque;
struct witness { int a; long b; char c[3]; union both *both; int (*call)(struct opaque *, int); };
struct witness shown; static int hidden = 1; const char *words[2];
int work(struct witness *w, u32 by) { return w->a + by + hidden; }
void quiet(struct opaque *o) { (void)o; }
"""
NAME, SIZE, TYPE, WHERE = (0x03, 0x08), (0x0B, 0x0B), (0x49, 0x13), (0x38, 0x0B)
EXTERNAL, DECLARED = (0x3F, 0x19), (0x3C, 0x19)
# The shape of entries, by code: the tag, whether they have children, the attributes.
SHAPES: Dict[int, Tuple[int, bool, w.Attributes]] = {
    1: (0x11, True, [(0x13, 0x0B), NAME]), 2: (0x24, False, [SIZE, (0x3E, 0x0B), NAME]),
    3: (0x13, True, [NAME, SIZE]), 4: (0x0D, False, [NAME, TYPE, WHERE]),
    5: (0x17, True, [NAME, SIZE]), 6: (0x04, True, [NAME, SIZE]),
    7: (0x28, False, [NAME, (0x1C, 0x0B)]), 8: (0x16, False, [NAME, TYPE]),
    9: (0x0F, False, [SIZE, TYPE]), 10: (0x01, True, [TYPE]),
    11: (0x21, False, [TYPE, (0x2F, 0x0B)]), 12: (0x26, False, [TYPE]),
    13: (0x2E, True, [EXTERNAL, NAME, TYPE, (0x11, 0x01)]), 14: (0x05, False, [NAME, TYPE]),
    15: (0x34, False, [NAME, TYPE, EXTERNAL]), 16: (0x13, False, [NAME, DECLARED]),
    17: (0x15, True, [TYPE]), 18: (0x16, False, [(0x03, 0x0E), TYPE]),
    19: (0x13, True, [NAME, SIZE, (0x01, 0x13)]), 20: (0x13, True, [NAME, (0x0B, 0x07)]),
    21: (0x21, False, [TYPE, (0x2F, 0x07)]),
}
END = b"\0"
INTS = ("int", 4), ("long int", 8), ("char", 1), ("unsigned int", 4)


class Reference(NamedTuple):
    """A reference to the entry with this number."""

    number: int


Value = Union[bytes, int, str, Reference]


class Entries:
    """The entries of a unit. Entries refer to each other by number; `info` fills in the offsets."""

    def __init__(self, version: int) -> None:
        self.version = version
        self.listed: List[Tuple[int, Sequence[Value]]] = []

    def add(self, code: int, *values: Value) -> int:
        """Adds an entry, and returns its number; code 0 ends a list of children."""
        self.listed.append((code, values))
        return len(self.listed) - 1

    def struct(self, name: str, size: int, *members: Tuple[str, int, int], code: int = 3) -> int:
        number = self.add(code, name, size)
        for called, held, place in members:
            self.add(4, called, Reference(held), place)
        self.add(0)
        return number

    def array(self, held: int, last: int, index: int) -> int:
        number = self.add(10, Reference(held))
        self.add(11, Reference(index), last)
        self.add(0)
        return number

    def info(self) -> bytes:
        """The bytes of the entries."""
        places, at = [], w.head_size(self.version)
        for code, values in self.listed:
            places.append(at)
            at += len(self._entry(code, values, []))
        return b"".join(self._entry(code, values, places) for code, values in self.listed) + END

    def _entry(self, code: int, values: Sequence[Value], places: List[int]) -> bytes:
        return bytes([code]) + b"".join(_value(one, places) for one in values)


def _value(one: Value, places: List[int]) -> bytes:
    if isinstance(one, Reference):
        return struct.pack("<I", places[one.number] if places else 0)
    if isinstance(one, str):
        return one.encode() + b"\0"
    return one if isinstance(one, bytes) else bytes([one])


def abbreviations() -> bytes:
    return b"".join(w.abbreviation(code, *shape) for code, shape in SHAPES.items()) + END


def entries(version: int) -> Tuple[Entries, Dict[str, int]]:
    """Nearly the types of `CODE`, and the numbers of some."""
    made = Entries(version)
    made.add(1, 12, "made.c")
    known = {name: made.add(2, size, 5 if name != "char" else 6, name) for name, size in INTS}
    known["u32"] = made.add(8, "u32", Reference(known["unsigned int"]))
    known["color"] = made.add(6, "color", 4)
    made.add(7, "RED", 0), made.add(7, "GREEN", 5), made.add(0)
    known["name"] = made.array(known["char"], 6, known["long int"])
    known["next"] = made.add(9, 8, Reference(known["name"] + 4))  # the struct that follows
    known["node"] = made.struct("node", 24, ("next", known["next"], 0), ("key", known["u32"], 8),
                                ("name", known["name"], 12), ("color", known["color"], 20))
    known["opaque"] = made.add(16, "opaque")
    known["to opaque"] = made.add(9, 8, Reference(known["opaque"]))
    known["call"] = made.add(17, Reference(known["int"]))
    made.add(14, "o", Reference(known["to opaque"])), made.add(0)
    known["to call"] = made.add(9, 8, Reference(known["call"]))
    known["c"] = made.array(known["char"], 2, known["long int"])
    known["witness"] = made.struct("witness", 40, ("a", known["int"], 0),
                                   ("b", known["long int"], 8), ("c", known["c"], 16),
                                   ("node", known["next"], 24), ("call", known["to call"], 32))
    made.add(15, "shown", Reference(known["witness"]))
    known["work"] = made.add(13, "work", Reference(known["int"]), bytes(8))
    made.add(14, "by", Reference(known["u32"])), made.add(0)
    return made, known


def dwarf(version: int, made: Entries, listed: bytes = b"", strings: bytes = b"\0text\0") -> bytes:
    """An object file with entries."""
    info = w.unit(made.info(), version)
    names = b"\0shown\0work\0"
    return w.debug(info, listed or abbreviations(), w.Section(".debug_str", strings),
                   *w.symbols([w.symbol(1, w.OBJECT), w.symbol(7, w.FUNCTION)], names, 5))


def records() -> Tuple[List[bytes], bytes]:
    """The records of a CTF dictionary, nearly those of `CODE`, and its strings."""
    names = [b"", b"int", b"char", b"node", b"next", b"key", b"witness", b"a", b"c", b"color",
             b"RED", b"GREEN", b"u32", b"both", b"opaque"]
    strings = b"\0".join(names) + b"\0"
    at = {name: strings.find(b"\0" + name + b"\0") + 1 for name in names}
    member = [w.member(at[b"next"], 3, 0), w.member(at[b"key"], 7, 64)]
    witness = [w.member(at[b"a"], 1, 0), w.member(at[b"c"], 5, 32), w.member(at[b"both"], 9, 64)]
    return [
        w.record(at[b"int"], w.INTEGER, 0, 4, w.INT),
        w.record(at[b"char"], w.INTEGER, 0, 1, struct.pack("<I", 0x03000008)),
        w.record(0, w.POINTER, 0, 4),
        w.record(at[b"node"], w.STRUCT, 2, 16, b"".join(member)),
        w.record(0, w.ARRAY, 0, 0, struct.pack("<HHI", 2, 1, 3)),
        w.record(at[b"color"], w.ENUM, 2, 4, struct.pack("<IiIi", at[b"RED"], 0, at[b"GREEN"], 5)),
        w.record(at[b"u32"], w.TYPEDEF, 0, 1),
        w.record(at[b"witness"], w.STRUCT, 3, 16, b"".join(witness)),
        w.record(0, w.POINTER, 0, 10),
        w.record(at[b"both"], w.UNION, 1, 16, w.member(at[b"key"], 4, 0)),
        w.record(at[b"opaque"], w.FORWARD, 0, w.STRUCT),
        w.record(0, w.FUNCTION_TYPE, 1, 1, struct.pack("<HH", 3, 0)),
        w.record(0, w.CONST, 0, 2),
    ], strings


OBJECTS, FUNCTIONS = struct.pack("<H", 8), struct.pack("<HHH", w.FUNCTION_TYPE << 11 | 1, 1, 3)


def with_ctf(section: bytes) -> bytes:
    """An object file with a dictionary and the two symbols of its entries."""
    table = [w.symbol(1, w.OBJECT), w.symbol(7, w.FUNCTION)]
    return w.elf([w.Section(".SUNW_ctf", section, link=2),
                  *w.symbols(table, b"\0shown\0work\0", 3)])


def btf_records() -> Tuple[List[bytes], bytes]:
    strings = b"\0int\0node\0next\0key\0witness\0u32\0color\0RED\0"
    at = {name: strings.find(b"\0" + name + b"\0") + 1
          for name in (b"int", b"node", b"next", b"key", b"witness", b"u32", b"color", b"RED")}
    return [
        w.btf_type(at[b"int"], 1, 0, 4, struct.pack("<I", 0x01000020)),
        w.btf_type(0, 2, 0, 3),
        w.btf_type(at[b"node"], 4, 2, 16, struct.pack("<6I", at[b"next"], 2, 0, at[b"key"], 4, 64)),
        w.btf_type(at[b"u32"], 8, 0, 1),
        w.btf_type(at[b"color"], 6, 1, 4, struct.pack("<II", at[b"RED"], 0)),
        w.btf_type(0, 3, 0, 0, struct.pack("<III", 1, 1, 3)),
        w.btf_type(at[b"witness"], 4, 2, 16, struct.pack("<6I", at[b"key"], 6, 0, at[b"next"], 5,
                                                         96)),
        w.btf_type(0, 13, 1, 1, struct.pack("<II", at[b"key"], 2)),
    ], strings


def archive(members: Sequence[Tuple[str, bytes]], is_thin: bool = False) -> bytes:
    """An archive as written by ar."""
    made = b"!<thin>\n" if is_thin else b"!<arch>\n"
    for name, data in members:
        made += f"{name + '/':<16}{0:<12}{0:<6}{0:<6}{644:<8}{len(data):<10}`\n".encode()
        made += b"" if is_thin else data + b"\n" * (len(data) % 2)
    return made


def compile_code(*options: str) -> bytes:
    """`CODE`, compiled by gcc; the result is always the same."""
    # gcc -gctf orders some things by their address in memory.
    still = ["setarch", "-R"] if shutil.which("setarch") else []
    with tempfile.TemporaryDirectory(dir="/tmp") as folder:
        Path(folder, "made.c").write_text(CODE)
        kind = [] if "-shared" in options else ["-c"]
        subprocess.run([*still, "gcc", "-w", *kind, f"-ffile-prefix-map={folder}=.", *options,
                        "made.c", "-o", "made.o"], cwd=folder, check=True)
        # GNU's CTF contains the folder's name.
        return Path(folder, "made.o").read_bytes().replace(folder.encode(), b"/" * len(folder))


def all_files() -> Dict[str, bytes]:
    """All sound files, by name."""
    listed, strings = records()
    ctf = w.ctf(b"".join(listed), strings, objects=OBJECTS, functions=FUNCTIONS)
    types, names = btf_records()
    btf = w.btf(b"".join(types), names)
    made = {f"dwarf{version}.o": dwarf(version, entries(version)[0]) for version in (4, 5)}
    made.update({"bare.ctf": w.ctf(b"".join(listed), strings), "ctf.o": with_ctf(ctf),
                 "bare.btf": btf, "btf.o": w.elf([w.Section(".BTF", btf)]),
                 "lib.a": archive([("one.o", made["dwarf4.o"]), ("two.o", made["dwarf5.o"])])})
    made.update({"gcc4.o": compile_code("-gdwarf-4"), "gcc5.o": compile_code("-gdwarf-5"),
                 "gcc.so": compile_code("-g", "-shared", "-fPIC"), "gnu.o": compile_code("-gctf")})
    return made
