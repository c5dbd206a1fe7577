#!/usr/bin/env python3
"""Files that take long to read, or much memory, for their size. Each function takes a size."""
import os
import resource
import struct
import subprocess
import sys
import tempfile
from dataclasses import dataclass
from pathlib import Path
from typing import Callable

TOP = Path(__file__).resolve().parents[1]
sys.path.insert(0, str(TOP / "tests"))

from doors import writers as w  # noqa: E402

TOOLS = Path(os.environ.get("CTFD_TOOLS", TOP / "clients/python"))
# The folder of the compiled commands.
COMPILED = Path(os.environ.get("CARGO_TARGET_DIR") or TOP / "clients/rust/target") / "release"
MOST_SECONDS = 5
BASE_OF_INT = w.abbreviation(3, 0x24, False, [(0x0B, 0x0B), (0x3E, 0x0B), (0x03, 0x08)])
UNIT_OF_C = w.abbreviation(1, 0x11, True, [(0x13, 0x0B)])
TOP = b"\1\x0c"
AN_INT = b"\3\4\5int\0"
NAME, TYPE = (0x03, 0x08), (0x49, 0x13)


def chained_typedefs(count):
    """Typedefs in DWARF, each of the next one."""
    listed = UNIT_OF_C + w.abbreviation(2, 0x16, False, [NAME, TYPE]) + BASE_OF_INT + b"\0"
    first = w.head_size(4) + len(TOP)
    entries = b"".join(b"\2t\0" + struct.pack("<I", first + 7 * (n + 1)) for n in range(count))
    return w.debug(w.unit(TOP + entries + AN_INT + b"\0"), listed)


def chained_typedefs_of_btf(count):
    types = b"".join(w.btf_type(1, 8, 0, n + 2) for n in range(count))
    return w.btf(types + w.btf_type(3, 1, 0, 4, struct.pack("<I", 0x01000020)), b"\0t\0int\0")


def symbols_of_one_name(count, length=8_000_000):
    """Symbols of a program with CTF that all have the same long name."""
    types = w.record(1, w.INTEGER, 0, 4, w.INT)
    made = w.ctf(types, b"\0int\0", objects=struct.pack("<H", 1) * count)
    return _with_symbols(w.Section(".SUNW_ctf", made, link=2), count, length)


def debug_with_symbols_of_one_name(count, length=8_000_000):
    listed = UNIT_OF_C + w.abbreviation(2, 0x34, False, [NAME, TYPE, (0x3F, 0x19)]) \
        + BASE_OF_INT + b"\0"
    at = w.head_size(4) + len(TOP) + 7
    info = w.unit(TOP + b"\2x\0" + struct.pack("<I", at) + AN_INT + b"\0")
    return _with_symbols(w.Section(".debug_info", info), count, length,
                         w.Section(".debug_abbrev", listed))


def _with_symbols(section, count, length, *more):
    table = (w.symbol(1, w.OBJECT, 1, 4 * n) for n in range(count))
    return w.elf([section, *w.symbols(table, b"\0" + b"n" * length + b"\0", 3), *more])


def unended_labels(count, length=4_000_000):
    """Labels that begin like those of `ctfd-convert`, with names that have no end."""
    types = w.record(1, w.INTEGER, 0, 4, w.INT)
    text = b"\0int\0" + b"ctfd.symbols=" + b"x" * length
    labels = b"".join(struct.pack("<II", 5 + n % 2 * 0, 1) for n in range(count))
    return w.ctf(types, text, labels)


def ended_labels(count, length=4_000):
    """Labels that all have the same name of 4,000 bytes."""
    types = w.record(1, w.INTEGER, 0, 4, w.INT)
    text = b"\0int\0" + b"ctfd.symbol_" + b"x" * length + b"\0"
    return w.ctf(types, text, struct.pack("<II", 5, 1) * count)


def doubled_structs(count):
    """Structs that each contain the previous one twice."""
    types = [w.record(1, w.INTEGER, 0, 4, w.INT)]
    for n in range(count):
        members = w.member(5, n + 1, 0) + w.member(7, n + 1, 0)
        types.append(w.record(9, w.STRUCT, 2, 8, members))
    return w.ctf(b"".join(types), b"\0int\0a\0b\0s\0")


def doubled_unnamed(count):
    """Structs without names, except for the last, that each contain the previous one twice."""
    types = [w.record(1, w.INTEGER, 0, 4, w.INT)]
    for n in range(count):
        members = w.member(5, n + 1, 0) + w.member(7, n + 1, 0)
        types.append(w.record(0 if n < count - 1 else 9, w.STRUCT, 2, 8, members))
    return w.ctf(b"".join(types), b"\0int\0a\0b\0s\0")


def overlapping_abbreviations(count):
    """Units whose abbreviations each begin within those of the previous unit."""
    one = w.abbreviation(1, 0x11, False, [(0x13, 0x0B)])
    places = [n * len(one) for n in range(count)]
    info = b"".join(w.unit(TOP, abbreviations=place) for place in places)
    return w.debug(info, one * count + b"\0")


def entries_of_one_byte(count):
    """A program whose tables say that their entries have one byte."""
    types = w.record(1, w.INTEGER, 0, 4, w.INT)
    made = w.Section(".SUNW_ctf", w.ctf(types, b"\0int\0"), link=2)
    table = w.symbols((w.symbol(1, w.OBJECT, 1, 4 * n) for n in range(count)), b"\0n\0", 3)
    return w.elf([made, *[one._replace(entry_size=1) for one in table],
                  w.Section(".dynsym", table[0].data, w.DYNSYM, 3, entry_size=1)])


CONVERT = ("convert", "{}", "{}.ctf")
HOLDERS = ("types", "--no-cache", "{}", "--contains", "int", "--recursive")
USERS = ("types", "--no-cache", "{}", "--uses", "int", "--recursive")


def tool(name):
    """The path of the command `ctfd-NAME`."""
    own = TOOLS / f"ctfd-{name}"
    return own if own.exists() else COMPILED / own.name


@dataclass(frozen=True)
class FileCase:
    """A file of a size, and the command that reads it: its name without `ctfd-`, and its
    arguments."""

    name: str
    size: int
    make: Callable
    command: tuple = CONVERT

    def seconds(self, program, size):
        """The processor time of the command for a file of this size. The command may refuse the
        file."""
        with tempfile.TemporaryDirectory() as folder:
            path = os.path.join(folder, "file")
            Path(path).write_bytes(self.make(size))
            words = [word.replace("{}", path) for word in self.command[1:]]
            done = subprocess.Popen([tool(self.command[0]), *words],
                                    env={**os.environ, "CTFD": program, "CTFD_LIBRARY": ""},
                                    stdout=subprocess.DEVNULL, stderr=subprocess.DEVNULL,
                                    preexec_fn=_set_limits)
            _, status, used = os.wait4(done.pid, 0)
        if os.WIFSIGNALED(status):
            return float("inf")
        return used.ru_utime + used.ru_stime


def _set_limits():
    resource.setrlimit(resource.RLIMIT_CPU, (4 * MOST_SECONDS, 4 * MOST_SECONDS))


FILES = [
    FileCase("convert: 40,000 typedefs in a chain, DWARF", 40_000, chained_typedefs),
    FileCase("convert: the same, BTF", 40_000, chained_typedefs_of_btf),
    FileCase("convert: 200,000 symbols of one name of 8 MB", 200_000,
             debug_with_symbols_of_one_name),
    FileCase("diff: 100,000 symbols of one name of 8 MB", 100_000, symbols_of_one_name,
             ("diff", "--no-cache", "--all", "{}", "{}")),
    FileCase("convert: 200,000 labels of a text without an end", 200_000, unended_labels),
    FileCase("convert: the same, of a text of 4,000 bytes", 200_000, ended_labels),
    FileCase("types: who holds, 30 structs of two each", 30, doubled_structs, HOLDERS),
    FileCase("types: who points, 400 structs of two each", 400, doubled_structs, USERS),
    FileCase("convert: 20,000 units in one abbreviation table", 20_000,
             overlapping_abbreviations),
    FileCase("types: tables whose entries say one byte", 2_000, entries_of_one_byte, HOLDERS),
]
