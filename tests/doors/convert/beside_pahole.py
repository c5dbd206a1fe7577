#!/usr/bin/env python3
"""Compares all structs and unions of programs, as ctfd-convert converts them, with pahole's view.

usage: beside_pahole.py SERVICE FILE...

SERVICE is a built ctfd. A FILE is an ELF file with debug information, in the file or in the debug
file of its package, or BTF by itself, such as /sys/kernel/btf/vmlinux. For each struct and union
that pahole lists, these are compared: its size; the name, offset and size of each member; and the
number of unused bits between and after its members. If several types have a name, one must be
equal.

Prints each difference, with both views; then, for each file, the number of compared types, and the
processor time and memory of ctfd-convert. The status is 1 if there is a difference.

After a bit-field, all unused bits are counted as bits, whether or not they fill bytes. pahole takes
all bits up to the end of the bit-field's declared type for bits of its unit, the client takes whole
bytes for bytes: C says that "an implementation may allocate any addressable storage unit large
enough to hold a bit-field" (C11, 6.7.2.1), and gcc and clang put a char into those bytes.
"""
from __future__ import annotations

import os
import re
import subprocess
import sys
import tempfile
from collections import defaultdict
from pathlib import Path
from typing import Dict, List, NamedTuple, Tuple

import headers  # noqa: E402  it knows where the client is

import ctfd
from command import COMMAND

MOST = 20
MAGIC = b"\x7fELF"
DEBUG = "/usr/lib/debug/.build-id"
ERROR = "<ERROR("
TOO_MANY = "that a dictionary holds"
_BLOCK = re.compile(r"^(struct|union|class) (\w+)(?: : [^{\n]*)? \{\n(.*?)^\};?", re.MULTILINE | re.DOTALL)
# A type declared inside a struct. pahole lists it again in front of its member, as clang records
# it; this second listing has no offsets.
_INNER = re.compile(r"^(\t+)(?:struct|union)(?: \w+)? \{\n(?:\1\t.*\n|\n)*\1\};\n", re.MULTILINE)
# The notes under a struct, in bytes or bits, with the number of bits per unit.
_NOTES = {
    "holes": ((re.compile(r"[ ,] holes: \d+, sum holes: (\d+)"), 8),
              (re.compile(r"bit holes: \d+, sum bit holes: (\d+)"), 1)),
    "padding": ((re.compile(r"^\t/\* padding: (\d+)", re.MULTILINE), 8),
                (re.compile(r"^\t/\* bit_padding: (\d+)", re.MULTILINE), 1)),
}


class Struct(NamedTuple):
    """A struct in a listing: its members, and the numbers of unused bits between and after them."""

    places: Tuple[headers.Place, ...]
    holes: int
    padding: int
    has_error: bool


Listed = Dict[str, List[Struct]]


class Figures(NamedTuple):
    """The cost of one run of ctfd-convert, and what it lost."""

    seconds: float
    megabytes: int
    losses: List[str]


def parse(text: str) -> Listed:
    """The structs and unions of a listing, by name."""
    found: Listed = defaultdict(list)
    for block in _BLOCK.finditer(text):
        name = f"{'union' if block[1] == 'union' else 'struct'} {block[2]}"
        own = _INNER.sub("", block[3])
        places = headers.parse(f"{name} {{\n{own}}}\n").get(name, ())
        found[name].append(Struct(places, _bits("holes", own), _bits("padding", own),
                                  ERROR in own))
    return found


def _bits(what: str, block: str) -> int:
    """The number of bits in the notes under a struct; notes of nested structs come before."""
    return sum(bits * int(found[-1]) for pattern, bits in _NOTES[what]
               for found in [pattern.findall(block)] if found)


def convert(path: str, made: str, *options: str) -> Figures:
    """Runs ctfd-convert, and returns its cost."""
    words = [str(COMMAND), *options, path, made]
    with tempfile.TemporaryFile("w+") as told:
        child = subprocess.Popen(words, stderr=told)
        _, status, used = os.wait4(child.pid, 0)
        told.seek(0)
        lines = told.read().splitlines()
    if os.WEXITSTATUS(status) not in (0, 1):
        sys.exit("\n".join(lines))
    return Figures(used.ru_utime + used.ru_stime, used.ru_maxrss // 1024, lines)


def client_listing(service: str, made: str, parent: str) -> Listed:
    """The client's listing of all named structs and unions, also those of a parent."""
    with ctfd.Client(service) as client:
        session = client.session()
        types = ctfd.open_file(session, made)
        own = types.types()
        if types.is_child:
            types.import_parent(ctfd.open_file(session, parent))
            assert types.parent
            own += types.parent.types()
        found = [t for t in own if t.kind in ("struct", "union") and t.name]
        types.gather([t.number for t in found])
        return parse("\n".join(ctfd.listing(t) for t in found))


def pahole_listing(path: str) -> Listed:
    """pahole's listing."""
    form = ["-F", "btf"]
    if Path(path).read_bytes()[:4] == MAGIC:
        path, form = with_debug(path), ["-F", "dwarf"]
    done = subprocess.run(["pahole", *form, path], capture_output=True, text=True,
                          errors="replace")
    return parse(re.sub(r"\bclass \{", "struct {", done.stdout))  # a C++ class without a name


def with_debug(path: str) -> str:
    """The file with a program's debug information: the program itself, or its package's debug
    file."""
    sections = subprocess.run(["readelf", "-SWn", path], capture_output=True, text=True).stdout
    found = re.search(r"Build ID: (\w\w)(\w+)", sections)
    debug = Path(DEBUG, found[1], f"{found[2]}.debug") if found else Path(DEBUG)
    return path if ".debug_info" in sections or not debug.is_file() else str(debug)


def compare(service: str, path: str) -> int:
    """The number of differences in one file."""
    with tempfile.TemporaryDirectory() as folder:
        made, parent = str(Path(folder) / "made.ctf"), str(Path(folder) / "parent.ctf")
        figures = convert(path, made, "--one")
        if any(TOO_MANY in line for line in figures.losses):
            figures = convert(path, made, "--split", parent)
        ours = client_listing(service, made, parent)
    count = wrong = unknown = 0
    for name, all_of_name in pahole_listing(path).items():
        for one in all_of_name:
            count += 1
            if one in ours.get(name, []):
                continue
            if any(_is_unknown(one, own) for own in ours.get(name, [])):
                unknown += 1
                continue
            wrong += 1
            tell(wrong, name, one, ours.get(name, []))
    print(f"{path}: {count} structs and unions of pahole's view, {wrong} otherwise, {unknown} with"
          f" members that pahole can't read; {figures.seconds:.1f} s, {figures.megabytes} MB,"
          f" {len(figures.losses)} lines on what CTF cannot represent")
    return wrong + (not count)


def _is_unknown(theirs: Struct, ours: Struct) -> bool:
    """Whether two differ only in members that pahole leaves out with an error, or gives no bytes:
    those of _Atomic types, which it does not know."""
    if theirs.has_error:
        return set(theirs.places) <= set(ours.places)
    return len(theirs.places) == len(ours.places) and all(
        one == own or one._replace(size=own.size) == own and not one.size
        for one, own in zip(theirs.places, ours.places))


def tell(number: int, name: str, theirs: Struct, ours: List[Struct]) -> None:
    if number <= MOST:
        print(name, f"  pahole {theirs}", *(f"  ctfd   {one}" for one in ours or ["none"]),
              sep="\n")


def main(service: str, *paths: str) -> int:
    wrong = sum([compare(service, path) for path in paths])
    return 1 if wrong or not paths else 0


if __name__ == "__main__":
    sys.exit(main(*sys.argv[1:]))
