#!/usr/bin/env python3
"""Compares the structs and unions of the C library's and the kernel's headers with pahole's view.

usage: headers.py SERVICE [COUNT]

SERVICE is a built ctfd. The headers of Debian's libc6-dev and linux-libc-dev, or the first COUNT of
them, are compiled with debug information, as many in one unit as compile together, and linked into
one object file. ctfd-convert converts its types. Each struct and union is then listed by the
client, and by pahole from the debug information, and the name, offset and size of each member are
compared. Prints the differences, then their number; the status is 1 if there is one.
"""
from __future__ import annotations

import re
import subprocess
import sys
import tempfile
import time
from pathlib import Path
from typing import Dict, Iterator, List, NamedTuple, Tuple

HERE = Path(__file__).resolve().parent
sys.path.insert(0, str(HERE.parents[2] / "clients/python"))

import ctfd  # noqa: E402
from command import convert  # noqa: E402

PACKAGES = ("libc6-dev", "linux-libc-dev")
BATCH = 24
MOST = 40
OPTIONS = ("-g", "-w", "-c", "-D_GNU_SOURCE", "-fno-eliminate-unused-debug-types")

_BEGINS = re.compile(r"(struct|union) (\w+) \{")
_PLACED = re.compile(r"(?P<text>.*?);\s*/\*\s*(?P<byte>\d+)(?:: ?(?P<bit>\d+))?\s+"
                     r"(?P<size>\d+) \*/")
_NAME = re.compile(r"\(\s*\*+\s*(?:const |volatile )*(\w+)|(\w+)\s*(?:\[[^]]*\]|:\d+)*\s*\Z")
_ATTRIBUTE = re.compile(r"\s*__attribute__\(\(\w+(?:\(\d*\))?\)\)")
_SIZE = re.compile(r"\t/\* size: (\d+)")


class Place(NamedTuple):
    """The position of a member in both listings: its byte, its bit in the storage unit, and its
    size in bytes."""

    name: str
    byte: int
    bit: int
    size: int


Listed = Dict[str, Tuple[Place, ...]]


def headers() -> List[str]:
    """The headers of the packages, as they are included."""
    told = subprocess.run(["dpkg", "-L", *PACKAGES], capture_output=True, text=True).stdout
    found = re.findall(r"^/usr/include/(?:x86_64-linux-gnu/)?(\S+\.h)$", told, re.MULTILINE)
    return sorted(name for name in dict.fromkeys(found) if not name.startswith(("bits/", "c++/")))


def compile_headers(names: List[str], folder: Path) -> Iterator[Path]:
    """Object files with as many of some headers as compile."""
    text = "".join(f"#include <{name}>\n" for name in names)
    made = folder / f"{abs(hash(tuple(names)))}.o"
    done = subprocess.run(["gcc", *OPTIONS, "-x", "c", "-", "-o", str(made)], input=text, text=True,
                          capture_output=True)
    if done.returncode == 0:
        yield made
    elif len(names) > 1:
        yield from compile_headers(names[:len(names) // 2], folder)
        yield from compile_headers(names[len(names) // 2:], folder)


def parse(text: str) -> Listed:
    """The structs and unions of a listing, with all their members."""
    found: Listed = {}
    name = ""
    places: List[Place] = []
    for line in text.splitlines():
        begins = _BEGINS.match(line)
        if begins:
            name, places = f"{begins[1]} {begins[2]}", []
        elif line.startswith("}") and name:
            found.setdefault(name, tuple(places))
            name = ""
        elif name:
            placed = _PLACED.search(line)
            if placed:
                called = _NAME.search(_ATTRIBUTE.sub("", placed["text"]).rstrip())
                places.append(Place((called[1] or called[2]) if called else "",
                                    int(placed["byte"]), int(placed["bit"] or 0),
                                    int(placed["size"])))
            elif _SIZE.match(line):  # not that of a nested struct
                places.append(Place("size", int(_SIZE.findall(line)[0]), 0, 0))
    return found


def client_listing(service: str, path: Path, folder: Path) -> Listed:
    """The client's listing of the structs and unions that can be found by name."""
    made = folder / "all.ctf"
    began = time.monotonic()
    for line in convert(str(path), str(made)):
        print(f"told: {line}")
    print(f"converted in {time.monotonic() - began:.1f} s")
    with ctfd.Client(service) as client:
        types = ctfd.open_file(client.session(), str(made))
        own = types.types()
        types.gather([t.number for t in own])
        return parse("\n".join(ctfd.listing(t) for t in own
                               if t.kind in ("struct", "union") and t.name and t.is_root))


def main(service: str, count: str = "100000") -> int:
    names = headers()[:int(count)]
    with tempfile.TemporaryDirectory() as place:
        folder = Path(place)
        made = [one for start in range(0, len(names), BATCH)
                for one in compile_headers(names[start:start + BATCH], folder)]
        whole = folder / "all.o"
        subprocess.run(["ld", "-r", "-o", str(whole), *map(str, made)], check=True)
        ours = client_listing(service, whole, folder)
        shown = subprocess.run(["pahole", str(whole)], capture_output=True, text=True)
    theirs = parse(shown.stdout)
    wrong = [name for name in theirs if ours.get(name) != theirs[name]]
    for name in wrong[:MOST]:
        print(f"{name}\n  pahole {theirs[name]}\n  ctfd   {ours.get(name)}")
    members = sum(map(len, theirs.values()))
    print(f"{len(names)} headers in {len(made)} units: {len(theirs)} structs and unions of pahole's"
          f" view, {members} places in them, {len(ours)} of ours; {len(wrong)} wrong")
    return 1 if wrong or not theirs else 0


if __name__ == "__main__":
    sys.exit(main(*sys.argv[1:]))
