#!/usr/bin/env python3
"""Compares the compiled ctfd-convert with an independent reader: the text of llvm-dwarfdump.

usage: tests/doors/reader/independent.py [PROGRAM..]

For each named struct, class and union that a program's debug information defines, the dictionary
must have a type of this name with the same size, the same names, offsets and widths of data
members, and the same offsets of bases; and each such type of the dictionary must be defined so. The
command itself also compares its output with the units (--verify). Without programs some are
compiled: C, C++ by gcc and clang, and Rust. Needs llvm-dwarfdump and the compiled commands.
"""
from __future__ import annotations

import re
import shutil
import struct
import subprocess
import sys
import tempfile
from dataclasses import dataclass, field
from pathlib import Path
from typing import Iterator, Optional, Sequence

TOP = Path(__file__).resolve().parents[3]
sys.path[:0] = [str(TOP / "scripts"), str(TOP / "tests")]
import rust  # noqa: E402
from doors.reader.type_sets import INTEGER, STRUCT, UNION, Type, types  # noqa: E402

HERE = Path(__file__).parent
ENTRY = re.compile(r"(0x[0-9a-f]+):( +)(DW_TAG_\w+|NULL)")
ATTRIBUTE = re.compile(r"\s+DW_AT_(\w+)\t\((.*)\)$")
CLASSES = {"DW_TAG_structure_type": STRUCT, "DW_TAG_class_type": STRUCT, "DW_TAG_union_type": UNION}
SCOPES = (*CLASSES, "DW_TAG_namespace")
SCOPED = re.compile(r"DW_LANG_(C_plus_plus|Rust)")
READ = re.compile(r"DW_LANG_(C_plus_plus\w*|Rust|C\d*|C\d\d)$")
MOST_MEMBERS = 1023
TYPEDEF, QUALIFIERS = 10, (11, 12, 13)
CHILD = 0x8000
ARCHIVE = b"!<arch>\n"
LISTED = 10
IN_PARTS = b"more than one dictionary holds"
# Rust types with one value or none, which debug information describes as integers of no bytes.
NO_STRUCTS = (b"()", b"!")

Member = tuple[str, int, Optional[int]]
Shape = tuple[int, str, int, tuple[Member, ...]]


@dataclass
class Entry:
    """An entry of the text, with its children that describe its layout."""

    place: str
    tag: str
    depth: int
    said: dict[str, str] = field(default_factory=dict)
    name: str = ""
    parts: list[Entry] = field(default_factory=list)


def entries(program: Path) -> Iterator[Entry]:
    """The entries of a program's text, each when its text is complete."""
    with subprocess.Popen(["llvm-dwarfdump", "--debug-info", "--debug-types", str(program)],
                          stdout=subprocess.PIPE, text=True, errors="surrogateescape") as process:
        assert process.stdout
        last: Optional[Entry] = None
        for line in process.stdout:
            if begin := ENTRY.match(line):
                if last:
                    yield last
                last = Entry(begin[1], begin[3], len(begin[2]))
            elif last and (told := ATTRIBUTE.match(line)):
                last.said[told[1]] = told[2]
        if last:
            yield last


def quote(text: str) -> str:
    begin, end = text.find('"'), text.rfind('"')
    return text[begin + 1:end].replace('\\"', '"').replace("\\\\", "\\") if begin >= 0 else ""


def number(text: Optional[str]) -> int:
    return int(text, 0) if text and re.fullmatch(r"-?(0x)?[0-9a-f]+", text) else 0


def scope_of(above: list[Entry]) -> str:
    """The name of the innermost named namespace or class, or ""."""
    for one in reversed(above):
        if one.tag not in SCOPES:
            return ""
        if one.name:
            return one.name
    return ""


def shapes(program: Path) -> Iterator[Shape]:
    """The definitions in a program's debug information."""
    above: list[Entry] = []
    full_names: dict[str, str] = {}
    is_scoped = is_read = False
    for one in entries(program):
        while above and above[-1].depth >= one.depth:
            if is_read and (shape := shape_of(above.pop())):
                yield shape
            elif not is_read:
                above.pop()
        if one.tag.endswith("_unit"):
            language = one.said.get("language", "DW_LANG_C")
            is_scoped, is_read = bool(SCOPED.match(language)), bool(READ.match(language))
        one.name = quote(one.said.get("name", ""))
        if is_scoped and one.tag in SCOPES:
            outer = scope_of(above)
            if declared := re.match(r"0x[0-9a-f]+", one.said.get("specification", "")):
                one.name = full_names.get(declared[0]) or one.name
            elif one.tag == "DW_TAG_namespace" and not one.name:
                one.name = "(anonymous namespace)"
            if outer and one.name and "specification" not in one.said:
                one.name = f"{outer}::{one.name}"
            full_names[one.place] = one.name
        if above:
            above[-1].parts.append(one)
        above.append(one)
    while above:
        if (shape := shape_of(above.pop())) and is_read:
            yield shape


def shape_of(entry: Entry) -> Optional[Shape]:
    """The shape of a definition, or None if the entry is not a named one."""
    parts, entry.parts = entry.parts, []
    if entry.tag not in CLASSES or not entry.name or {"declaration", "signature"} & {*entry.said}:
        return None
    members = []
    for part in parts:
        if part.tag == "DW_TAG_inheritance" and "virtuality" not in part.said:
            members.append(("", 8 * number(part.said.get("data_member_location")), None))
        if part.tag != "DW_TAG_member" or {"external", "declaration"} & {*part.said}:
            continue
        bits = part.said.get("bit_size")
        place = 8 * number(part.said.get("data_member_location"))
        place += number(part.said.get("data_bit_offset"))
        if bits and "bit_offset" in part.said:
            place = -1  # offset given by storage unit: DWARF before version 4
        members.append((quote(part.said.get("name", "")), place, number(bits) if bits else None))
    if len(members) > MOST_MEMBERS:
        return None
    return CLASSES[entry.tag], entry.name, number(entry.said.get("byte_size")), tuple(members)


def width(parents: list[Type], own: list[Type], of: int) -> Optional[int]:
    """The width of an integer behind typedefs and qualifiers, or None."""
    while of:
        one = own[of - CHILD - 1] if parents and of > CHILD else (parents or own)[of - 1]
        kind, said = one.said[0], one.said[4]  # type: ignore[index]
        if kind == INTEGER:
            return struct.unpack("<H", said[1][:2])[0]
        if kind != TYPEDEF and kind not in QUALIFIERS:
            break
        of = one.named[0]
    return None


def shapes_of(ctf: bytes) -> dict[tuple[int, str], list[Shape]]:
    """The structs and unions of a dictionary, by name."""
    made: dict[tuple[int, str], list[Shape]] = {}
    parents: list[Type] = []
    for part in parts(ctf):
        own = list(types(part))
        for one in own:
            kind, _, _, name, said = one.said  # type: ignore[misc]
            if kind not in (STRUCT, UNION) or not name or name in NO_STRUCTS:
                continue
            members = []
            for (member, place), of in zip(said[1], one.named):
                offset = place[0] << 32 | place[1] if len(place) > 1 else place[0]
                bits = width(parents, own, of)
                members.append((member.decode("utf-8", "surrogateescape"), offset, bits))
            if said[0] > MOST_MEMBERS and not any(one[0] for one in members):
                continue  # too many members, which are in unnamed ones
            key = (kind, name.decode("utf-8", "surrogateescape"))
            made.setdefault(key, []).append((*key, said[0], tuple(members)))
        parents = parents or own
    return made


def parts(ctf: bytes) -> Iterator[bytes]:
    """A dictionary, or the parent and the children in an archive."""
    at = len(ARCHIVE)
    if not ctf.startswith(ARCHIVE):
        yield ctf
    while ctf.startswith(ARCHIVE) and at < len(ctf):
        length = int(ctf[at + 48:at + 58])
        at += 60
        yield ctf[at:at + length]
        at += length + length % 2


def is_told(defined: Shape, shape: Shape) -> bool:
    """Whether a type of the dictionary matches a definition."""
    if defined[2] != shape[2] or len(defined[3]) != len(shape[3]):
        return False
    for (name, place, bits), (own, offset, own_bits) in zip(defined[3], shape[3]):
        if name and name != own or place not in (-1, offset):
            return False
        if bits is not None and own_bits is not None and bits != own_bits:
            return False
    return True


def judge(program: Path) -> tuple[int, int, list[str]]:
    """The numbers of compared definitions and members, and the differences."""
    command = [str(rust.folder() / "ctfd-convert"), str(program), "-", "--from", "dwarf", "--lossy"]
    done = subprocess.run([*command, "--verify"], capture_output=True)
    if done.returncode and IN_PARTS in done.stderr:
        done = subprocess.run(command, capture_output=True)
    if done.returncode:
        return 0, 0, [f"it is not converted: {done.stderr.decode(errors='replace').strip()}"]
    known = shapes_of(done.stdout)
    wanted = set(shapes(program))
    wrong = []
    met: set[int] = set()
    for shape in wanted:
        same = [one for one in known.get(shape[:2], []) if is_told(shape, one)]
        met.update(map(id, same))
        if not same:
            wrong.append(f"defined, and not told: {shape}")
    for listed in known.values():
        wrong += [f"told, and not defined: {one}" for one in listed if id(one) not in met]
    return len(wanted), sum(len(shape[3]) for shape in wanted), wrong


def compile_programs(folder: Path) -> Iterator[Path]:
    """Programs in C, C++ and Rust."""
    for name, command in {
            "c": f"gcc -g {HERE / 'types.c'}", "old": f"gcc -gdwarf-3 {HERE / 'types.c'}",
            "gcc": f"g++ -g {HERE / 'classes.cc'}", "clang": f"clang++ -g {HERE / 'classes.cc'}",
            "units": f"g++ -g -fdebug-types-section {HERE / 'classes.cc'}",
            "four": f"g++ -gdwarf-4 {HERE / 'classes.cc'}",
            "rust": f"rustc -g {HERE / 'shapes.rs'}"}.items():
        words = [*command.split(), "-o", str(folder / name)]
        words += [] if "rustc" in command else ["-w"]
        if not shutil.which(words[0]):
            print(f"not possible here: there is no {words[0]}")
        elif subprocess.run(words, capture_output=True).returncode == 0:
            yield folder / name
        else:
            print(f"not possible here: {command} fails")


def main(words: Sequence[str] = ()) -> int:
    if not (rust.folder() / "ctfd-convert").exists() or not shutil.which("llvm-dwarfdump"):
        print("not possible here: there is no llvm-dwarfdump, or the compiled commands are not built")
        return 0
    failed = 0
    with tempfile.TemporaryDirectory() as folder:
        for program in [Path(word) for word in words] or compile_programs(Path(folder)):
            definitions, members, wrong = judge(program)
            print(f"independent: {program.name}: {definitions} definitions with {members} members,"
                  f" {len(wrong)} differ")
            for line in wrong[:LISTED]:
                print(f"  {line[:300]}")
            failed += len(wrong) + (definitions == 0)
    return 1 if failed else 0


if __name__ == "__main__":
    sys.exit(main(sys.argv[1:]))
