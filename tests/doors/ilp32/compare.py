#!/usr/bin/env python3
"""Compares the structs, unions and enums of a 32-bit program with its compiler's view of them.

usage: compare.py SERVICE TWIN PROGRAM

SERVICE is a built ctfd. TWIN has debug information; PROGRAM is the same with a CTF section instead.
Prints each type that only one of the two has, or that differs in its size or members, and then
their number. A member is compared by name, first bit and number of bits. The status is 1 if a type
differs, or if none differs even when pointers are assumed to have 8 bytes.
"""
import sys
from collections import Counter
from pathlib import Path
from typing import Set

sys.path.insert(0, str(Path(__file__).resolve().parents[3] / "clients/python"))

import ctfd  # noqa: E402
from ctfd.text import printable  # noqa: E402

from dwarf import ENUMERATOR, KINDS, Description, Dwarf, Part  # noqa: E402

MOST = 40


def descriptions(types: ctfd.Dictionary) -> Set[Description]:
    """All structs, unions and enums of a dictionary."""
    own = types.types()
    types.gather([t.number for t in own])
    return {_description(t) for t in own if t.kind in KINDS.values()}


def _description(t: ctfd.Type) -> Description:
    """The description of a struct, union or enum."""
    if t.kind == "enum":
        parts = [Part(printable(name), value & ENUMERATOR, None) for name, value in t.enumerators]
    else:
        parts = [_member(member) for member in t.members]
    return Description(t.kind, printable(t.name), t.size, tuple(parts))


def _member(member: ctfd.Member) -> Part:
    """The description of a member; the offset of a bit-field includes that of its type."""
    lies, size, name = member.type.bit_field, member.type.size, printable(member.name)
    if lies is not None:
        return Part(name, member.offset + lies.offset, lies.bits)
    return Part(name, member.offset, None if size is None else 8 * size)


def differing(known: Set[Description], told: Set[Description]) -> int:
    """Prints what only one of the two has, and returns the number of differences."""
    lines = [f"gcc      {t}" for t in known - told]
    lines += [f"service  {t}" for t in told - known]
    for line in sorted(lines, key=lambda line: line.split(None, 1)[1])[:MOST]:
        print(line)
    if len(lines) > MOST:
        print(f"... and {len(lines) - MOST} more")
    return len(lines)


def main(service: str, twin: str, program: str) -> int:
    known, left_out = Dwarf(twin).descriptions()
    with ctfd.Client(service) as client:
        types = ctfd.open_file(client.session(), program)
        model, told = types.model, descriptions(types)
        wrongly = descriptions(ctfd.open_file(client.session(), program, model="lp64"))
    differs = differing(known, told)
    kinds = Counter(t.kind for t in known)
    counted = ", ".join(f"{kinds[kind]} {kind}s" for kind in KINDS.values())
    members = sum(len(t.parts) for t in known if t.kind != "enum")
    print(f"{model}: {counted}, {members} members; {left_out} left out")
    print(f"{len(known & told)} of {len(known)} as gcc has them, {len(known & wrongly)} with"
          " pointers of 8 bytes")
    return 1 if differs or known == wrongly or model != "ilp32" else 0


if __name__ == "__main__":
    sys.exit(main(*sys.argv[1:]))
