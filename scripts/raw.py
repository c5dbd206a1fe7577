#!/usr/bin/env python3
"""Writes the Rust declarations of the library's calls, clients/rust/ctfd/src/raw.rs, from ctfd.h.

usage: scripts/raw.py [--check]

With --check nothing is written, and the status is 1 if the file differs. Rows become public structs
with the header's comments on them and their fields; other structs are private to the crate.
"""
from __future__ import annotations

import re
import sys
from pathlib import Path
from typing import Iterator, List, NamedTuple, Tuple

TOP = Path(__file__).resolve().parents[1]
HEADER = TOP / "clients" / "c" / "ctfd.h"
MADE = TOP / "clients" / "rust" / "ctfd" / "src" / "raw.rs"
WIDTH = 100

NUMBERS = {"uint8_t": "u8", "uint16_t": "u16", "uint32_t": "u32", "uint64_t": "u64",
           "int32_t": "i32", "size_t": "usize", "bool": "bool", "void": "u8", "char": "u8"}
HANDLES = ("ctfd", "ctfd_service")
# A word that Rust reserves.
RENAMED = {"type": "tnum"}

_COMMENT = r"(?:/\*(?P<said>(?:[^*]|\*(?!/))*)\*/\s*)?"
_STRUCT = re.compile(_COMMENT + r"struct (?P<name>ctfd_\w+) \{(?P<fields>[^}]*)\};")
_FIELD = re.compile(r"(\w+) (\w+);(?:\s*/\*\s*((?:[^*]|\*(?!/))*?)\s*\*/)?")
_CALL = re.compile(r"^(enum ctfd_status|void) (ctfd_\w+)\(([^)]*)\);", re.MULTILINE)
_TAKEN = re.compile(r"(const )?(?:struct )?(\w+) (\*?)(\w+)\Z")

FRONT = """//! The calls of libctfd.a, as clients/c/ctfd.h declares them. scripts/raw.py writes this file.
#![allow(dead_code)] // the crate does not use all of them

use std::os::raw::c_void;

/// A handle: `struct ctfd`, or `struct ctfd_service`.
#[repr(C)]
pub struct Handle {
    pub full: bool,
    pub at: *mut c_void,
}

impl Handle {
    /// The initial value of each handle.
    pub const NONE: Handle = Handle { full: false, at: std::ptr::null_mut() };
}
"""


class Struct(NamedTuple):
    """A struct of the header. A field has a type, a name and its comment."""

    name: str
    said: str
    fields: List[Tuple[str, str, str]]

    @property
    def is_row(self) -> bool:
        return self.name.endswith("_row")


def structs(header: str) -> Iterator[Struct]:
    for found in _STRUCT.finditer(header):
        if found["name"] not in HANDLES:
            said = " ".join(re.sub(r"^ \*", "", found["said"] or "", flags=re.MULTILINE).split())
            fields = [(kind, name, " ".join((told or "").split()))
                      for kind, name, told in _FIELD.findall(found["fields"])]
            yield Struct(found["name"], said, fields)


def rust_name(name: str) -> str:
    """The Rust name of a struct: `ctfd_member_row` is `MemberRow`."""
    return "".join(part.capitalize() for part in name.split("_")[1:])


def documentation(said: str, indent: str = "") -> Iterator[str]:
    """Lines of a doc comment."""
    line = ""
    for word in said.split():
        if line and len(indent) + 4 + len(line) + 1 + len(word) > WIDTH:
            yield f"{indent}/// {line}"
            line = ""
        line = f"{line} {word}".strip()
    if line:
        yield f"{indent}/// {line}"


def declaration(struct: Struct) -> Iterator[str]:
    """A struct in Rust."""
    yield ""
    if struct.is_row:
        yield from documentation(struct.said)
    yield "#[repr(C)]"
    derived = "Clone, Copy, Debug, Default, PartialEq, Eq" if struct.is_row else "Default"
    yield f"#[derive({derived})]"
    yield f"pub struct {rust_name(struct.name)} {{"
    for kind, name, said in struct.fields:
        if struct.is_row:
            yield from documentation(said, "    ")
        yield f"    pub {RENAMED.get(name, name)}: {NUMBERS[kind]},"
    yield "}"


def rust_type(taken: str) -> Tuple[str, str]:
    """The name and the type of an argument."""
    found = _TAKEN.match(" ".join(taken.split()))
    if found is None:
        sys.exit(f"{HEADER.name}: {taken} is no argument that this script knows")
    constant, kind, pointer, name = found.groups()
    if kind in HANDLES:
        made = "Handle"
    else:
        made = NUMBERS.get(kind) or rust_name(kind)
    if pointer:
        made = f"*{'const' if constant else 'mut'} {made}"
    return RENAMED.get(name, name), made


def call(status: str, name: str, taken: str) -> Iterator[str]:
    """A call in Rust, as rustfmt writes it."""
    listed = [f"{name}: {kind}" for name, kind in map(rust_type, taken.split(","))]
    answer = "" if status == "void" else " -> u32"
    whole = f"    pub fn {name}({', '.join(listed)}){answer};"
    if len(whole) < WIDTH:
        yield whole
        return
    if len(whole) == WIDTH and answer:  # rustfmt counts what follows too
        yield whole[:-len(f"{answer};")]
        yield f"       {answer};"
        return
    yield f"    pub fn {name}("
    for one in listed:
        yield f"        {one},"
    yield f"    ){answer};"


def module_text(header: str) -> str:
    lines = FRONT.splitlines()
    for struct in structs(header):
        lines += declaration(struct)
    lines += ["", 'extern "C" {']
    for found in _CALL.findall(header):
        lines += call(*found)
    return "\n".join([*lines, "}", ""])


def main() -> int:
    wanted = module_text(HEADER.read_text())
    if sys.argv[1:] == ["--check"]:
        if MADE.read_text() != wanted:
            print(f"{MADE.relative_to(TOP)} is not what scripts/raw.py makes of ctfd.h: run it")
            return 1
        print(f"{MADE.name} is as ctfd.h")
        return 0
    MADE.write_text(wanted)
    return 0


if __name__ == "__main__":
    sys.exit(main())
