#!/usr/bin/env python3
"""Checks that the documentation of each library crate begins with an example of a call.

usage: tests/house/examples.py [--try]

With --try, all examples are compiled as one program, with `rt try` on a copy of the crates; nothing
is proved. Prints each crate without an example, what does not compile, and the number of examples;
the status is 1 if one is missing or does not compile. Without a kit nothing is compiled, and a line
that begins with "skipped" says so.
"""
from __future__ import annotations

import re
import shutil
import subprocess
import sys
import tempfile
from pathlib import Path

TOP = Path(__file__).resolve().parents[2]
ROW = re.compile(r"^(\w+)(?: \w+)?:", re.MULTILINE)
BLOCK = re.compile(r"^```(?P<language>\w+)\n(?P<code>.*?)^```$", re.MULTILINE | re.DOTALL)
PRIVATE = re.compile(r"^fn ", re.MULTILINE)
LANGUAGES = {"ctf_c": "c"}
ROOT = """//! The examples of all crates.
#![tactic(auto)]

{modules}
fn main(_rt: HostRuntime) {{}}
"""


def head(library: Path) -> str:
    """The front page of a crate, as Markdown."""
    lines = library.read_text(encoding="utf-8").splitlines()
    return "".join(f"{line[3:].removeprefix(' ')}\n" for line in lines if line.startswith("//!"))


def examples() -> dict[str, list[str]]:
    """The code of the examples of each library crate, by name."""
    found: dict[str, list[str]] = {}
    for name in ROW.findall((TOP / "crates.txt").read_text(encoding="utf-8")):
        library = TOP / "crates" / name / "src" / "lib.rt"
        if library.exists():
            found[name] = [it["code"] for it in BLOCK.finditer(head(library))
                           if it["language"] == LANGUAGES.get(name, "rust")]
    return found


def write_program(source: Path, found: dict[str, list[str]]) -> None:
    """Writes a program with a module for each example. Functions are public, so none is unused."""
    source.mkdir(parents=True)
    names = []
    for crate, codes in found.items():
        for number, code in enumerate(codes, 1):
            names.append(f"{crate}_{number}")
            text = PRIVATE.sub("pub fn ", code)
            (source / f"{names[-1]}.rt").write_text(f"//! {crate}\n\n{text}", encoding="utf-8")
    modules = "".join(f"mod {name};\n" for name in names)
    (source / "main.rt").write_text(ROOT.format(modules=modules), encoding="utf-8")


def refusal_of(kit: str, found: dict[str, list[str]]) -> str:
    """The kit's error for a program of the examples, except those in C, or "" if it accepts it."""
    rust = {crate: codes for crate, codes in found.items() if crate not in LANGUAGES}
    with tempfile.TemporaryDirectory() as made:
        copy = Path(made)
        shutil.copytree(TOP / "crates", copy / "crates", ignore=shutil.ignore_patterns("out"))
        shutil.copy(TOP / "HANDLES", copy)
        rows = (TOP / "crates.txt").read_text(encoding="utf-8")
        (copy / "crates.txt").write_text(f"{rows}examples: {' '.join(rust)}\n", encoding="utf-8")
        write_program(copy / "crates" / "examples" / "src", rust)
        ended = subprocess.run([kit, "try"], cwd=copy / "crates" / "examples", text=True,
                               stdout=subprocess.PIPE, stderr=subprocess.STDOUT, check=False)
    return ended.stdout if ended.returncode != 0 else ""


def main() -> int:
    found = examples()
    lacking = [crate for crate, codes in found.items() if not codes]
    for crate in lacking:
        print(f"crates/{crate}/src/lib.rt: no example")
    refused = ""
    if "--try" in sys.argv[1:]:
        kit = shutil.which("rt")
        if kit is None:
            print("skipped: no kit to compile the examples")
        else:
            refused = refusal_of(kit, found)
            print(refused, end="")
    count = sum(len(codes) for codes in found.values())
    print(f"examples: {count} in {len(found)} crates, {len(lacking)} without one"
          f"{', not all compile' if refused else ''}")
    return 1 if lacking or refused else 0


if __name__ == "__main__":
    sys.exit(main())
