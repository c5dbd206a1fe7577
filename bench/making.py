#!/usr/bin/env python3
"""Counts the instructions for making dictionaries, with libctfd's calls and with GNU libctf's.

usage: bench/making.py

The archive is the one that CTFD_ARCHIVE names, else crates/ctf_c/out/libctfd.a. A row shows the
instructions for one more item, as the difference that callgrind counts between N items and twice as
many. Prints a table in Markdown. Needs cc, valgrind and the Debian package binutils-dev.
"""
from __future__ import annotations

import os
import re
import subprocess
import tempfile
from pathlib import Path

TOP = Path(__file__).resolve().parents[1]
ASKED = 2000
# For each letter of making.c: its row's title, the number of items made first, and the number of
# calls per item.
ROWS = {"c": ("create and close", 2000, 1), "i": ("an integer", 2000, 1),
        "p": ("a pointer", 2000, 1), "s": ("a struct", 2000, 1),
        "S": ("a struct, of one name", 2000, 1), "m": ("a member", 2000, 1),
        "e": ("an enumerator", 2000, 1), "u": ("an integer and an update", 2000, 1),
        "b": ("a child of 20,000 types, closed", 2000, 1), "w": ("an integer and its bytes", 5000, 1),
        "K": ("kind", 10, ASKED), "Z": ("size", 10, ASKED), "A": ("align", 10, ASKED),
        "N": ("name", 10, ASKED), "L": ("look-up", 10, ASKED),
        "M": ("member by name", 10, ASKED)}


def instructions(program: Path, what: str, count: int) -> int:
    done = subprocess.run(["valgrind", "--tool=callgrind", "--callgrind-out-file=/dev/null",
                           str(program), what, str(count)], text=True, capture_output=True,
                          check=True)
    found = re.search(r"Collected : (\d+)", done.stderr)
    assert found, done.stderr
    return int(found[1])


def main() -> None:
    archive = os.environ.get("CTFD_ARCHIVE", str(TOP / "crates" / "ctf_c" / "out" / "libctfd.a"))
    source = str(TOP / "bench" / "making.c")
    with tempfile.TemporaryDirectory() as work:
        ours, theirs = Path(work) / "ours", Path(work) / "theirs"
        subprocess.run(["cc", "-O2", f"-I{TOP / 'clients' / 'c'}", source, archive, "-o", str(ours)],
                       check=True)
        subprocess.run(["cc", "-O2", "-DGNU", source, "-lctf-nobfd", "-o", str(theirs)], check=True)
        print("| what | libctfd | GNU libctf |\n|---|---|---|")
        for letter, (name, count, each) in ROWS.items():
            took = [(instructions(program, letter, 2 * count) - instructions(program, letter, count))
                    // (count * each) for program in (ours, theirs)]
            print(f"| {name} | {took[0]:,} | {took[1]:,} |", flush=True)


if __name__ == "__main__":
    main()
