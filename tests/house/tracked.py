#!/usr/bin/env python3
"""Checks the files in the repository: those at its root, and contents that belong to one machine.

usage: tests/house/tracked.py

The root has only the files and folders that are named here. No file is the output of a profiler, or
contains a path of somebody's machine. Prints what is wrong; the status is then 1.
"""
from __future__ import annotations

import re
import subprocess
import sys
from pathlib import Path
from typing import Iterator

TOP = Path(__file__).resolve().parents[2]
ROOT = {".ci", ".clang-format", ".gitignore", "CHANGELOG.md", "HANDLES", "Makefile", "README.md", "VERSION", "bench",
        "clients", "crates", "crates.txt", "docs", "examples", "scripts", "tests", "wip"}
PROFILE = re.compile(rb"\A(# callgrind format|desc: |creator: callgrind|PERFILE2|cachegrind)")
MACHINE = re.compile(rb"(?<![\w.])/(work|root|farm|home/(?!user|you)\w+)/")


def tracked_files() -> Iterator[str]:
    """The files of the repository, from git; without git, all files outside folders `out`."""
    listed = subprocess.run(["git", "ls-files", "-z"], cwd=TOP, capture_output=True, check=False)
    if listed.returncode == 0:
        yield from filter(None, listed.stdout.decode().split("\0"))
        return
    yield from (str(path.relative_to(TOP)) for path in TOP.rglob("*")
                if path.is_file() and not {"out", ".git"} & set(path.parts))


def wrong(name: str) -> Iterator[str]:
    """The faults of a file."""
    first = name.split("/")[0]
    if first not in ROOT:
        yield f"{first}: nothing of this name stands at the root"
    path = TOP / name
    if name == "tests/house/tracked.py" or not path.is_file():
        return
    data = path.read_bytes()
    if PROFILE.match(data):
        yield f"{name}: the output of a profiler"
    if b"\0" not in data and (found := MACHINE.search(data)):
        yield f"{name}: a path of somebody's machine: {found[0].decode()}"


def main() -> int:
    faults = sorted({fault for name in tracked_files() for fault in wrong(name)})
    print(*faults, sep="\n", end="\n" if faults else "")
    return 1 if faults else 0


if __name__ == "__main__":
    sys.exit(main())
