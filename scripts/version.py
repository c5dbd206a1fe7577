#!/usr/bin/env python3
"""Compares the version in several files with the file VERSION, or writes it into them.

usage: scripts/version.py [NEW]

Some sources must contain the version themselves, so that they are complete outside this repository;
they are listed below. With NEW, it is written into VERSION and into these. Without, each place that
differs is printed, and the status is then 1. One place is in the program's source, which is proved:
run `make prove` after a new version.
"""
from __future__ import annotations

import re
import sys
from dataclasses import dataclass
from pathlib import Path

TOP = Path(__file__).resolve().parents[1]
VERSION = TOP / "VERSION"
FORM = r"[0-9]+\.[0-9]+\.[0-9]+"


@dataclass(frozen=True)
class Place:
    """A file, and the text before and after the version in it."""

    path: str
    before: str
    behind: str

    @property
    def pattern(self) -> re.Pattern[str]:
        return re.compile(f"({re.escape(self.before)}){FORM}({re.escape(self.behind)})")


PLACES = (
    Place("crates/ctfd/src/commands.rt", 'const VERSION: &str = "', '\\n'),
    Place("clients/c/ctfd.h", '#define CTFD_VERSION "', '"'),
    Place("clients/python/ctfd/version.py", 'VERSION = "', '"'),
    Place("clients/rust/Cargo.toml", '[workspace.package]\nversion = "', '"'),
    Place("CHANGELOG.md", "# Changes\n\n## ", "\n"),
)


def version() -> str:
    return VERSION.read_text(encoding="ascii").strip()


def differing() -> list[str]:
    """The places whose version differs from VERSION."""
    wanted = version()
    return [place.path for place in PLACES
            if f"{place.before}{wanted}{place.behind}"
            not in (TOP / place.path).read_text(encoding="utf-8")]


def write(new: str) -> None:
    """Writes a version into VERSION and all places."""
    VERSION.write_text(f"{new}\n", encoding="ascii")
    for place in PLACES:
        path = TOP / place.path
        text = path.read_text(encoding="utf-8")
        path.write_text(place.pattern.sub(rf"\g<1>{new}\g<2>", text, count=1), encoding="utf-8")


def main() -> int:
    if len(sys.argv) > 2 or sys.argv[1:] and not re.fullmatch(FORM, sys.argv[1]):
        print("usage: scripts/version.py [N.N.N]", file=sys.stderr)
        return 2
    if sys.argv[1:]:
        write(sys.argv[1])
    found = differing()
    for path in found:
        print(f"{path} does not tell the version {version()}, which VERSION has")
    return 1 if found else 0


if __name__ == "__main__":
    sys.exit(main())
