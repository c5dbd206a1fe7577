#!/usr/bin/env python3
"""Counts the names in crates, in the Rust workspace and in Python that are a bare participle or
adjective, such as `held` or `told`.

usage: tests/house/bare_names.py [--list]

Such a name does not say what a thing is, gives or does: prefer `count_of` to `held`. A share of
them is allowed, as large as in the kit's own crates: 13 of 1,000 functions, and 25 of 1,000 words
of `specs/`, types and modules in Rust, or classes in Python. With --list, each remaining one is
printed with its place. The last line has all counts; the status is 1 if a share is exceeded, or if
a name in KEPT no longer occurs.
"""
from __future__ import annotations

import re
import sys
from dataclasses import dataclass
from pathlib import Path
from typing import Iterator

from tracked import tracked_files

TOP = Path(__file__).resolve().parents[2]
SOURCES, SPECS = r"crates/\w+/src/.*\.rt", r"crates/\w+/specs/.*\.antt"
RUST, PYTHON = r"clients/rust/[\w-]+/src/.*\.rs", r".*\.py"
FUNCTION = re.compile(r"^\s*(?:pub(?:\([a-z]+\))?\s+)?(?:const\s+)?fn\s+([a-z_0-9]+)", re.MULTILINE)
TYPE = re.compile(r"^\s*(?:pub(?:\([a-z]+\))?\s+)?(?:struct|enum|trait|mod)\s+(\w+)", re.MULTILINE)
WORD = re.compile(r"^(?:abbrev pub|pub abbrev|pub record|pub data) ([A-Za-z_]\w*)"
                  r"|^(?:pub )?([a-z_]\w*) :", re.MULTILINE)
PYTHON_FUNCTION = re.compile(r"^\s*(?:async )?def _*([a-z]\w*)", re.MULTILINE)
PYTHON_CLASS = re.compile(r"^\s*class _*([A-Z]\w*)", re.MULTILINE)
IRREGULAR = frozenset(
    "begun bound built done drawn due found given grown held kept known left lent made meant "
    "said seen sent shown sought spelt taken thrown told understood written".split())
ADJECTIVES = frozenset(
    "bare big deep dense early empty equal exact fit fresh full good great high large late like long "
    "low near other own plain ready same short small sound whole wide".split())
# Verbs and nouns that end like participles.
NO_PARTICIPLES = frozenset("bed embed exceed feed indeed need proceed seed shed speed".split())
# The names that stay, and why: the field's own words, or a noun would not be clearer.
KEPT = {
    "bound": "the noun",
    "ended": "a question that a stream is asked, beside `failed`",
    "failed": "the same, as of a file's `is_err`",
    "own": "the format's term for what a dictionary has of itself",
    "shown": "the definition's word for all that a record says",
}


@dataclass(frozen=True)
class Share:
    """The allowed number of bare names of a sort, of a thousand."""

    sort: str
    files: str
    pattern: re.Pattern[str]
    per_thousand: int


SHARES = (Share("functions", SOURCES, FUNCTION, 13),
          Share("words of specs", SPECS, WORD, 25),
          Share("functions in Rust", RUST, FUNCTION, 13),
          Share("types and modules in Rust", RUST, TYPE, 25),
          Share("functions in Python", PYTHON, PYTHON_FUNCTION, 13),
          Share("classes in Python", PYTHON, PYTHON_CLASS, 25))


def is_bare(name: str) -> bool:
    """Whether a name, also a type's, is a single participle or adjective."""
    if re.search(r"[A-Z]", name[1:]):
        return False
    name = name.lower()
    is_participle = name in IRREGULAR or name.endswith("ed") and name not in NO_PARTICIPLES
    return "_" not in name and (is_participle or name in ADJECTIVES)


def names_of(share: Share) -> Iterator[tuple[str, str]]:
    """Each name of a sort, with its file and line."""
    for file in sorted(file for file in tracked_files() if re.fullmatch(share.files, file)):
        text = (TOP / file).read_text(encoding="utf-8")
        for found in share.pattern.finditer(text):
            name = next(filter(None, found.groups()))
            line = text.count("\n", 0, found.start(found.lastindex or 0)) + 1
            yield name, f"{file}:{line}"


def main() -> int:
    is_listed, faults, seen = "--list" in sys.argv[1:], [], set()
    counts = []
    for share in SHARES:
        every = list(names_of(share))
        bare = [(name, place) for name, place in every if is_bare(name)]
        seen |= {name for name, _ in bare}
        if is_listed:
            print(*(f"{place}: {name}" for name, place in bare), sep="\n")
        counts.append(f"{len(bare)} of {len(every)} {share.sort}")
        if len(bare) * 1000 > len(every) * share.per_thousand:
            faults.append(f"{share.sort}: more than {share.per_thousand} of 1,000 are bare")
    faults += [f"{name} of KEPT is no bare name any more" for name in KEPT if name not in seen]
    print(*faults, sep="\n", end="\n" if faults else "")
    print("bare participles and adjectives: " + ", ".join(counts))
    return 1 if faults else 0


if __name__ == "__main__":
    sys.exit(main())
