#!/usr/bin/env python3
"""Finds names in backquotes, in all Markdown of this repository, that do not exist in the
repository.

usage: tests/house/names.py [PAGE..]

A name counts if it looks like code: `two_words`, `Type::call`, `TwoWords`, a file with one of our
endings, or an option such as `--two-words`. It must be a word or an option in the sources, the name
of a file, or in `FOREIGN` below, which lists names of other programs.
"""
from __future__ import annotations

import re
import sys
from dataclasses import dataclass
from pathlib import Path
from typing import Iterator

TOP = Path(__file__).resolve().parents[2]
WORD = re.compile(r"[A-Za-z_][A-Za-z0-9_]*")
FENCED = re.compile(r"^```.*?^```", re.MULTILINE | re.DOTALL)
QUOTED = re.compile(r"`([^`\n]+)`")
# A word of several parts, or a path through types and modules, as in code.
CODE = re.compile(r"(?=.*(_|::|[a-z][A-Z]))[A-Za-z_][A-Za-z0-9_:{}, ]*(\(\))?")
ENDINGS = "rt antt edit py sh rs c h md jsonl replies ctf sym str dump transcript toml txt so a"
FILE = re.compile(rf"[\w./-]+\.({'|'.join(ENDINGS.split())})")
NAMED_FILE = re.compile(rf"[\w.-]+\.(?:{'|'.join(ENDINGS.split())})\b")
IN_A_MANUAL = re.compile(r"\bFl (-[a-z-]+)")
OPTION = re.compile(r"(?<![\w-])--[a-z][a-z-]*[a-z]")
# Fields and a header of libctf that we do not have; a part of an address; an option of systemd
# units; example names of the reader's own files; the prefix of the front's statistics; a module
# that looks like a file name; types of other programs; words of nginx; options of pahole, ctfdump,
# abidiff, cargo, pip, pytest and rt.
FOREIGN = {
    "ctfd_front_",
    "own.c", "specs/TOPIC.antt", "sys/ctf.h",
    "ADDR", "MemoryMax", "ctb_type",
    "ctfd.replies", "limit_conn",
    "PyInterpreterState", "PyObject_Repr", "_PyRuntimeState", "task_struct",
    "--anew", "--btf", "--cacheline", "--class", "--collect-only", "--compile", "--ctf", "--open",
    "--package", "--prettify",
    "--suppressions", "--system-site-packages",
}


def files() -> Iterator[Path]:
    """The repository's own files, without build output."""
    for folder in ("crates", "clients", "tests", "bench", "examples", "docs", "scripts", ".ci"):
        for path in (TOP / folder).rglob("*"):
            if path.is_file() and not {"out", "__pycache__", "target"} & set(path.parts):
                yield path
    yield from (path for path in TOP.iterdir() if path.is_file())


@dataclass(frozen=True)
class KnownNames:
    """The names that exist: the repository's files, and the words, options and files that sources
    name."""

    paths: frozenset[str]
    words: frozenset[str]

    @classmethod
    def of(cls, paths: list[Path]) -> KnownNames:
        """The names of some files, and the names in them except in pages and edits."""
        words = {name for path in paths for name in (path.name, path.stem)}
        for path in paths:
            if path.suffix not in (".md", ".edit") and path != Path(__file__).resolve():
                text = path.read_text(encoding="utf-8", errors="ignore")
                words.update(*(it.findall(text) for it in (WORD, OPTION, NAMED_FILE)))
                words.update(f"-{it}" for it in IN_A_MANUAL.findall(text))
        return cls(frozenset(f"/{path.relative_to(TOP)}" for path in paths), frozenset(words))

    def has_file(self, quoted: str) -> bool:
        """Whether there is such a file, or, for a name without a folder, whether a source names
        it."""
        if "/" not in quoted and quoted in self.words:
            return True
        return any(path.endswith(f"/{quoted}") for path in self.paths)


def missing(page: Path, known: KnownNames) -> Iterator[str]:
    """The names in a page that do not exist."""
    text = FENCED.sub("", page.read_text(encoding="utf-8"))
    for quoted in QUOTED.findall(text):
        yield from (it for it in OPTION.findall(quoted) if it not in known.words)
        if FILE.fullmatch(quoted):
            if not known.has_file(quoted):
                yield quoted
        elif CODE.fullmatch(quoted):
            yield from (it for it in WORD.findall(quoted) if it not in known.words)


def pages() -> list[Path]:
    """All pages, except in build output."""
    return sorted(path for path in TOP.rglob("*.md")
                  if not {"out", "target", ".git"} & {*path.relative_to(TOP).parts})


def main() -> int:
    asked = [Path(it) for it in sys.argv[1:]] or pages()
    known = KnownNames.of(list(files()))
    wrong = [f"{page}: {name}" for page in asked
             for name in sorted(set(missing(page, known)) - FOREIGN)]
    print(*wrong, sep="\n", end="\n" if wrong else "")
    print(f"{len(asked)} pages, {len(wrong)} names that are not there")
    return 1 if wrong else 0


if __name__ == "__main__":
    sys.exit(main())
