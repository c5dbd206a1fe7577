"""Finds the faults that a definition of `specs/` may lead to, by following the words in it.

A file of `specs/` has lines `use Rattle.CRATE.specs.FOLDER.FILE.{word, word as other}`, and words
defined by clauses, `name pattern = body`, each of which begins at the left margin. The words in a
body are looked up in its own file and in its imports. This finds every fault that a word can lead
to, and perhaps some that it never does.
"""
from __future__ import annotations

import re
from dataclasses import dataclass, field
from functools import lru_cache
from pathlib import Path
from typing import Iterator, Optional

TOP = Path(__file__).resolve().parents[2]
CRATES = TOP / "crates"
CONSTANTS = "TheConstants.Fault"
USE = re.compile(r"^use Rattle\.([\w.]+)\.\{([^}]*)\}", re.MULTILINE)
SIGNATURE = re.compile(r"^(?:abbrev |unfoldable )?(?:pub )?(\w+) :")
WORD = re.compile(r"[A-Za-z_]\w*(?:\.[A-Za-z_]\w*)*")


@dataclass(frozen=True)
class Word:
    """A word of a file."""

    file: Path
    name: str


@dataclass(frozen=True)
class Body:
    """A piece of a file: the text of a clause, or a single word."""

    file: Path
    text: str


@dataclass
class File:
    """The imports of a file of definitions, and the clauses of each word that it defines."""

    imported: dict[str, tuple[str, str]] = field(default_factory=dict)
    clauses: dict[str, list[str]] = field(default_factory=dict)


def blocks(text: str) -> Iterator[str]:
    """The pieces of a text, each from one line at the left margin to the next."""
    block: list[str] = []
    for line in text.splitlines():
        if line.startswith("--"):
            continue
        if line and not line[0].isspace():
            if block:
                yield "\n".join(block)
            block = []
        block.append(line)
    yield "\n".join(block)


@lru_cache(maxsize=None)
def read(path: Path) -> File:
    """A parsed file of definitions. Raises OSError."""
    text, found = path.read_text(encoding="utf-8"), File()
    for module, names in USE.findall(text):
        for name in filter(None, map(str.strip, names.split(","))):
            given, _, alias = name.partition(" as ")
            found.imported[alias or given] = (module, given)
    for block in blocks(text):
        signature = SIGNATURE.match(block)
        if signature:
            found.clauses.setdefault(signature[1], [])
            continue
        name = WORD.match(block)
        if name and name[0] in found.clauses:
            found.clauses[name[0]].append(block)
    return found


def file_of(module: str) -> Optional[Path]:
    """The file of a module `CRATE.specs.FOLDER.FILE`, or None if it is not in this repository."""
    crate, _, inside = module.partition(".specs.")
    path = CRATES / crate / "specs" / (inside.replace(".", "/") + ".antt")
    return path if inside and path.is_file() else None


def named_in(body: Body) -> Iterator[tuple[str, Optional[Word]]]:
    """Each word in a body, with its definition; None for the constant of a fault."""
    here = read(body.file)
    for name in WORD.findall(body.text):
        if name in here.imported:
            module, given = here.imported[name]
            path = file_of(module)
            if module.endswith(CONSTANTS):
                yield given, None
            elif path:
                yield given, Word(path, given)
        elif name in here.clauses:
            yield name, Word(body.file, name)


def reachable(bodies: list[Body], without: frozenset[Word]) -> tuple[set[str], set[Word]]:
    """The constants of the faults that some bodies may lead to, and the words on the way, without
    following those in `without`."""
    constants: set[str] = set()
    words: set[Word] = set()
    waiting = list(bodies)
    while waiting:
        for name, word in named_in(waiting.pop()):
            if word is None:
                constants.add(name)
            elif word not in words | without:
                words.add(word)
                waiting += bodies_of(word)
    return constants, words


def bodies_of(word: Word) -> list[Body]:
    """The bodies of a word's clauses; none for a constructor or a field."""
    return [Body(word.file, clause) for clause in read(word.file).clauses.get(word.name, [])]


def body_for(word: Word, variant: str) -> Body:
    """The body of the only clause of a word whose pattern names a variant, such as `change.Part`.
    Raises ValueError if there is not exactly one."""
    names_it = re.compile(rf"(?<![\w.]){re.escape(variant)}(?!\w)")
    halves = [body.text.partition(" =") for body in bodies_of(word)]
    found = [text for pattern, _, text in halves if names_it.search(pattern)]
    if len(found) != 1:
        raise ValueError(f"{word.name} has {len(found)} clauses for {variant}")
    return Body(word.file, found[0])
