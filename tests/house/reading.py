#!/usr/bin/env python3
"""Checks docs/READING.md: that it lists the definitions behind four contracts, and their length.

usage: tests/house/reading.py

From the contracts of `serve`, `check`, `answer` and `update`, each word is followed to the file of
`specs/` that defines it, through the `ghost use` lines of the source and the `use` lines of
definitions, and so on. A word in the page's table of definitions that compute is not followed; the
words that its row names as the rule are followed instead. The first table must list exactly the
files on the way. The lines and minutes of a row must be those of its files, and the modules of the
kit's libraries whose words are met must be those that the page lists.

Prints what is wrong; the status is then 1.
"""
from __future__ import annotations

import re
import sys
from dataclasses import dataclass, field
from functools import lru_cache
from pathlib import Path
from typing import Iterator

TOP = Path(__file__).resolve().parents[2]
CRATES = TOP / "crates"
PAGE = TOP / "docs" / "READING.md"
SHORT = {"M": "ctf_model", "P": "ctf_protocol", "W": "ctf_wire", "L": "ctf_laws", "J": "ctf_json",
         "I": "ctf_lines", "B": "ctf_broker", "Y": "ctf_library", "C": "ctf_check",
         "N": "ctf_chains", "U": "ctf_writer"}
STARTS = (("ctf_wire/src/serving.rt", "serve"), ("ctf_check/src/judge.rt", "check"),
          ("ctf_broker/src/broker.rt", "answer"), ("ctf_writer/src/updating.rt", "update"))
USE = re.compile(r"^(?:ghost |pub )?use Rattle\.([\w.]+)(?:\.\{([^}]*)\}| as (\w+))", re.MULTILINE)
SIGNATURE = re.compile(r"^(?:abbrev |unfoldable )?(?:pub )?(?:record |data )?([^\s:({]+)")
TOKEN = re.compile(r"[A-Za-z_][\w'-]*(?:\.[A-Za-z_][\w'-]*)*|[^\s\w(){};,.]+")
LINES_A_MINUTE = 12


@dataclass(frozen=True)
class Word:
    """A word of a module, as a `use` line names both."""

    module: str
    name: str


@dataclass
class File:
    """The imports of a file, by the names that it uses for them, and the texts of its own words."""

    words: dict[str, Word] = field(default_factory=dict)
    modules: dict[str, str] = field(default_factory=dict)
    texts: dict[str, list[str]] = field(default_factory=dict)


def path_of(module: str) -> Path:
    """The file of a module of definitions, if it is in this repository."""
    crate, _, inside = module.partition(".specs.")
    return CRATES / crate / "specs" / (inside.replace(".", "/") + ".antt")


def blocks(text: str) -> Iterator[str]:
    """The pieces of a text, each from one line at the left margin to the next, without comments."""
    block: list[str] = []
    for line in text.splitlines():
        if line.lstrip().startswith("--"):
            continue
        if line and not line[0].isspace():
            yield "\n".join(block)
            block = []
        block.append(line)
    yield "\n".join(block)


def imports_of(text: str) -> File:
    """The imports in the `use` lines of a text."""
    found = File()
    for module, names, alias in USE.findall(text):
        if alias:
            found.modules[alias] = module
        for name in filter(None, map(str.strip, names.split(","))):
            given, _, other = name.partition(" as ")
            found.words[other or given] = Word(module, given)
    return found


@lru_cache(maxsize=None)
def read(path: Path) -> File:
    """A parsed file of definitions."""
    text = path.read_text(encoding="utf-8")
    found = imports_of(text)
    last = ""
    for block in blocks(text):
        match = SIGNATURE.match(block)
        if not match or block.startswith(("use ", "pub use ")):
            continue
        is_new = block.startswith(("abbrev ", "unfoldable ", "pub ", "data ", "record "))
        last = match[1] if is_new or f"{match[1]} :" in block else last
        found.texts.setdefault(last, []).append(block)
    return found


def names_in(text: str, file: File) -> Iterator[str]:
    """The names of a file's imports and own words that occur in a text."""
    tokens = set(TOKEN.findall(text))
    for name in [*file.words, *file.texts]:
        parts = [part for part in name.split("◌") if part]
        if parts and all(part in tokens for part in parts):
            yield name


def words_in(text: str, here: str, file: File) -> Iterator[Word]:
    """Each word that a text names, with its module."""
    for name in names_in(text, file):
        yield file.words.get(name, Word(here, name))
    for token in TOKEN.findall(text):
        alias, _, name = token.partition(".")
        if name and alias in file.modules:
            yield Word(file.modules[alias], name.split(".")[0])


def contract(source: str, name: str) -> Iterator[Word]:
    """The words of a function's contract."""
    path = CRATES / source
    text = path.read_text(encoding="utf-8")
    head = re.search(rf"^ *pub fn {name}\b.*?^ *\{{$", text, re.MULTILINE | re.DOTALL)
    if not head:
        raise ValueError(f"{source} has no pub fn {name}")
    yield from words_in(head[0], "", imports_of(text))


def defined_at(word: Word) -> Word:
    """A word with the module that defines it; other modules may re-export it."""
    path = path_of(word.module)
    while path.is_file() and word.name not in read(path).texts and word.name in read(path).words:
        word = read(path).words[word.name]
        path = path_of(word.module)
    return word


def words_behind(starts: list[Word], instead: dict[Word, list[Word]]) -> set[Word]:
    """All words that the definitions of `starts` lead to; for a word in `instead`, its other words
    are followed in its place."""
    seen: set[Word] = set()
    waiting = [defined_at(word) for word in starts]
    while waiting:
        word = waiting.pop()
        if word in seen:
            continue
        if word in instead:
            waiting += map(defined_at, instead[word])
            continue
        seen.add(word)
        path = path_of(word.module)
        if path.is_file():
            for text in read(path).texts.get(word.name, []):
                waiting += map(defined_at, words_in(text, word.module, read(path)))
    return seen


# ---- the page


def rows(heading: str) -> Iterator[list[str]]:
    """The cells of each row of the table below a heading."""
    part = PAGE.read_text(encoding="utf-8").split(heading, 1)[1].split("\n## ", 1)[0]
    lines = [line for line in part.splitlines() if line.startswith("|")]
    for line in lines[2:]:
        yield [cell.strip() for cell in line.strip("|").split("|")]


def modules_in(cell: str) -> Iterator[str]:
    """The modules that a cell lists: `M format/: Bytes, Lists; rules/Rules; P lines/Ask`."""
    crate = folder = ""
    for part in cell.replace("`", "").split(";"):
        letter = re.match(r"\s*([A-Z])\s", part)
        if letter:
            crate, part = SHORT[letter[1]], part[letter.end():]
        names, folder = part, ""
        if ":" in part:
            folder, _, names = part.partition(":")
        for name in names.split(","):
            inside = f"{folder.strip()}{name.strip()}".replace("/", ".")
            yield f"{crate}.specs.{inside}"


def instead_of() -> dict[Word, list[Word]]:
    """For each word that computes, the words of its rule."""
    found: dict[Word, list[Word]] = {}
    for computing, _, rule in rows("## Definitions that compute"):
        for word in by_page(computing):
            found[word] = list(by_page(rule))
    return found


def by_page(cell: str) -> Iterator[Word]:
    """The words that a cell names, each group before its file in parentheses."""
    for group, file in re.findall(r"([^()]*)\(`([\w/]+)\.antt`\)", cell):
        for name in re.findall(r"`([^`]+)`", group):
            module = "ctf_model.specs." + file.replace("/", ".")
            if not path_of(module).is_file():
                module = "ctf_protocol.specs." + file.replace("/", ".")
            yield Word(module, name)


def length(modules: list[str]) -> int:
    """The number of lines of modules, without imports, comments and blank lines."""
    lines = (line.strip() for module in modules
             for line in path_of(module).read_text(encoding="utf-8").splitlines())
    return sum(bool(line) and not line.startswith(("--", "use ", "pub use ")) for line in lines)


def wrong_rows() -> Iterator[str]:
    """Rows with a wrong length."""
    for row, files, lines, minutes in rows("# Reading"):
        modules = list(modules_in(files))
        absent = [module for module in modules if not path_of(module).is_file()]
        if absent:
            yield f"{row}: there is no {', '.join(absent)}"
            continue
        real = length(modules)
        if (int(lines), int(minutes)) != (real, round(real / LINES_A_MINUTE)):
            yield f"{row}: {real} lines, {round(real / LINES_A_MINUTE)} minutes"


def wrong_files(words: set[Word]) -> Iterator[str]:
    """Files behind the contracts that are not listed, and listed files that are not behind them."""
    there = {module for _, files, _, _ in rows("# Reading") for module in modules_in(files)}
    behind: dict[str, list[str]] = {}
    for word in words:
        if path_of(word.module).is_file():
            behind.setdefault(word.module, []).append(word.name)
    for module in sorted(set(behind) - there):
        yield f"{module} is not listed: {', '.join(sorted(behind[module]))}"
    for module in sorted(there - set(behind)):
        yield f"{module} is listed, and stands behind none of the contracts"


def wrong_modules(words: set[Word]) -> Iterator[str]:
    """Modules of the kit whose words are met but not named on the page, and the reverse."""
    met = {word.module for word in words
           if ".specs." in f"{word.module}." and not (CRATES / word.module.split(".")[0]).is_dir()}
    text = PAGE.read_text(encoding="utf-8").split("## Words of the kit", 1)[1]
    named = set(re.findall(r"`([a-z_]+\.specs[\w.]*)`", text))
    for module in sorted(met ^ named):
        yield f"{module}: {'not named' if module in met else 'named, and not met'}"
    count = sum(word.module in met for word in words)
    if f"{count} words of {len(met)} modules" not in text:
        yield f"the page does not say: {count} words of {len(met)} modules"


def main() -> int:
    starts = [word for source, name in STARTS for word in contract(source, name)]
    words = words_behind(starts, instead_of())
    wrong = [*wrong_files(words), *wrong_modules(words), *wrong_rows()]
    print(*wrong, sep="\n", end="\n" if wrong else "")
    files = len({word.module for word in words if path_of(word.module).is_file()})
    print(f"reading: {files} files behind {len(STARTS)} contracts, {len(wrong)} things are wrong")
    return 1 if wrong else 0


if __name__ == "__main__":
    sys.exit(main())
