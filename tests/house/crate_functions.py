"""The functions of a crate's source files, and where their proofs are."""
from __future__ import annotations

import functools
import re
from dataclasses import dataclass
from pathlib import Path
from typing import Iterator, Optional

FUNCTION = re.compile(r"^( *)(?:pub(?:\([a-z]+\))? )?(?:const )?(?:extern \"C\" )?fn (\w+)")
TYPE = re.compile(r"^(?:pub(?:\(\w+\))? )?(?:struct|enum|union) (\w+)", re.MULTILINE)
# An item that holds functions, and an impl whose type has only parameters that the impl declares.
AROUND = re.compile(r"impl\b|(?:pub(?:\(\w+\))? )?(?:trait|mod)\b|extern \"C\" \{")
OWN_IMPL = re.compile(r"impl(?:<([^<>]*)>)? (\w+)(?:<([^<>]*)>)?(?: \{|$)")
CYCLE = re.compile(r"^ *#\[cycle\(", re.MULTILINE)


@dataclass(frozen=True)
class Function:
    """A function of a source file with the attributes above it, by its lines, counted from 0.

    `place` is the folder of its proof below proofs/. It is None for a function of a trait, and for
    one of a cycle of calls, since such functions have one proof together.
    """

    file: str
    name: str
    first: int
    last: int
    place: Optional[str]

    @property
    def path(self) -> str:
        """The word for `rattle check --only`: its own path, or else that of its module."""
        return (self.place or module_of(self.file)).replace("/", "::")

    def has_proof(self, place: str) -> bool:
        """Whether the written proof at a place of proofs/ is one of this function."""
        return (place == self.place if self.place else
                place.startswith(module_of(self.file)) and place.split("/")[-1] == self.name)


def module_of(file: str) -> str:
    """The path of a source file's module, with slashes; "" for the crate's root."""
    module = file.removeprefix("src/").removesuffix(".rt").removesuffix("/mod")
    return "" if module in ("lib", "main") else module


@functools.cache
def types_of(crate: Path) -> dict[str, list[str]]:
    """The structs and enums that each module of a crate declares."""
    return {module_of(str(path.relative_to(crate))): TYPE.findall(path.read_text(encoding="utf-8"))
            for path in sorted(crate.glob("src/**/*.rt"))}


def home_of(crate: Path, file: str, owner: str) -> str:
    """The module that declares the type of an impl in a file: the file's own, or another."""
    modules = [module for module, names in types_of(crate).items() if owner in names]
    return next(iter(sorted(modules, key=lambda it: it != module_of(file))), "")


def owner_of(line: str) -> Optional[str]:
    """The type of an impl with functions of its own, by its first line; None for other items."""
    found = OWN_IMPL.match(line)
    if not found:
        return None
    declared = {it.split(":")[0].strip() for it in (found[1] or "").split(",")}
    given = {it.strip() for it in (found[3] or "").split(",")}
    return found[2] if given <= declared | {"", "'_"} else None


def place_of(crate: Path, file: str, owner: Optional[str], name: str) -> Optional[str]:
    """The folder of the proof of a function, or None if it shares one with a cycle of calls."""
    above = [home_of(crate, file, owner), owner] if owner else [module_of(file)]
    folder = "/".join(it for it in above if it)
    if (crate / "proofs" / folder / f"+{name}").exists():
        return None
    return f"{folder}/{name}" if folder else name


def functions(crate: Path, file: str) -> Iterator[Function]:
    """The functions of a source file. An end is a brace below the beginning, as `rt fmt` puts it."""
    lines = (crate / file).read_text(encoding="utf-8").split("\n")
    owner: Optional[str] = None
    for start, line in enumerate(lines):
        if AROUND.match(line):
            owner = owner_of(line)
        found = FUNCTION.match(line)
        if not found:
            continue
        first = start
        while lines[first - 1].lstrip().startswith("#["):
            first -= 1
        ends = (at for at in range(start, len(lines)) if lines[at] == f"{found[1]}}}")
        last = start if line.rstrip().endswith("}") else next(ends, len(lines) - 1)
        is_own = not found[1] or len(found[1]) == 4 and owner is not None
        is_own = is_own and not CYCLE.search("\n".join(lines[first:start]))
        place = place_of(crate, file, owner if found[1] else None, found[2]) if is_own else None
        yield Function(file, found[2], first, last, place)


def all_functions(crate: Path) -> Iterator[Function]:
    """The functions of all source files of a crate."""
    for path in sorted(crate.glob("src/**/*.rt")):
        yield from functions(crate, str(path.relative_to(crate)))
