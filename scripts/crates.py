"""The crates of this repository, as crates.txt lists them."""
from __future__ import annotations

import re
from dataclasses import dataclass
from pathlib import Path

ROW = re.compile(r"(?P<name>\w+)(?: (?P<kind>staticlib))?:(?P<uses>[\w ]*)")


@dataclass(frozen=True)
class Crate:
    """A line of crates.txt. Lines come lowest first."""

    name: str
    folder: Path
    uses: tuple[str, ...]

    @property
    def source(self) -> Path:
        return self.folder / "src"


def crates_by_name(repository: Path) -> dict[str, Crate]:
    """The crates by name, each after those that it uses."""
    found: dict[str, Crate] = {}
    for line in (repository / "crates.txt").read_text(encoding="utf-8").splitlines():
        text = line.partition("#")[0].strip()
        row = ROW.fullmatch(text)
        if row:
            folder = repository / "crates" / row["name"]
            found[row["name"]] = Crate(row["name"], folder, tuple(row["uses"].split()))
        elif text:
            raise ValueError(f"crates.txt: {text!r} is no line that the quick build knows")
    return found


def below(crates: dict[str, Crate], *names: str) -> list[Crate]:
    """The crates that these use, and these themselves, lowest first."""
    wanted = set(names)
    for crate in reversed(crates.values()):
        if crate.name in wanted:
            wanted.update(use for use in crate.uses if use in crates)
    return [crate for crate in crates.values() if crate.name in wanted]
