#!/usr/bin/env python3
"""Tries the mutants of a crate's further-edits: each must be refused, like those of the gate.

usage: tests/house/further_edits.py [--only NAME] CRATE..
       tests/house/further_edits.py --apply

crates/NAME/further-edits has the edits of a crate, separated by blank lines: a line `name: NAME`,
then lines as in a file of must-fail/. A line `false: VALUES` gives values for which a goal that the
edit leaves open is false. Edits are tried in a copy by `rt must-fail`, using what is built here;
what is not built yet is proved first. `--only` tries one.

With `--apply` nothing is tried: each text that an edit replaces must occur exactly once in its
file, in these edits and in those of must-fail/. Prints those that do not, and counts; the status is
then 1.
"""
from __future__ import annotations

import argparse
import shutil
import subprocess
import sys
import tempfile
from dataclasses import dataclass, field
from pathlib import Path
from typing import Iterable, Iterator

TOP = Path(__file__).resolve().parents[2]
CRATES = TOP / "crates"


@dataclass
class Edit:
    """A change to a crate's files: each first text is replaced by the second, in this order."""

    name: str
    lines: list[str] = field(default_factory=list)

    def changes(self) -> Iterator[tuple[str, str, str]]:
        """Each change: the file, the old text and the new one."""
        file = old = ""
        for line in self.lines:
            word, _, text = line.partition(": ")
            if word == "file":
                file = text
            elif word == "old":
                old = text
            elif word == "new":
                yield file, old, text

    def fault(self, crate: Path) -> str | None:
        """The reason why the edit cannot be applied to a crate, or None."""
        texts: dict[str, str] = {}
        for file, old, new in self.changes():
            try:
                text = texts.get(file) or (crate / file).read_text(encoding="utf-8")
            except OSError:
                return f"there is no {file}"
            if text.count(old) != 1:
                return f"{file} has {text.count(old)} times: {old}"
            texts[file] = text.replace(old, new)
        return None if texts else "it changes nothing"


def in_one_file(path: Path) -> list[Edit]:
    """The edits of a file, each after its name."""
    edits: list[Edit] = []
    for line in path.read_text(encoding="utf-8").splitlines():
        if line.startswith("name: "):
            edits.append(Edit(line.removeprefix("name: ")))
        elif line:
            edits[-1].lines.append(line)
    return edits


def further(crate: Path) -> list[Edit]:
    path = crate / "further-edits"
    return in_one_file(path) if path.exists() else []


def of_the_gate(crate: Path) -> list[Edit]:
    return [Edit(path.stem, path.read_text(encoding="utf-8").splitlines())
            for path in sorted((crate / "must-fail").glob("*.edit"))]


def apply_all() -> int:
    """Checks that all edits can be applied, and returns the status."""
    count = wrong = 0
    for crate in sorted(CRATES.iterdir()):
        for edit in of_the_gate(crate) + further(crate):
            count += 1
            if why := edit.fault(crate):
                wrong += 1
                print(f"{crate.name}: {edit.name}: {why}")
    print(f"further_edits: {count} edits: {wrong} can't be applied")
    return 1 if wrong else 0


def in_place_of_the_gates(crate: Path, edits: Iterable[Edit]) -> None:
    """Puts edits into the folder in which `rt must-fail` looks for them."""
    folder = crate / "must-fail"
    shutil.rmtree(folder, ignore_errors=True)
    folder.mkdir()
    for edit in edits:
        text = "".join(f"{line}\n" for line in edit.lines)
        (folder / f"{edit.name}.edit").write_text(text, encoding="utf-8")


def try_edits(crates: list[str], only: str | None) -> int:
    """Tries the edits of some crates."""
    with tempfile.TemporaryDirectory() as copy:
        shutil.copytree(CRATES, Path(copy, "crates"))
        for name in ("crates.txt", "HANDLES"):
            shutil.copy(TOP / name, copy)
        having = []
        for name in crates:
            edits = [edit for edit in further(CRATES / name) if only in (None, edit.name)]
            if edits:
                in_place_of_the_gates(Path(copy, "crates", name), edits)
                having.append(name)
            else:
                print(f"{name} has no further edits" + (f" of the name {only}" if only else ""))
        if not having:
            return 0 if only is None else 2
        return subprocess.run(["rt", "must-fail", *having], cwd=copy, check=False).returncode


def main() -> int:
    assert __doc__
    options = argparse.ArgumentParser(description=__doc__.split("\n\n")[0])
    options.add_argument("--only", metavar="NAME", help="tries this edit alone")
    options.add_argument("--apply", action="store_true", help="tells which can't be applied")
    options.add_argument("crates", nargs="*", metavar="CRATE")
    asked = options.parse_args()
    if asked.apply:
        return apply_all()
    unknown = [name for name in asked.crates if not (CRATES / name).is_dir()]
    if unknown or not asked.crates:
        options.error(f"no crate: {' '.join(unknown)}" if unknown else "which crates?")
    return try_edits(asked.crates, asked.only)


if __name__ == "__main__":
    sys.exit(main())
