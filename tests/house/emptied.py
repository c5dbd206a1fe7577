#!/usr/bin/env python3
"""Tries mutants again without the written proofs that no longer fit them.

usage: tests/house/emptied.py [--libraries FOLDER] CRATE[/EDIT]..
       tests/house/emptied.py --log FILE

If the gate refuses a mutant only because a written proof no longer fits, the mutant may still
satisfy the contract: another proof might exist. This script puts each mutant of a crate's
must-fail/ into a copy, checks the crate, and removes each written answer at which the check stops,
until none is left or the mutant is accepted. It prints the result of the last check:

- `false`: a goal is left open, and the prover names values that make it false;
- `open`: a goal is left open. It is printed, for a person to judge;
- `names`: an invariant or a lemma names what the edit removed, so nothing was tried;
- `accepted`: the mutant is proved. It shows nothing: write another.

The status is 1 if a mutant is accepted, or if nothing of it was tried. The copy begins with what is
built here, so `rt check` in the crate first makes this fast.

With `--log` nothing is tried: FILE is the output of `rt ci` or `rt must-fail`, and each mutant that
was refused first at a written proof is named; the status is then 1. Such a mutant should also
remove the answers that no longer fit it, between `{-` and `-}`, so that the goal is left open.

With `--libraries` the crates below are not proved first. They are taken from the builds in FOLDER,
which has crates/NAME/out/rlib of each as `rt ci` leaves them, from the same files as here. The
first mutant of a crate then takes as long as a check of the crate, and the next ones less.
"""
from __future__ import annotations

import argparse
import os
import re
import shutil
import sys
import tempfile
from dataclasses import dataclass
from pathlib import Path
from typing import Iterator

sys.path.insert(0, str(Path(__file__).resolve().parents[1]))
from house.checking import TOP, check_says, command_over  # noqa: E402
from house.further_edits import CRATES, Edit, of_the_gate  # noqa: E402

ERROR = re.compile(r"^(?:\./)?(proofs/\S+\.antt):(\d+):\d+: error", re.MULTILINE)
GOAL = re.compile(r"^note: (src/\S+: it is not proved that .*)$", re.MULTILINE)
VALUES = re.compile(r"may be false: (.*)$", re.MULTILINE)
AT_A_PROOF = re.compile(r"must-fail (\S+): refused, as it must be"
                        r"(?: \(only because a proof file|: (?:note: )?(?:\./)?proofs/)")
SIGNATURE = re.compile(r"^(?:abbrev |unfoldable )?(?:pub )?([\w-]+) :")
MOST_TRIES = 12


@dataclass(frozen=True)
class Finding:
    """The result for a mutant, and the last output of the check."""

    kind: str
    said: str

    @property
    def is_well(self) -> bool:
        return self.kind in ("false", "open")


def refused_at_a_proof(said: str) -> list[str]:
    """The mutants that were refused at a written proof, with no goal reported before, by `rt`'s
    output."""
    return AT_A_PROOF.findall(said)


def link_or_copy(one: str, other: str) -> None:
    """Copies a file, or links it if a check replaces it and never changes it."""
    if one.endswith(".oantt"):
        os.link(one, other)
    else:
        shutil.copy2(one, other)


def copy_tree(into: Path) -> None:
    """Copies the files that a check reads, and what earlier checks have left."""
    try:
        shutil.copytree(CRATES, into / "crates", copy_function=link_or_copy)
    except (OSError, shutil.Error):
        shutil.rmtree(into / "crates", ignore_errors=True)
        shutil.copytree(CRATES, into / "crates")
    for name in ("crates.txt", "HANDLES"):
        shutil.copy(TOP / name, into)


def mutate(crate: Path, edit: Edit) -> None:
    """Applies the changes of an edit."""
    for file, old, new in edit.changes():
        path = crate / file
        text = path.read_text(encoding="utf-8")
        path.unlink()
        path.write_text(text.replace(old, new), encoding="utf-8")


def declarations(lines: list[str]) -> Iterator[tuple[int, int]]:
    """The first line, from 0, of each declaration in a file, and the line after it."""
    starts = [number for number, line in enumerate(lines) if SIGNATURE.match(line)]
    yield from zip(starts, [*starts[1:], len(lines)])


def imports(lines: list[str]) -> Iterator[tuple[int, int]]:
    """The line of each import, and the line after it. An import may be there only for an answer
    that is removed, and may name something that only the original code had."""
    yield from ((at, at + 1) for at, line in enumerate(lines) if line.startswith("use "))


def remove_at(path: Path, numbers: list[int]) -> bool:
    """Removes the declarations and imports at some lines from a file of answers. Returns whether
    there were any."""
    lines = path.read_text(encoding="utf-8").splitlines()
    refused = [(begin, end) for begin, end in [*declarations(lines), *imports(lines)]
               if any(begin < number <= end for number in numbers)]
    for begin, end in sorted(refused, reverse=True):
        del lines[begin:end]
    if refused:
        path.unlink()
        if any(SIGNATURE.match(line) for line in lines):
            path.write_text("\n".join(lines) + "\n", encoding="utf-8")
    return bool(refused)


def with_libraries(text: str) -> Path:
    """A folder that has built libraries."""
    folder = Path(text).resolve()
    if not any(folder.glob("crates/*/out/rlib")):
        raise argparse.ArgumentTypeError(f"{text} has no crates/NAME/out/rlib: build it first")
    return folder


def take_out(crate: Path, said: str) -> bool:
    """Removes the answers that the check refused. Returns whether there were any."""
    places: dict[str, list[int]] = {}
    for file, line in ERROR.findall(said):
        if file.endswith(("/Answers.antt", "/Proof.antt")) and (crate / file).exists():
            places.setdefault(file, []).append(int(line))
    return any([remove_at(crate / file, numbers) for file, numbers in places.items()])


def judge(crate: Path, command: list[str]) -> Finding:
    """The finding for a mutant without the proofs that do not fit it."""
    for _ in range(MOST_TRIES):
        said = check_says(crate, command)
        if not take_out(crate, said):
            break
    if "logic=proved" in said:
        return Finding("accepted", "")
    goals, values = GOAL.findall(said), VALUES.findall(said)
    if goals:
        return Finding("false" if values else "open", "; ".join([*goals, *values]))
    return Finding("names", next(iter(said.splitlines()), ""))


def of_crate(name: str, only: str, copy: Path,
             libraries: Path | None) -> Iterator[tuple[str, Finding]]:
    """Each mutant of a crate with its finding."""
    crate = copy / "crates" / name
    plain = copy / "plain"
    command = command_over(libraries, name, copy / "kept") if libraries else ["rt", "check"]
    shutil.copytree(crate, plain, copy_function=link_or_copy)
    for edit in of_the_gate(CRATES / name):
        if only in ("", edit.name):
            shutil.rmtree(crate)
            shutil.copytree(plain, crate, copy_function=link_or_copy)
            mutate(crate, edit)
            yield edit.name, judge(crate, command)
    shutil.rmtree(plain)


def main() -> int:
    assert __doc__
    options = argparse.ArgumentParser(usage=__doc__.split("usage: ")[1].split("\n")[0])
    options.add_argument("--libraries", type=with_libraries)
    options.add_argument("--log", type=Path)
    options.add_argument("crates", nargs="*", metavar="CRATE[/EDIT]")
    given = options.parse_args()
    if bool(given.log) == bool(given.crates):
        options.error("name a log, or crates")
    if given.log:
        weak = refused_at_a_proof(given.log.read_text(encoding="utf-8", errors="replace"))
        print(*weak, sep="\n", end="\n" if weak else "")
        return 1 if weak else 0
    wrong = 0
    with tempfile.TemporaryDirectory() as copy:
        copy_tree(Path(copy))
        for asked in given.crates:
            name, _, only = asked.partition("/")
            for edit, found in of_crate(name, only, Path(copy), given.libraries):
                print(f"{name}/{edit}: {found.kind}: {found.said}", flush=True)
                wrong += not found.is_well
    return 1 if wrong else 0


if __name__ == "__main__":
    sys.exit(main())
