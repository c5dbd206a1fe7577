#!/usr/bin/env python3
"""Tries the mutants of a crate many at a time, each check with at most one in a function.

usage: tests/house/together.py [--all] [--control] [--lanes N] [--list] [CRATE..]

The mutants are those of must-fail/, with --all also those of further-edits; without names those of
all crates. The gate of tests/all.py calls this. Libraries must be built, for example by `rt ci`.

A function is proved from the contracts of the functions that it calls, never from their bodies, and
without mutants no goal is open. So if a goal is open in a function with a mutant, the mutant is
refused, whatever else the check changed. A round applies to a copy of the crate as many mutants as
it can, at most one in a function. In the copy the proofs of all other functions are replaced by
holes, so the round proves only the functions with a mutant. The next round takes the other mutants.

Prints a line for each mutant. It is refused if a goal of its function is open, in the round or in a
check of this mutant by itself. Otherwise it is not: it is accepted, or a written proof of the
function no longer fits. Such a refusal may mean nothing, so the mutant should remove this proof too
(emptied.py). Not tried here are mutants of a definition, which belong to no function: those are for
`rt must-fail`. The last line has the counts; the status is 1 if a mutant was not refused.

With --control the same checks run without the mutants: then each function must be proved, since the
holes change nothing. With --list the rounds are printed, nothing else.
"""
from __future__ import annotations

import argparse
import os
import re
import shutil
import sys
import tempfile
from concurrent.futures import ThreadPoolExecutor
from dataclasses import dataclass
from pathlib import Path
from typing import Iterator, Optional, Sequence

sys.path.insert(0, str(Path(__file__).resolve().parents[1]))
from house.checking import TOP, check_says, command_over  # noqa: E402
from house.crate_functions import Function, all_functions, functions  # noqa: E402
from house.further_edits import CRATES, Edit, further, of_the_gate  # noqa: E402

OPEN_GOAL = re.compile(r"^(?:note: )?(?:\./)?((src/[^:\s]+\.rt):(\d+):\d+: "
                       r"(?:it is not proved|`search` found no proof).*)", re.MULTILINE)
AT_A_PROOF = re.compile(r"^(?:\./)?proofs/(\S+)/Answers\.antt:\d+:\d+: error", re.MULTILINE)
UNREAD = re.compile(r"^.*error\[[a-z-]+\].*$", re.MULTILINE)
NOT_PROVED = re.compile(r"^fn (\S+): (?:not proved|could not tell|no proof).*", re.MULTILINE)
ENDED = re.compile(r"^only=\d+ ", re.MULTILINE)
# Memory of one check, in bytes.
MOST_MEMORY = 3_500_000_000
HOLE = """use Rattle.{crate}.proofs.{module}.Statement as stated

pub {name}_spec : {{M : Type 1}} → stated.statement M
{name}_spec = ?
"""


@dataclass
class Attempt:
    """A mutant that was tried, whether that ended as it must, and why. A control has no mutant."""

    crate: str
    edit: str
    is_well: bool
    why: str
    is_control: bool = False

    def __str__(self) -> str:
        name = f"{self.crate}/{self.edit}"
        if self.is_control:
            how = "proved" if self.is_well else f"NOT PROVED: {self.why}"
            return f"without {name}: {how}"
        how = "refused, as it must be" if self.is_well else "NOT REFUSED"
        return f"must-fail {name}: {how}: {self.why}"


class Round:
    """The texts of a crate's files with some mutants applied, and the functions that have one."""

    def __init__(self, crate: Path) -> None:
        self.crate = crate
        self.texts: dict[str, str] = {}
        self.mutants: dict[Function, Edit] = {}

    @property
    def edits(self) -> list[Edit]:
        return list({edit.name: edit for edit in self.mutants.values()}.values())

    def text(self, file: str) -> str:
        """A file with the mutants so far."""
        return self.texts.get(file) or (self.crate / file).read_text(encoding="utf-8")

    def function_at(self, file: str, old: str) -> Optional[Function]:
        """The function that contains a text of a source file."""
        text = (self.crate / file).read_text(encoding="utf-8")
        line = text.count("\n", 0, text.find(old))
        around = [it for it in functions(self.crate, file) if it.first <= line <= it.last]
        return around[-1] if text.count(old) == 1 and around else None

    def has_taken(self, edit: Edit) -> bool:
        """Applies a mutant if its functions have none yet, and all its texts are there once."""
        places, texts = set(), dict(self.texts)
        for file, old, new in edit.changes():
            if file.startswith("src/"):
                place = self.function_at(file, old)
                if place is None or place in self.mutants:
                    return False
                places.add(place)
            text = texts.get(file) or self.text(file)
            if text.count(old) != 1 or "\n" in new:
                return False
            texts[file] = text.replace(old, new)
        if places:
            self.texts = texts
            self.mutants |= {place: edit for place in places}
        return bool(places)

    def alone(self, name: str) -> Round:
        """A round with a single mutant of this one."""
        made = Round(self.crate)
        made.has_taken(next(edit for edit in self.edits if edit.name == name))
        return made

    def attempt(self, edit: Edit, said: str) -> Attempt:
        """How a mutant of this round went, by the output of the check."""
        its = [place for place, one in self.mutants.items() if one is edit]
        for goal, file, number in OPEN_GOAL.findall(said):
            if any(it.file == file and it.first < int(number) <= it.last + 1 for it in its):
                return Attempt(self.crate.name, edit.name, True, goal)
        proofs = AT_A_PROOF.findall(said)
        is_at_proof = any(it.has_proof(proof) for it in its for proof in proofs)
        why = ("a written proof no longer fits" if is_at_proof
               else "no goal of its function is open")
        return Attempt(self.crate.name, edit.name, False, why)


def rounds(crate: Path, edits: Sequence[Edit]) -> Iterator[Round]:
    """The rounds for some mutants. Those that no round can take are left out."""
    while edits:
        made = Round(crate)
        edits = [edit for edit in edits if not made.has_taken(edit)]
        if not made.mutants:
            return
        yield made


def left_out(crate: Path) -> list[Edit]:
    """The mutants of must-fail/ that no round can take."""
    edits = of_the_gate(crate)
    taken = {edit.name for one in rounds(crate, edits) for edit in one.edits}
    return [edit for edit in edits if edit.name not in taken]


def make_room(room: Path, one: Round) -> None:
    """Copies a crate for a round, without mutants. Each proof of a function without a mutant is
    replaced by a hole."""
    for part in ("src", "specs", "proofs"):
        shutil.rmtree(room / part, ignore_errors=True)
        if (one.crate / part).exists():
            shutil.copytree(one.crate / part, room / part)
    for it in all_functions(one.crate):
        if it.place and it not in one.mutants:
            folder = room / "proofs" / it.place
            folder.mkdir(parents=True, exist_ok=True)
            for file in ("Answers.antt", "Invariants.antt"):
                (folder / file).unlink(missing_ok=True)
            text = HOLE.format(crate=one.crate.name, module=it.place.replace("/", "."),
                               name=it.name)
            (folder / "Proof.antt").write_text(text, encoding="utf-8")


def check(one: Round, room: Path, has_mutants: bool) -> str:
    """The output of the check of a round."""
    make_room(room, one)
    if has_mutants:
        for file, text in one.texts.items():
            (room / file).write_text(text, encoding="utf-8")
    command = command_over(TOP, one.crate.name, room.parent / "kept") + ["--allow-holes"]
    paths = sorted({it.path for it in one.mutants})
    return check_says(room, command + [word for path in paths if all(paths)
                                       for word in ("--only", path)])


def tried_in(one: Round, room: Path) -> list[Attempt]:
    """Checks a round with its mutants, and returns how each went."""
    said = check(one, room, has_mutants=True)
    unread = UNREAD.search(said)
    if unread or not ENDED.search(said):
        why = f"the check did not end: {unread[0] if unread else said[-300:]}"
        return [Attempt(one.crate.name, edit.name, False, why) for edit in one.edits]
    return [one.attempt(edit, said) for edit in one.edits]


def try_round(one: Round, room: Path) -> list[Attempt]:
    """Tries the mutants of a round. The checker may skip a function that calls one that it refuses,
    so a mutant that is not refused among others is tried once more by itself."""
    tried = tried_in(one, room)
    if len(tried) == 1:
        return tried
    return [it if it.is_well else tried_in(one.alone(it.edit), room)[0] for it in tried]


def control_round(one: Round, room: Path) -> list[Attempt]:
    """Checks a round without its mutants. Then no goal may be open, so that all that are open in
    the round are those of the mutants."""
    said = check(one, room, has_mutants=False)
    wrong = NOT_PROVED.findall(said) + UNREAD.findall(said)
    if not ENDED.search(said):
        wrong.append(said[-300:])
    return [Attempt(one.crate.name, edit.name, not wrong, ", ".join(wrong), is_control=True)
            for edit in one.edits]


def edits_of(crate: Path, has_further: bool) -> list[Edit]:
    return of_the_gate(crate) + (further(crate) if has_further else [])


def try_crate(crate: Path, has_further: bool, is_control: bool) -> list[Attempt]:
    """Tries the mutants of a crate, and prints a line for each."""
    tried: list[Attempt] = []
    with tempfile.TemporaryDirectory() as folder:
        room = Path(folder, crate.name)
        room.mkdir()
        for one in rounds(crate, edits_of(crate, has_further)):
            ended = (control_round if is_control else try_round)(one, room)
            print(*ended, sep="\n", flush=True)
            tried += ended
    return tried


def lanes_by_memory(lanes: int) -> int:
    """As many of these lanes as the free memory is enough for, at least one."""
    free = re.search(r"^MemAvailable: +(\d+) kB", Path("/proc/meminfo").read_text(), re.MULTILINE)
    return max(1, min(lanes, int(free[1]) * 1024 // MOST_MEMORY)) if free else 1


def try_crates(crates: Sequence[Path], lanes: int, has_further: bool = False,
               is_control: bool = False) -> list[Attempt]:
    """Tries the mutants of some crates, those with the most first, some crates at once."""
    ordered = sorted(crates, key=lambda it: -len(edits_of(it, has_further)))
    with ThreadPoolExecutor(lanes_by_memory(lanes)) as pool:
        tried = pool.map(lambda it: try_crate(it, has_further, is_control), ordered)
        return [attempt for ended in tried for attempt in ended]


def list_rounds(crate: Path, has_further: bool) -> None:
    """Prints the rounds of a crate."""
    for one in rounds(crate, edits_of(crate, has_further)):
        print(f"{crate.name}: {len(one.edits)} mutants:", *(edit.name for edit in one.edits))
    for edit in left_out(crate):
        print(f"{crate.name}: left out: {edit.name}")


def main() -> int:
    assert __doc__
    options = argparse.ArgumentParser(description=__doc__.split("\n\n")[0])
    options.add_argument("--all", action="store_true", help="also the mutants of further-edits")
    options.add_argument("--control", action="store_true", help="checks the rounds unchanged")
    options.add_argument("--lanes", type=int, default=len(os.sched_getaffinity(0)))
    options.add_argument("--list", action="store_true", help="prints the rounds, checks nothing")
    options.add_argument("crates", nargs="*", metavar="CRATE")
    asked = options.parse_args()
    unknown = [name for name in asked.crates if not (CRATES / name).is_dir()]
    if unknown:
        options.error(f"no crate: {' '.join(unknown)}")
    crates = [CRATES / name for name in asked.crates] or sorted(CRATES.iterdir())
    if asked.list:
        for crate in crates:
            list_rounds(crate, asked.all)
        return 0
    tried = try_crates(crates, asked.lanes, asked.all, asked.control)
    wrong = sum(not it.is_well for it in tried)
    print(f"together: {len(tried)} tried, {wrong} not {'proved' if asked.control else 'refused'}")
    return 1 if wrong else 0


if __name__ == "__main__":
    sys.exit(main())
