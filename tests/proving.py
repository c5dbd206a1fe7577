"""The gate of proofs: `rt ci` on a copy of the crates, then the mutants.

`rt ci` proves each crate from nothing. A crate with mutants in must-fail/ is proved once more,
since each mutant is tried over results that are kept apart. So the copy has only the few mutants of
definitions, for which a whole crate must be checked. All others are tried afterwards, many in one
check (tests/house/together.py). What `rt ci` builds in the copy then replaces what was built here.
"""
from __future__ import annotations

import os
import re
import resource
import shutil
import subprocess
import tempfile
from dataclasses import dataclass, field
from pathlib import Path

from house.emptied import refused_at_a_proof
from house.further_edits import CRATES, TOP
from house.together import left_out, try_crates

COUNTS = re.compile(r"([0-9]+) passed, ([0-9]+) failed")


@dataclass
class Tally:
    """The numbers of passed and failed tests, and the cost of the proofs."""

    passed: int = 0
    failed: int = 0
    costs: list[str] = field(default_factory=list)

    def add(self, well: bool) -> None:
        self.passed += well
        self.failed += not well

    def add_cost(self, what: str, before: float) -> None:
        """Prints and keeps the processor time since a reading of processor_minutes()."""
        self.costs.append(f"{what} took {processor_minutes() - before:.0f} processor minutes")
        print(self.costs[-1], flush=True)


def processor_minutes() -> float:
    """The processor time in minutes of the commands that have ended."""
    taken = resource.getrusage(resource.RUSAGE_CHILDREN)
    return (taken.ru_utime + taken.ru_stime) / 60


def copy_crates(into: Path) -> None:
    """Copies what `rt ci` reads. Of must-fail/ the copy has only what no round can take."""
    for name in ("crates.txt", "HANDLES"):
        shutil.copy(TOP / name, into)
    shutil.copytree(CRATES, into / "crates",
                    ignore=shutil.ignore_patterns("out", "further-edits", "must-fail"))
    for crate in sorted(CRATES.iterdir()):
        for edit in left_out(crate):
            folder = into / "crates" / crate.name / "must-fail"
            folder.mkdir(exist_ok=True)
            shutil.copy(crate / "must-fail" / f"{edit.name}.edit", folder)


def take_builds(copy: Path) -> None:
    """Moves what was built in a copy to the crates here."""
    for made in sorted(copy.glob("crates/*/out")):
        here = CRATES / made.parent.name / "out"
        shutil.rmtree(here, ignore_errors=True)
        shutil.move(made, here)


def run_rt_ci(copy: Path, tally: Tally) -> bool:
    """Runs `rt ci` on a copy, adds its counts, and returns whether all passed."""
    last, before = "", processor_minutes()
    weak: list[str] = []
    with subprocess.Popen(["rt", "ci"], cwd=copy, stdout=subprocess.PIPE,
                          stderr=subprocess.STDOUT, text=True, errors="replace",
                          env={**os.environ, "PYTHONUNBUFFERED": "1"}) as gate:
        assert gate.stdout
        for line in gate.stdout:
            print(line, end="", flush=True)
            last = line.strip() or last
            weak += refused_at_a_proof(line)
    tally.add_cost("rt ci", before)
    for mutant in weak:
        print(f"weak  {mutant}: refused at a written proof alone (tests/house/emptied.py)")
        tally.add(False)
    counts = COUNTS.fullmatch(last)
    if counts:
        tally.passed += int(counts[1])
        tally.failed += int(counts[2])
    if not counts or (gate.returncode != 0 and counts[2] == "0"):
        print(f"rt ci ended with status {gate.returncode}, and {last!r}")
        tally.add(False)
        return False
    return gate.returncode == 0 and not weak


def try_mutants(tally: Tally, lanes: int) -> bool:
    """Tries the mutants of must-fail/ over what was built, and returns whether all were refused."""
    before = processor_minutes()
    tried = try_crates([it for it in sorted(CRATES.iterdir()) if it.is_dir()], lanes)
    for attempt in tried:
        tally.add(attempt.is_well)
    tally.add_cost("mutants", before)
    return all(it.is_well for it in tried)


def prove(tally: Tally, lanes: int) -> bool:
    """Runs the gate of proofs, adds its counts, and returns whether all passed."""
    with tempfile.TemporaryDirectory(prefix="ctfd-gate-") as copy:
        copy_crates(Path(copy))
        is_proved = run_rt_ci(Path(copy), tally)
        take_builds(Path(copy))
    return is_proved and try_mutants(tally, lanes)
