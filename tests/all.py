#!/usr/bin/env python3
"""Runs every test on the built program; with --prove, the gate of proofs first.

usage: tests/all.py [--prove | --prove-only | --program PROGRAM] [--whole] [--lanes N] [PART..]

The built program is the one that `make` or `make prove` put into crates/ctfd/out (the library:
crates/ctf_c/out), or PROGRAM. As many parts run at once as there are processors, or N. If parts are
named, only these run; `tests/all.py no_such_part` lists all. With --whole, parts that otherwise try
only some of their cases (growths, front, convert and others) try all.

With --prove, `rt ci` and the mutants come first (tests/proving.py), and print their progress; two
lines have the processor time that they took, and are printed again before the last line. If a
mutant was refused only because of a written proof, it counts as a failure, since it may show
nothing (tests/house/emptied.py). The parts then run on what the kit has built. One more part,
`quick`, builds the program and the library without their proofs and compares the two builds
(tests/doors/packages/quick.sh). With --prove-only no part follows.

The output of a part goes to a file, and is shown if the part fails. A part that needs something
that is not installed, such as gdb, prints a line that begins with `skipped: `, which is shown; with
STRICT=1 in the environment it counts as a failure. A line that begins with `not possible here: `
never counts as one: it is for what no package can provide, for example where no program may be
traced.

The last line is `N passed, M failed`, with what `rt ci` counts, and each mutant and part as one. The status is
0 if M is 0.
"""
from __future__ import annotations

import argparse
import os
import signal
import sys
import tempfile
from pathlib import Path
from typing import Optional

from lanes import Lanes
from parts import TOP, Part, archive, parts, quick, whole
from proving import Tally, prove

sys.path.insert(0, str(TOP / "scripts"))
import built  # noqa: E402
from kit import Kit, NoKit  # noqa: E402


def sources() -> Optional[str]:
    """The hash of the program's sources, or None without a kit to build it."""
    try:
        return built.sum_of_sources(TOP, Kit.find().identity)
    except NoKit:
        return None


def prove_and_build(tally: Tally, lanes: int, run: Lanes) -> None:
    """Proves everything, and records the kit's build as the built program."""
    before = sources()
    is_proved = prove(tally, lanes)
    made = run.run().values()
    for well in made:
        tally.add(well)
    if before and is_proved and all(made) and before == sources():
        built.tell(built.How.PROVED, before, built.sum_of_calls())


def says_what_is_built(program: Path) -> str:
    """A line about the program that the parts run on."""
    stands = built.record_of_out() if program == built.PROGRAM else None
    if not stands:
        return f"over {program}"
    how = {built.How.PROVED: "which the kit built with its proofs",
           built.How.QUICK: "a quick build"}
    return f"over {program.relative_to(TOP)}, {how[stands.how]}"


def given_words() -> tuple[argparse.Namespace, list[Part]]:
    """The options, and the parts that are to run."""
    assert __doc__
    options = argparse.ArgumentParser(usage=__doc__.split("usage: ")[1].split("\n")[0])
    how = options.add_mutually_exclusive_group()
    how.add_argument("--program", type=Path, default=built.PROGRAM)
    how.add_argument("--prove", action="store_true")
    how.add_argument("--prove-only", action="store_true")
    options.add_argument("--whole", action="store_true")
    options.add_argument("--lanes", type=int, default=len(os.sched_getaffinity(0)))
    options.add_argument("part", nargs="*")
    given = options.parse_args()
    given.program = given.program.resolve()
    given.proves = given.prove or given.prove_only
    program = str(given.program)
    first = quick(program) if given.proves else archive(is_made=False)
    every = [first, *parts(program)]
    if given.whole:
        every = [whole(part) for part in every]
    names = [part.name for part in every]
    if set(given.part) - set(names):
        options.error(f"the parts are {' '.join(names)}")
    wanted = [] if given.prove_only else given.part or names
    return given, [part for part in every if part.name in wanted]


def main() -> int:
    given, wanted = given_words()
    signal.signal(signal.SIGTERM, lambda *_: sys.exit("ended by a signal"))
    tally, is_strict = Tally(), os.environ.get("STRICT", "") not in ("", "0")
    with tempfile.TemporaryDirectory() as folder:
        if given.proves:
            prove_and_build(tally, given.lanes,
                            Lanes([archive(is_made=True)], 1, is_strict, Path(folder)))
        if os.access(given.program, os.X_OK):
            if wanted:
                print(says_what_is_built(given.program), flush=True)
            lanes = Lanes(wanted, max(given.lanes, 1), is_strict, Path(folder))
            for well in lanes.run().values():
                tally.add(well)
        else:
            print(f"FAILED  there is no program {given.program}")
            tally.add(False)
    for cost in tally.costs:
        print(cost)
    print(f"{tally.passed} passed, {tally.failed} failed")
    return 1 if tally.failed else 0


if __name__ == "__main__":
    sys.exit(main())
