#!/usr/bin/env python3
"""Measures the first question to a running process, with ctfd-show and gdb.

usage: showing.py EXPRESSION PROGRAM [WORD..]

PROGRAM has debug information, and waits when it is run with the WORDs. It runs three times: with
its types as CTF and without debug information, unchanged, and unchanged except for symbols, if it
was stripped. Each is asked in turn, ten times. Prints the least and the median of the processor
time in milliseconds: of ctfd-show with CTF, of ctfd-show with CTF for the expression `1`, which
needs no symbols and no types, of ctfd-show with debug information, and of gdb with debug
information.
"""
from __future__ import annotations

import os
import statistics
import subprocess
import sys
import tempfile
import time
from pathlib import Path
from typing import Dict, List

TOP = Path(__file__).resolve().parents[1]
COMPILED = Path(os.environ.get("CARGO_TARGET_DIR") or TOP / "clients/rust/target") / "release"
TURNS = 10


def cost(words: List[str]) -> float:
    """The processor time of a command, in milliseconds."""
    with open(os.devnull, "wb") as nothing:
        door = subprocess.Popen(words, stdin=subprocess.DEVNULL, stdout=nothing, stderr=nothing)
        _, status, used = os.wait4(door.pid, 0)
    door.returncode = os.waitstatus_to_exitcode(status)
    if door.returncode:
        sys.exit(f"status {door.returncode}: {' '.join(words)}")
    return 1000 * (used.ru_utime + used.ru_stime)


def start(program: Path, words: List[str], folder: Path) -> "subprocess.Popen[bytes]":
    folder.mkdir()
    return subprocess.Popen([str(program), *words], cwd=folder, stdin=subprocess.PIPE,
                            stdout=subprocess.DEVNULL, stderr=subprocess.DEVNULL)


def main(expression: str, program: Path, words: List[str]) -> None:
    show = str(COMPILED / "ctfd-show")
    with tempfile.TemporaryDirectory() as work:
        with_types = Path(work, "with_types")
        subprocess.run([COMPILED / "ctfd-convert", "--lossy", "--section", program, with_types],
                       check=True, stderr=subprocess.DEVNULL)
        subprocess.run(["objcopy", "--strip-debug", str(with_types)], check=True)
        running = [start(with_types, words, Path(work, "one")),
                   start(program, words, Path(work, "two"))]
        time.sleep(2)
        try:
            typed, plain = (str(one.pid) for one in running)
            asked: Dict[str, List[str]] = {
                "ctfd-show, CTF": [show, "--pid", typed, expression],
                "ctfd-show, `1`": [show, "--pid", typed, "1"],
                "ctfd-show, debug information": [show, "--pid", plain, expression],
                "gdb": ["gdb", "-nx", "-batch", "-p", plain, "-ex", f"print {expression}",
                        str(program)]}
            costs: Dict[str, List[float]] = {name: [] for name in asked}
            for _ in range(TURNS):
                for name, line in asked.items():
                    costs[name].append(cost(line))
        finally:
            for one in running:
                one.kill()
                one.wait()
    for name, listed in costs.items():
        print(f"{name}: {min(listed):.0f}; {statistics.median(listed):.0f} ms")


if __name__ == "__main__":
    if len(sys.argv) < 3:
        sys.exit(__doc__)
    main(sys.argv[1], Path(sys.argv[2]).resolve(), sys.argv[3:])
