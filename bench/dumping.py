#!/usr/bin/env python3
"""Measures dumps, and how their cost grows with the number of types.

usage: dumping.py PROGRAM

Each dictionary is dumped to a pipe that is read to its end (processor time, the least of five
runs). If valgrind is installed, the instructions of a dump are counted for all types and for half
of them: the ratio of the two shows how the cost grows, and 2 is linear.
"""
import re
import shutil
import subprocess
import sys
import tempfile

import run
from dictionaries import mixed_types, named_types


def instructions(program, ctf):
    """The number of instructions of one dump."""
    with tempfile.NamedTemporaryFile(suffix=".ctf") as file:
        file.write(ctf)
        file.flush()
        command = ["valgrind", "--tool=callgrind", "--callgrind-out-file=/dev/null", program,
                   "dump", file.name]
        said = subprocess.run(command, stdout=subprocess.DEVNULL, stderr=subprocess.PIPE,
                              check=True)
    return int(re.search(rb"Collected : (\d+)", said.stderr).group(1))


def seconds(program, ctf):
    """The processor time, number of lines, and peak memory of a dump."""
    with tempfile.NamedTemporaryFile(suffix=".ctf") as file:
        file.write(ctf)
        file.flush()
        return min(run.run([program, "dump", file.name], "/dev/null") for _ in range(5))


def main(program):
    for name, make, count in [("named", named_types, 30_000), ("mixed", mixed_types, 32_766)]:
        used, lines, memory = seconds(program, make(count))
        print(f"{name}: {count} types, {lines} lines, {1000 * used:.0f} ms,"
              f" {memory / 1024:.1f} MB", flush=True)
        if shutil.which("valgrind"):
            half, whole = (instructions(program, make(size)) for size in (count // 2, count))
            print(f"    {whole / 1e6:.1f} million instructions,"
                  f" {whole / half:.2f} times those of half", flush=True)


main(sys.argv[1])
