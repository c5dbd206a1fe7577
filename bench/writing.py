#!/usr/bin/env python3
"""Measures writing and updating a draft, and opening the resulting dictionary.

usage: writing.py PROGRAM

PROGRAM is built from writing.txt. For each line it makes a draft, and then writes it, updates it,
or opens the written dictionary a number of times; 20 operations cost the difference between 21 and
one. Processor time is the least of five runs. valgrind counts instructions for all types and for
half of them: the ratio of the two shows how the cost grows, and 2 is linear.
"""
import re
import subprocess
import sys
import tempfile

import run

ROWS = [("named", 30_000), ("plain", 32_766)]
TIMES = 20


def seconds(program, line):
    """The processor time of a run of one line."""
    with tempfile.NamedTemporaryFile("w") as file:
        file.write(line)
        file.flush()
        return min(run.run([program], file.name) for _ in range(5))[0]


def instructions(program, line):
    """The number of instructions of a run of one line."""
    command = ["valgrind", "--tool=callgrind", "--callgrind-out-file=/dev/null", program]
    said = subprocess.run(command, input=line.encode(), stdout=subprocess.DEVNULL,
                          stderr=subprocess.PIPE, check=True)
    return int(re.search(rb"Collected : (\d+)", said.stderr).group(1))


def cost(measure, program, what, types, count):
    """The cost of one operation."""
    more, once = (measure(program, f"{what} {types} {count} {times}\n") for times in (1 + TIMES, 1))
    return (more - once) / TIMES


def main(program):
    for types, count in ROWS:
        opening = None
        for what in ("open", "write", "update"):
            used = cost(seconds, program, what, types, count)
            half, whole = (cost(instructions, program, what, types, size)
                           for size in (count // 2, count))
            opening = opening or whole
            print(
                f"{types:6}{count:6} types {what:7}{1000 * used:6.2f} ms"
                f" {whole / 1e6:6.1f} million instructions, {whole / half:.2f} times those of half,"
                f" {whole / opening:.2f} times those of open",
                flush=True,
            )


if __name__ == "__main__":
    sys.exit(main(sys.argv[1]) if len(sys.argv) == 2 else __doc__)
