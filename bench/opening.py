#!/usr/bin/env python3
"""Measures opening a dictionary, and how the cost grows with the number of types or symbols.

usage: opening.py PROGRAM

Each dictionary is handed in and opened twenty times (twice if it has more than 8 MB), then handed
in and only checked, and then handed in and dropped by a reset. The differences are the costs of
`open` and `check` (processor time, the least of five runs). Then valgrind counts the instructions
of one `open` for all types or symbols and for half of them: the ratio of the two shows how the cost
grows, and 2 is linear.
"""
import re
import subprocess
import sys
import tempfile

import run
from dictionaries import (
    all_parts,
    endless,
    enumerators,
    labels,
    mixed_types,
    named_types,
    overlapping,
    overlapping_names,
    plain_names,
    symbols,
    unions,
)


def repeats(lists):
    """The number of times that a dictionary is opened."""
    return 20 if sum(map(len, lists)) < 8_000_000 else 2


def lines(lists, word, times):
    for _ in range(times):
        yield from all_parts(1, lists)
        yield '{"s":1,"op":"%s"}\n' % word
        yield '{"s":1,"op":"reset"}\n'


def seconds(program, lists, word):
    """The processor time of one request with handing in, and the peak memory."""
    times = repeats(lists)
    with tempfile.NamedTemporaryFile("w", suffix=".jsonl") as file:
        file.writelines(lines(lists, word, times))
        file.flush()
        used, _, memory = min(run.run([program, "serve"], file.name) for _ in range(5))
    return used / times, memory


def instructions(program, lists, word):
    """The number of instructions of a stream with one request."""
    command = ["valgrind", "--tool=callgrind", "--callgrind-out-file=/dev/null", program, "serve"]
    text = "".join(lines(lists, word, 1)).encode()
    said = subprocess.run(command, input=text, stdout=subprocess.DEVNULL, stderr=subprocess.PIPE,
                          check=True)
    return int(re.search(rb"Collected : (\d+)", said.stderr).group(1))


def growth(program, make, count):
    """The ratio of the instructions for all types or symbols to those for half of them."""
    costs = []
    for size in (count // 2, count):
        lists = make(size)
        costs.append(instructions(program, lists, "open") - instructions(program, lists, "reset"))
    return costs[1] / costs[0]


def alone(make):
    """A function that makes such a dictionary without symbols."""
    return lambda count: (make(count),)


ROWS = [
    ("mixed", alone(mixed_types), 32_766, "types"),
    ("unions", alone(unions), 32_256, "types"),
    ("enumerators", alone(enumerators), 128, "types"),
    ("named", alone(named_types), 30_000, "types"),
    ("plain names", alone(plain_names), 32_766, "types"),
    ("overlapping names", alone(overlapping_names), 32_766, "types"),
    ("symbols", symbols, 100_000, "symbols"),
    ("overlapping", overlapping, 100_000, "symbols"),
    ("endless", endless, 600_000, "symbols"),
    ("labels", labels, 1_000_000, "labels"),
]


def main(program):
    for name, make, count, what in ROWS:
        lists = make(count)
        opened, memory = seconds(program, lists, "open")
        checked, _ = seconds(program, lists, "check")
        dropped, _ = seconds(program, lists, "reset")
        cost, megabytes = max(0, 1000 * (opened - dropped)), sum(map(len, lists)) / 1_000_000
        judged = max(0, 1000 * (checked - dropped))
        print(
            f"{name:18}{count:8} {what:7} {megabytes:6.2f} MB {judged:6.2f} ms for one check"
            f" {cost:6.2f} ms for one open {cost / megabytes:6.2f} ms/MB"
            f"  to half of them {growth(program, make, count):5.2f} {memory:8} KiB"
        )


if __name__ == "__main__":
    sys.exit(main(sys.argv[1]) if len(sys.argv) == 2 else __doc__)
