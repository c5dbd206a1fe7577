#!/usr/bin/env python3
"""Measures opening a large dictionary, compared with one of a quarter of its size.

usage: large.py PROGRAM

Each is a program's symbols, 15 MB and 60 MB with their strings and types. It is handed in and
opened, and then handed in and dropped by a reset; the difference is the cost of `open`, in
processor time (the least of five runs) and in instructions, counted by valgrind. Memory is the
program's peak. All are printed per MB, with the ratio of the larger dictionary's to the smaller's.
"""
import sys

import opening
from dictionaries import symbols

COUNTS = 300_000, 1_200_000


def costs(program, count):
    """The megabytes, and the milliseconds, millions of instructions and KiB of memory per MB."""
    lists = symbols(count)
    megabytes = sum(map(len, lists)) / 1_000_000
    opened, memory = opening.seconds(program, lists, "open")
    dropped, _ = opening.seconds(program, lists, "reset")
    counted = (opening.instructions(program, lists, "open")
               - opening.instructions(program, lists, "reset"))
    return (megabytes, 1000 * (opened - dropped) / megabytes, counted / 1_000_000 / megabytes,
            memory / megabytes)


def main(program):
    small, large = (costs(program, count) for count in COUNTS)
    for count, (megabytes, milliseconds, counted, memory) in zip(COUNTS, (small, large)):
        print(f"{count:8} symbols {megabytes:6.2f} MB: for one open {milliseconds:6.2f} ms/MB,"
              f" {counted:5.2f} million instructions/MB, {memory:5.0f} KiB/MB")
    time, count, memory = (large[i] / small[i] for i in (1, 2, 3))
    print(f"growth for each MB: time {time:.2f}, instructions {count:.2f}, memory {memory:.2f}")


if __name__ == "__main__":
    sys.exit(main(sys.argv[1]) if len(sys.argv) == 2 else __doc__)
