#!/usr/bin/env python3
"""Counts the instructions of requests in a session of few slots and in one of many.

usage: charging.py PROGRAM

A session makes a few slots, and then one more, or 1,000, of an empty dictionary each. Then some
lines are given many times. The instructions of these (by callgrind), without those of the same
stream without them, are printed for each time: the bytes that a session holds are counted when they
change, not again for each request.
"""
import re
import subprocess
import sys

EMPTY = "f1cf0200" + 32 * "00"
# a child of "p" without types, and an integer that is its parent's only type
CHILD = "f1cf0200" + "00000000" "01000000" + 20 * "00" + "03000000" + "007000"
INT = "f1cf0200" + 24 * "00" + "0c00000005000000" + "01000000000c040020000001" + "00696e7400"
FEW, MANY = 1, 1_000


def line(word, **fields):
    text = "".join(f',"{key}":' + (f'"{value}"' if isinstance(value, str) else str(value))
                   for key, value in fields.items())
    return f'{{"s":1,"op":"{word}"{text}}}\n'


def open_lines(ctf):
    yield line("part", section="ctf", bytes=ctf)
    yield line("open")


def first_slots():
    """Slot 1 is a child, slot 2 an integer, slot 3 a draft; the integer is published as `base`."""
    yield from open_lines(CHILD)
    yield from open_lines(INT)
    yield line("create")
    yield line("publish", d=2, name="base")


# the lines that are repeated, from the number of the next slot
REPEATED = {
    "part": lambda d: line("part", section="str", bytes="00"),
    "open, close": lambda d: "".join(open_lines(EMPTY)) + line("close", d=d),
    "import": lambda d: line("import", d=1, parent=2),
    "publish, withdraw":
        lambda d: line("publish", d=2, name="more") + line("withdraw", name="more"),
    "take, close": lambda d: line("take", owner=1, name="base") + line("close", d=d),
    "create, close": lambda d: line("create") + line("close", d=d),
    "update": lambda d: line("update", d=3),
    "kind": lambda d: line("kind", d=2, t=1),
}


def lines(slots, times, repeated):
    yield from first_slots()
    for _ in range(slots):
        yield from open_lines(EMPTY)
    for i in range(times):
        yield repeated(4 + slots + i)


def instructions(program, slots, times, repeated):
    command = ["valgrind", "--tool=callgrind", "--callgrind-out-file=/dev/null", program, "serve"]
    text = "".join(lines(slots, times, repeated)).encode()
    said = subprocess.run(command, input=text, stdout=subprocess.PIPE, stderr=subprocess.PIPE,
                          check=True)
    if b"fault" in said.stdout:
        sys.exit("a request was refused: " + said.stdout.decode().splitlines()[-1])
    return int(re.search(rb"Collected : (\d+)", said.stderr).group(1))


def each(program, slots, repeated, times=2_000):
    """The number of instructions of the lines, given once."""
    without = instructions(program, slots, 0, repeated)
    counted = instructions(program, slots, times, repeated) - without
    return counted / times


def main(program):
    for name, repeated in REPEATED.items():
        few, many = (each(program, slots, repeated) for slots in (FEW, MANY))
        print(f"{name:20} {few:8.0f} instructions with {FEW} slot more, {many:8.0f} with {MANY}:"
              f" {many / few:.3f}")


if __name__ == "__main__":
    sys.exit(main(sys.argv[1]) if len(sys.argv) == 2 else __doc__)
