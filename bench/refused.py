#!/usr/bin/env python3
"""Times requests that are refused because of the quota.

usage: refused.py PROGRAM

Session 1 opens a dictionary of 67,108,864 bytes and publishes it three times, which fills its
quota. Session 2 makes a draft of 5,000 types, takes that dictionary three times, and hands in bytes
until its quota is full except for a few. Then requests that exceed the quota are given many times,
and the program's processor time for each is printed: nothing is built for a refused request, and an
update costs no more than its writing. For comparison, the cost of a granted update of such a draft
is printed too.
"""
import os
import subprocess
import sys
import threading

INT = bytes.fromhex("f1cf0200" + 24 * "00" + "0c00000005000000" + "01000000000c040020000001"
                    + "00696e7400")
LONGEST, PIECE = 67_108_864, 262_144
TYPES = 5_000


def line(session, word, **fields):
    text = "".join(f',"{key}":' + (f'"{value}"' if isinstance(value, str) else str(value))
                   for key, value in fields.items())
    return f'{{"s":{session},"op":"{word}"{text}}}\n'


def handed_in(session):
    for at in range(0, LONGEST, PIECE):
        piece = (INT if at == 0 else b"").ljust(PIECE, b"\0")
        yield line(session, "part", section="ctf", bytes=piece.hex())


def draft(session, types):
    """Slot 1: integers with different names, not updated yet."""
    yield line(session, "create")
    for i in range(types):
        yield line(session, "add", d=1, what="integer", name=f"number_{i}", encoding=0, offset=0,
                   bits=32, size=4)


def full_sessions():
    """Session 1 is full by publications, and session 2, which has a draft, by what it took."""
    yield from handed_in(1)
    yield line(1, "open")
    for name in "abc":
        yield line(1, "publish", d=1, name=name)
    yield from draft(2, TYPES)
    for _ in range(3):
        yield line(2, "take", owner=1, name="a")
    yield from handed_in_but(2)


def handed_in_but(session):
    """Staged bytes: a quarter of the quota, except for the size of a draft without types."""
    for at in range(0, LONGEST - PIECE, PIECE):
        yield line(session, "part", section="str", bytes=(b"\0" * PIECE).hex())
    yield line(session, "part", section="str", bytes=(b"\0" * (PIECE - 64)).hex())


# the number of times that each is given, and the request
REFUSED = {
    "publish": (10_000, line(1, "publish", d=1, name="d")),
    "part": (10_000, line(1, "part", section="str", bytes="00")),
    "take": (10_000, line(2, "take", owner=1, name="a")),
    "update": (20, line(2, "update", d=1)),
}


class Service:
    """A service, and its processor time between requests."""

    def __init__(self, program):
        self.child = subprocess.Popen([program, "serve"], stdin=subprocess.PIPE,
                                      stdout=subprocess.PIPE)

    def processor_seconds(self):
        """The processor time of the service in seconds."""
        with open(f"/proc/{self.child.pid}/stat") as stat:
            fields = stat.read().rpartition(")")[2].split()
        return (int(fields[11]) + int(fields[12])) / os.sysconf("SC_CLK_TCK")

    def ask(self, lines):
        """The replies to lines, and the processor time that they took."""
        lines, before = list(lines), self.processor_seconds()
        writer = threading.Thread(target=self.write, args=(lines,))
        writer.start()
        replies = [self.child.stdout.readline() for _ in lines]
        writer.join()
        return replies, self.processor_seconds() - before

    def write(self, lines):
        self.child.stdin.write("".join(lines).encode())
        self.child.stdin.flush()

    def end(self):
        self.child.stdin.close()
        self.child.wait()


def main(program):
    service = Service(program)
    service.ask(full_sessions())
    for name, (times, text) in REFUSED.items():
        replies, seconds = service.ask(times * [text])
        if not all(b"QuotaFull" in reply for reply in replies):
            sys.exit(f"{name} was not refused: {replies[0]}")
        print(f"{name:8} refused {1_000_000 * seconds / times:10.1f} microseconds")
    service.end()
    service = Service(program)
    service.ask(draft(2, TYPES))
    replies, seconds = service.ask(20 * [line(2, "update", d=1)])
    if b"fault" in replies[0]:
        sys.exit(f"update was refused: {replies[0]}")
    print(f"update   granted {1_000_000 * seconds / 20:10.1f} microseconds")
    service.end()


if __name__ == "__main__":
    sys.exit(main(sys.argv[1]) if len(sys.argv) == 2 else __doc__)
