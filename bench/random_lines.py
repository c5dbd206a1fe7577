#!/usr/bin/env python3
"""Gives two programs the same random lines, and compares their replies byte by byte.

usage: random_lines.py PROGRAM OTHER [LINES [SEED]]

The lines are requests of the repository's own runs, with all words, for a few sessions that keep
the state of earlier lines. Two in five are broken or mutated: bytes lost, doubled or replaced,
numbers out of range, keys given twice, other sessions, words and fields. Lines come in blocks, each
a run with other lines between its own. One line in ten is new; the others are from earlier blocks,
in another order and so in other states. Each program gets the lines in different pieces of 1 to
65,536 bytes, one per read. The default of LINES is 1,000,000. Prints the number of compared lines.
If replies differ, the lines up to there are in random_lines.jsonl, and the status is 1. Needs
Linux.
"""
from __future__ import annotations

import random
import re
import socket
import subprocess
import sys
import threading
from collections.abc import Iterator
from concurrent.futures import ThreadPoolExecutor
from dataclasses import dataclass
from itertools import zip_longest
from pathlib import Path

TOP = Path(__file__).resolve().parents[1]
sys.path.insert(0, str(TOP / "tests"))
from doors.service.runs import examples, transcripts  # noqa: E402

LONGEST_READ = 65_536
# A run of the repository with a longer line takes too much time.
LONGEST_LINE = 20_000
LINES_A_ROUND = 200_000
# One line of so many in a round is new.
ONE_NEW_IN = 10
# The number of blocks that are kept for later rounds.
MOST_BLOCKS = 20_000
SESSIONS = 12
NUMBER = re.compile(rb"-?[0-9]+")
STRING = re.compile(rb'"[^"\\]*"')
NUMBERS = (
    b"0", b"1", b"2", b"3", b"7", b"15", b"255", b"256", b"1023", b"1024", b"32766", b"32767",
    b"65535", b"65536", b"2147483647", b"2147483648", b"4294967295", b"4294967296",
    b"9223372036854775807", b"9223372036854775808", b"18446744073709551615",
    b"18446744073709551616", b"99999999999999999999", b"-1", b"-0", b"0.0", b"1.0", b"1e0",
    b"1e1", b"1e400", b"-1e400", b"1e-400", b"00", b"01", b"+1", b".5", b"1.", b"0x1", b"null",
    b"true", b'"1"', b"[]", b"{}", b"-9223372036854775808", b"-9223372036854775809",
)
TEXTS = (
    b'""', b'"ctf"', b'"sym"', b'"str"', b'"struct"', b'"a\\u0000b"', b'"\\\\x00"', b'"\\\\x0g"',
    b'"\\ud800"', b'"\\ud83d\\ude00"', b'"\xc3\xa9"', b'"\xff"', b'"\\"', b'"int"', b'"00"',
    b'"0"', b'"F1cf"', b'"zz"', b"7", b"null", b"false",
)
PIECES_OF_JSON = (
    b"{", b"}", b"[", b"]", b",", b":", b'"', b"\\", b" ", b"\t", b"\r", b"\x00", b"\x7f",
    b"\x80", b"\xff", b"0", b"-", b"e", b"null", b'"s":1,', b'"d":1,',
)


class Mismatch(Exception):
    """The programs replied differently."""


@dataclass(frozen=True)
class Block:
    """Lines that stay together, each with its newline."""

    text: bytes
    lines: int


@dataclass
class Maker:
    """Makes lines from runs of requests, with mutated single requests between them."""

    luck: random.Random
    runs: list[tuple[bytes, ...]]
    single: list[bytes]

    def spoil(self, line: bytes) -> bytes:
        """A line with some of its bytes lost, doubled or replaced."""
        luck = self.luck
        start = luck.randrange(len(line) + 1)
        end = min(len(line), start + luck.choice((0, 1, 1, 2, 5)))
        middle = luck.choice((b"", line[start:end] * 2, luck.choice(PIECES_OF_JSON),
                              bytes((luck.randrange(256),))))
        return line[:start] + middle + line[end:]

    def replace_value(self, line: bytes, what: re.Pattern[bytes], by: tuple[bytes, ...]) -> bytes:
        """A line with one of its numbers or strings replaced."""
        places = list(what.finditer(line))
        if not places:
            return line
        place = self.luck.choice(places)
        return line[:place.start()] + self.luck.choice(by) + line[place.end():]

    def double_members(self, line: bytes) -> bytes:
        """A line with the members of another line before or after its own."""
        other = self.luck.choice(self.single).strip()
        if not (line.startswith(b"{") and line.endswith(b"}") and other.startswith(b"{")):
            return line
        first, second = (line, other) if self.luck.random() < 0.5 else (other, line)
        return first[:-1] + b"," + second[1:]

    def address(self, line: bytes, likely: int) -> bytes:
        """A line for one of a few sessions."""
        session = likely if self.luck.random() < 0.6 else self.luck.randint(1, SESSIONS)
        return re.sub(rb'"s":[0-9]+', b'"s":%d' % session, line, count=1)

    def turn(self, line: bytes) -> bytes:
        luck = self.luck
        for _ in range(luck.choice((1, 1, 1, 2, 3))):
            turn = luck.randrange(5)
            if turn == 0:
                line = self.spoil(line)
            elif turn == 1:
                line = self.replace_value(line, NUMBER, NUMBERS)
            elif turn == 2:
                line = self.replace_value(line, STRING, TEXTS)
            elif turn == 3:
                line = self.double_members(line)
            else:
                line = b" " * luck.choice((1, 100, 8_200)) + line
        return line.replace(b"\n", b" ")

    def blocks(self) -> Iterator[Block]:
        """Blocks of lines without end."""
        luck = self.luck
        while True:
            # All lines of a run go to one session, whose state other lines find there.
            session = luck.randint(1, SESSIONS)
            lines = []
            for line in luck.choice(self.runs):
                lines.append(re.sub(rb'"s":[0-9]+', b'"s":%d' % session, line, count=1))
                while luck.random() < 0.7:
                    other = self.address(luck.choice(self.single), session)
                    lines.append(other if luck.random() < 0.4 else self.turn(other))
            if luck.random() < 0.3:
                lines.append(b'{"s":%d,"op":"reset"}' % session)
            yield Block(b"".join(line + b"\n" for line in lines), len(lines))


@dataclass
class Rounds:
    """Draws rounds of lines from kept blocks, and replaces some of these."""

    luck: random.Random
    new: Iterator[Block]
    kept: list[Block]

    def new_blocks(self, lines: int) -> list[Block]:
        """New blocks with at least `lines` lines, which replace some of the kept ones."""
        made, count = [], 0
        while count < lines:
            block = next(self.new)
            made.append(block)
            count += block.lines
            if len(self.kept) < MOST_BLOCKS:
                self.kept.append(block)
            else:
                self.kept[self.luck.randrange(MOST_BLOCKS)] = block
        return made

    def draw(self, lines: int) -> tuple[bytes, int]:
        """At least `lines` lines, and their number."""
        blocks = self.new_blocks(lines // ONE_NEW_IN)
        count = sum(block.lines for block in blocks)
        while count < lines:
            more = self.luck.choices(self.kept, k=50)
            blocks += more
            count += sum(block.lines for block in more)
        self.luck.shuffle(blocks)
        return b"".join(block.text for block in blocks), count


def feed(end: socket.socket, given: bytes, luck: random.Random) -> None:
    """Sends bytes in pieces, each of which one read takes."""
    at = 0
    small = (1, 7, 80, 1_000) if len(given) < 1_000_000 else ()
    longest = luck.choice((*small, LONGEST_READ))
    while at < len(given):
        size = min(luck.randint(1, longest), luck.randint(1, longest))
        end.send(given[at:at + size])
        at += size
    end.close()


def replies_of(program: str, given: bytes, luck: random.Random) -> bytes:
    """The replies of a program to bytes that come in pieces."""
    ours, theirs = socket.socketpair(socket.AF_UNIX, socket.SOCK_SEQPACKET)
    child = subprocess.Popen([program, "serve"], stdin=theirs, stdout=subprocess.PIPE)
    theirs.close()
    feeder = threading.Thread(target=feed, args=(ours, given, luck))
    feeder.start()
    assert child.stdout is not None
    out = child.stdout.read()
    feeder.join()
    if child.wait():
        raise Mismatch(f"{program} ended with status {child.returncode}")
    return out


def compare(programs: tuple[str, str], given: bytes, luck: random.Random) -> None:
    """Gives lines to both programs. Raises Mismatch if their replies differ."""
    if luck.random() < 0.2:
        given = given[:-1]
    with ThreadPoolExecutor(2) as both:
        asked = [both.submit(replies_of, program, given, random.Random(luck.random()))
                 for program in programs]
        first, second = (it.result() for it in asked)
    if first != second:
        pairs = zip_longest(first.split(b"\n"), second.split(b"\n"))
        at = next(number for number, (a, b) in enumerate(pairs) if a != b)
        lines = given.split(b"\n")[:at + 1]
        Path("random_lines.jsonl").write_bytes(b"".join(line + b"\n" for line in lines))
        raise Mismatch(f"line {at + 1} of a round is answered otherwise")


def main() -> int:
    programs = (sys.argv[1], sys.argv[2])
    wanted = int(sys.argv[3]) if len(sys.argv) > 3 else 1_000_000
    luck = random.Random(int(sys.argv[4]) if len(sys.argv) > 4 else 1)
    runs = [run.lines for run in (*transcripts(), *examples())
            if max(map(len, run.lines)) <= LONGEST_LINE and len(run.lines) <= 2_000]
    maker = Maker(luck, runs, sorted({line for run in runs for line in run}))
    rounds, done = Rounds(luck, maker.blocks(), []), 0
    while done < wanted:
        # Small rounds also come in small pieces.
        few = luck.choice((1_000, LINES_A_ROUND, LINES_A_ROUND, LINES_A_ROUND))
        given, count = rounds.draw(min(few, wanted - done))
        try:
            compare(programs, given, luck)
        except Mismatch as told:
            print(told)
            return 1
        done += count
    print(f"{done} lines compared, the same answers")
    return 0


if __name__ == "__main__":
    sys.exit(main())
