"""Runs the program on broken streams, and records the outcome."""
from __future__ import annotations

import re
from dataclasses import dataclass

from ..runs import serve
from .course import Point, Sizes

TOLD = re.compile(r"broken: ([0-9]+) reads, ([0-9]+) writes\n")
BEFORE_READ = re.compile(r"broken: ([0-9]+) bytes before a read\n")
# The status if the program's bound on reads could not be found, with a message.
NO_BOUND = 99


@dataclass(frozen=True)
class StreamOutcome:
    """The outcome of a run on broken streams: its status, its output, and the number of calls.

    `before_reads` has the number of bytes written before each read, if it was asked for.
    """

    status: int
    out: bytes
    err: str
    reads: int
    writes: int
    before_reads: list[int]

    def came_to(self, end: Point, out: bytes) -> bool:
        """Whether it made this many calls, and wrote exactly this part of an output."""
        return (self.reads, self.writes, self.out) == (end.reads, end.writes, out[: end.written])

    def has_ended(self, status: int, err: str) -> bool:
        return (self.status, self.err) == (status, err)


@dataclass(frozen=True)
class Service:
    """The program, with the library that breaks its streams."""

    program: str
    library: str

    def run(self, given: bytes, sizes: Sizes, **breaks: int) -> StreamOutcome:
        """Runs the program with calls that move few bytes, and of which one may fail."""
        numbers = {"READ_SIZE": sizes.read, "WRITE_SIZE": sizes.write, **breaks}
        words = {name: str(number) for name, number in numbers.items()}
        ended = serve(self.program, given, {"LD_PRELOAD": self.library, **words})
        told = TOLD.search(ended.err)
        if not told:
            raise AssertionError(f"{self.program} runs without {self.library}: {ended}")
        before = [int(count) for count in BEFORE_READ.findall(ended.err)]
        err = BEFORE_READ.sub("", ended.err.replace(told[0], ""))
        return StreamOutcome(ended.status, ended.out, err, int(told[1]), int(told[2]), before)

    def why_unbounded(self) -> str:
        """The reason why another bound on reads cannot be put into the program, or ""."""
        ended = serve(self.program, b"", {"LD_PRELOAD": self.library, "READ_BOUND": "1"})
        return ended.err.strip() if ended.status == NO_BOUND else ""


class Report:
    """Counts trials, and prints errors."""

    def __init__(self) -> None:
        self.tried = self.wrong = 0

    def add(self, name: str, well: bool, seen: object) -> None:
        self.tried += 1
        if not well:
            self.wrong += 1
            print(f"{name}: {str(seen)[:300]}", flush=True)

    def take(self, other: Report) -> None:
        self.tried, self.wrong = self.tried + other.tried, self.wrong + other.wrong
