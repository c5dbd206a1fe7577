"""Computes what each call of a run without failures moves, from its input and output alone."""
from __future__ import annotations

from dataclasses import dataclass
from itertools import islice
from typing import Iterable, Iterator

# Replies wait until the lines of a read are answered, unless this many bytes wait before a line.
BATCH = 65_536


@dataclass(frozen=True)
class Sizes:
    """The number of bytes that a read returns at most, and that a write accepts."""

    read: int
    write: int


@dataclass(frozen=True)
class Point:
    """A point of a run: the numbers of calls made, and of bytes written."""

    reads: int
    writes: int
    written: int


def batches(lengths: Iterable[int]) -> Iterator[int]:
    """The lengths of what is sent at once, for replies of these lengths."""
    waiting = 0
    for length in lengths:
        if waiting >= BATCH:
            yield waiting
            waiting = 0
        waiting += length
    if waiting:
        yield waiting


class Course:
    """The points of a run before each of its reads and writes.

    The lines that a read completes are answered before the next read. The last read meets the end;
    a line without a newline is answered after it.
    """

    def __init__(self, given: bytes, honest: bytes, sizes: Sizes) -> None:
        self.reads: list[Point] = []
        self.writes: list[Point] = []
        self.written = 0
        lengths = (len(reply) for reply in honest.splitlines(keepends=True))
        for at in range(0, len(given), sizes.read):
            self.reads.append(self.point())
            ended = given[at : at + sizes.read].count(b"\n")
            self.send(list(islice(lengths, ended)), sizes.write)
        self.reads.append(self.point())
        self.send(list(lengths), sizes.write)

    def point(self) -> Point:
        return Point(len(self.reads), len(self.writes), self.written)

    def send(self, lengths: list[int], most: int) -> None:
        """Writes replies, batch by batch."""
        for batch in batches(lengths):
            for at in range(0, batch, most):
                self.writes.append(self.point())
                self.written += min(most, batch - at)
