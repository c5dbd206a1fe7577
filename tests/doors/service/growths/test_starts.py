"""Refuses memory to a service while it starts, and checks how it ends.

Each request for memory before the first read is refused, without an argument NAME=FILE, with one
and with two. Then either nothing is written and the status is 4, or the program goes on without the
memory, with status 0 and the usual replies.
"""
from __future__ import annotations

import re
from dataclasses import dataclass
from typing import Sequence

import pytest

from ..runs import TOP, RunOutcome, ask, stream_of, serve

TOLD = re.compile(r"refuse: ([0-9]+) asked, ([0-9]+) refused\n")
# The arguments NAME=FILE of each start.
STARTS = ([], ["lua"], ["lua", "zlib"])
MEMORY_STATUS = 4


@dataclass(frozen=True)
class Start:
    """A service with some publications, and lines that take them."""

    program: str
    library: str
    names: Sequence[str]

    @property
    def title(self) -> str:
        return " ".join(["serve", *(f"{name}=.." for name in self.names)])

    @property
    def lines(self) -> bytes:
        taken = [ask(1, "take", owner=0, name=name) for name in ("lua", "zlib")]
        return stream_of([*taken, ask(1, "kind", d=1, t=1)])

    def run(self, refused: int = 0, at_start: bool = True) -> RunOutcome:
        """The outcome if one request is refused, counted from the start or from the first read."""
        words = {"LD_PRELOAD": self.library, "REFUSE_FROM": str(refused), "REFUSE_COUNT": "1",
                 "REFUSE_AT_START": str(int(at_start))}
        published = [f"{name}={TOP / 'examples' / name}.ctf" for name in self.names]
        return serve(self.program, self.lines, words, published)

    def calls_before_reading(self) -> int:
        """The number of requests for memory before standard input is read."""
        return call_count(self.run()) - call_count(self.run(at_start=False))


def call_count(ended: RunOutcome) -> int:
    """The number of requests for memory in a run that ended well."""
    told = TOLD.fullmatch(ended.err)
    if ended.status != 0 or not told:
        raise AssertionError(f"status {ended.status}, and {ended.err!r} on standard error")
    return int(told[1])


def outcome_of(ended: RunOutcome, wanted: RunOutcome) -> str:
    """The outcome of a start without some memory: `refused`, `served`, or an error."""
    if ended.status == MEMORY_STATUS and not ended.out:
        return "refused"
    if ended.status == 0 and ended.out == wanted.out:
        return "served"
    return f"status {ended.status}, {ended.out[:80]!r} written"


@pytest.mark.parametrize("names", STARTS, ids=" ".join)
def test_start(program: str, refusing: str, names: Sequence[str]) -> None:
    start = Start(program, refusing, names)
    wanted = start.run()
    found = [outcome_of(start.run(number), wanted)
             for number in range(1, start.calls_before_reading() + 1)]
    assert set(found) <= {"refused", "served"}
    # If a start takes no memory from the C library, this tests nothing.
    assert "refused" in found
