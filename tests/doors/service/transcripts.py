#!/usr/bin/env python3
"""Compares a built ctfd's replies to the stored transcripts with the replies in them.

usage: tests/doors/service/transcripts.py PROGRAM

Each run is given to a new service twice: alone, and between the lines of other sessions, where its
replies must be the same (crates/test_service describes the format of runs, and replays them too).
Prints the title of each run with other replies, with the first difference; the status is then 1.
`make` runs this without pytest; test_transcripts.py has a test for each run.
"""
from __future__ import annotations

import sys
from concurrent.futures import ThreadPoolExecutor
from dataclasses import dataclass, field
from functools import cache
from itertools import zip_longest
from pathlib import Path
from typing import Iterator

sys.path.insert(0, str(Path(__file__).resolve().parents[2]))
from doors.service.runs import (OTHERS, TRANSCRIPTS, TranscriptLine, serve,  # noqa: E402
                                stored_runs, stream_of)


@dataclass
class Exchange:
    """Requests, and the expected replies."""

    requests: list[bytes] = field(default_factory=list)
    replies: list[bytes] = field(default_factory=list)

    def add(self, told: TranscriptLine) -> None:
        (self.requests if told.is_request else self.replies).append(told.line)

    def extend(self, other: Exchange) -> None:
        self.requests += other.requests
        self.replies += other.replies


@dataclass(frozen=True)
class Others:
    """Lines of other sessions: at the beginning, and after each reply of a first pass."""

    first: Exchange = field(default_factory=Exchange)
    between: Exchange = field(default_factory=Exchange)


def exchange(parts: list[list[TranscriptLine]], others: Others) -> Exchange:
    """A run, with the lines of other sessions in between."""
    made = Exchange()
    made.extend(others.first)
    for part in parts:
        for told in part:
            made.add(told)
            if told.is_first and not told.is_request:
                made.extend(others.between)
    return made


def wrong(program: str, asked: Exchange) -> Iterator[str]:
    """Errors in the replies to a run."""
    ended = serve(program, stream_of(asked.requests))
    if ended.status != 0 or ended.err:
        yield f"status {ended.status}, {ended.err!r}"
    pairs = zip_longest(ended.out.split(b"\n"), stream_of(asked.replies).split(b"\n"))
    for number, (seen, wanted) in enumerate(pairs, 1):
        if seen != wanted:
            yield f"reply {number} is {seen!r}, wanted {wanted!r}"
            return


RUNS = {f"{path.stem}: {title}": parts for path in sorted(TRANSCRIPTS.glob("*.transcript"))
        if path.name != OTHERS for title, parts in stored_runs(path.name)}


@cache
def others() -> Others:
    """The lines of other sessions."""
    return Others(*(exchange(parts, Others()) for _, parts in stored_runs(OTHERS)))


def main(program: str) -> int:
    asked = [(f"{name}{how}", exchange(parts, meanwhile)) for name, parts in RUNS.items()
             for how, meanwhile in (("", Others()), (" (between others)", others()))]
    with ThreadPoolExecutor() as pool:
        found = pool.map(lambda one: [f"{one[0]}: {why}" for why in wrong(program, one[1])], asked)
        failed = [why for whys in found for why in whys]
    print(*failed, f"{len(asked)} runs, {len(failed)} wrong", sep="\n")
    return 1 if failed else 0


if __name__ == "__main__":
    sys.exit(main(sys.argv[1]))
