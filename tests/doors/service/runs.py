"""Stored runs of requests, and a service that is given them.

A run is a sequence of request lines. Those of `crates/test_service/data` are written for
`crates/test_service`: a title after `# `, requests after `> ` and replies after `< `. Lines below
`* 1..=255` are passed once for each of these numbers, up to the next `* `. In a line, `«3 ab»`
stands for `ababab`, and `«8n+1»` for eight times the number of the pass, plus one.
"""
from __future__ import annotations

import json
import os
import re
import subprocess
from dataclasses import dataclass
from pathlib import Path
from typing import BinaryIO, Iterable, Iterator

TOP = Path(__file__).resolve().parents[3]
TRANSCRIPTS = TOP / "crates" / "test_service" / "data"
# Lines of other clients, which are no run of their own.
OTHERS = "others.transcript"
MARK = re.compile("«(?:(?P<times>[0-9]+) (?P<text>[^»]*)|(?P<factor>[0-9]*)n(?P<plus>\\+[0-9]+)?)»")
PASSES = re.compile("([0-9]+)\\.\\.=([0-9]+)")
# No run takes nearly as long, so a service that does would not end.
LONGEST_SECONDS = 600


@dataclass(frozen=True)
class Run:
    """The lines of a run, without newlines."""

    title: str
    lines: tuple[bytes, ...]


@dataclass(frozen=True)
class TranscriptLine:
    """A line of a transcript: a request or a reply, and whether it is in the first pass."""

    is_request: bool
    is_first: bool
    line: bytes


@dataclass(frozen=True)
class RunOutcome:
    """The outcome of a service: its status and its output."""

    status: int
    out: bytes
    err: str


def stream_of(lines: Iterable[bytes]) -> bytes:
    """Lines as a stream, each with its newline."""
    return b"".join(line + b"\n" for line in lines)


def ask(session: int, word: str, **fields: object) -> bytes:
    """A request, as a client writes it."""
    return json.dumps({"s": session, "op": word, **fields}, separators=(",", ":")).encode()


def file_in_memory() -> BinaryIO:
    return os.fdopen(os.memfd_create("ctfd"), "w+b")


def serve(program: str, given: bytes, words: dict[str, str] | None = None,
          published: Iterable[str] = ()) -> RunOutcome:
    """Runs `PROGRAM serve` on an input, with these variables as its environment.

    `published` lists arguments NAME=FILE. Input and output are files in memory, so that nobody
    waits.
    """
    with file_in_memory() as source, file_in_memory() as sink:
        source.write(given)
        source.seek(0)
        child = subprocess.run([program, "serve", *published], stdin=source, stdout=sink,
                               stderr=subprocess.PIPE, env=words, timeout=LONGEST_SECONDS,
                               check=False)
        sink.seek(0)
        return RunOutcome(child.returncode, sink.read(), child.stderr.decode())


def without_marks(line: str, number: int) -> bytes:
    """A line in the pass with this number, with its marks replaced."""

    def bytes_meant(mark: re.Match[str]) -> str:
        if mark["times"]:
            return mark["text"] * int(mark["times"])
        return str(int(mark["factor"] or 1) * number + int(mark["plus"] or 0))

    return MARK.sub(bytes_meant, line).encode()


def told_in(part: str) -> Iterator[TranscriptLine]:
    """The requests and replies of a part of a run, in all its passes."""
    first, *lines = part.split("\n")
    passes = PASSES.fullmatch(first)
    low, high = (int(passes[1]), int(passes[2])) if passes else (0, 0)
    for number in range(low, high + 1):
        for line in lines:
            if line.startswith(("> ", "< ")):
                yield TranscriptLine(line[0] == ">", number == low, without_marks(line[2:], number))


def stored_runs(name: str) -> Iterator[tuple[str, list[list[TranscriptLine]]]]:
    """The runs of a transcript: the title of each, and the lines of its parts."""
    text = (TRANSCRIPTS / name).read_text(encoding="utf-8")
    for run in text.split("\n# ")[1:]:
        yield run.split("\n")[0], [list(told_in(part)) for part in run.split("\n* ")]


def transcripts() -> Iterator[Run]:
    """All runs of the transcripts, in the order of their files."""
    for path in sorted(TRANSCRIPTS.glob("*.transcript")):
        if path.name != OTHERS:
            for title, parts in stored_runs(path.name):
                yield Run(title, tuple(it.line for part in parts for it in part if it.is_request))


def examples() -> Iterator[Run]:
    """The runs of the examples."""
    for path in sorted((TOP / "examples").glob("*.jsonl")):
        yield Run(path.name, tuple(path.read_bytes().splitlines()))
