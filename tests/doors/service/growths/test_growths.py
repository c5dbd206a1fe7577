"""Running out of memory changes nothing else: each request of a built ctfd for memory is refused.

The program must be built by `make` or `rt run`; one of `rt try` has its own allocator. The runs are
those of crates/test_service/data and examples/*.jsonl, and two longer ones with all words; each is
followed by questions about the state that it leaves. Each request for memory in turn, from the
first read of standard input on, is refused, and in another run this one and the next 39. Then

- the program ends with status 0, and has one reply for each line;
- all replies except those with Memory are those that the other lines have in a run of their own,
  in which nothing is refused, and no line of such a run has the reply Memory;
- Memory is for session 0 or for the line's own;
- lines that need no memory after they are read do not get the reply Memory then.

For a long run only each k-th request is tried, with a k that depends on their number; --whole tries
all.
"""
from __future__ import annotations

import json
import multiprocessing
import re
import sys
from dataclasses import dataclass
from multiprocessing.pool import AsyncResult
from typing import Any, Iterator, Sequence

import pytest

from ..runs import RunOutcome, Run, ask, examples, stream_of, serve, transcripts
from .longer import longer_runs

# The numbers of consecutive refusals, and the greatest number of tried requests of a run, without
# --whole.
ROWS = (1, 40)
SHARE = 150
WHOLE = {"from": 0, "count": 1_048_576}
STRANGER = 4_294_967_295
MEMORY = b'{"fault":{"code":0,"name":"Memory","place":0},"s":'
TOLD = re.compile(r"refuse: ([0-9]+) asked, ([0-9]+) refused\n")
# Words that need no memory after their line is read; those of GIVING_BACK only in a session that
# holds something.
QUIET = {"kind", "array", "encoding", "reference", "resolve", "size", "align", "pointer", "find"}
GIVING_BACK = {"clear", "close", "reset", "withdraw", "discard"}
GETTING = {"part", "open", "create", "take"}

Lines = Sequence[bytes]


class Wrong(Exception):
    """An error in the replies to a run."""


@dataclass(frozen=True)
class Replies:
    """The replies to a run, and the numbers of requests for memory and of refusals."""

    replies: Lines
    asked: int
    refused: int


@dataclass(frozen=True)
class Service:
    """The program, with the library that refuses memory."""

    program: str
    library: str

    def run(self, lines: Lines, first: int = 0, many: int = 0) -> Replies:
        """The replies to lines if `many` requests for memory are refused from number `first` on."""
        words = {"LD_PRELOAD": self.library, "REFUSE_FROM": str(first), "REFUSE_COUNT": str(many)}
        return replies_of(len(lines), serve(self.program, stream_of(lines), words))


def replies_of(lines: int, ended: RunOutcome) -> Replies:
    """The replies in the output of a run of `lines` lines. Raises Wrong if it did not end well."""
    told = TOLD.fullmatch(ended.err)
    if ended.status != 0 or not told:
        raise Wrong(f"status {ended.status}, and {ended.err!r} on standard error")
    *replies, rest = ended.out.split(b"\n")
    if len(replies) != lines or rest:
        raise Wrong(f"{len(replies)} replies to {lines} lines, and then {rest!r}")
    return Replies(replies, int(told[1]), int(told[2]))


def reply_in(line: bytes) -> dict[str, Any]:
    """The content of a line; empty if it is no object."""
    try:
        value = json.loads(line)
    except ValueError:
        return {}
    return value if isinstance(value, dict) else {}


def questions_afterwards(lines: Lines, replies: Lines) -> Iterator[bytes]:
    """Questions about the state that a run leaves: each stage, slot, draft and publication."""
    slots, published = set(), set()
    for line, reply in zip(lines, replies):
        request, answer = reply_in(line), reply_in(reply).get("ok")
        if answer and "d" in answer:
            slots.add((request["s"], answer["d"]))
        if request.get("op") == "publish" and answer is not None:
            published.add((request["s"], request["name"]))
        elif request.get("op") == "withdraw" and answer is not None:
            published.discard((request["s"], request["name"]))
    for session in sorted({session for session, _ in slots}):
        yield ask(session, "check")
    for session, d in sorted(slots):
        yield ask(session, "info", d=d)
        yield ask(session, "update", d=d)
        yield ask(session, "bytes", d=d, **WHOLE)
    for owner, name in sorted(published):
        yield ask(STRANGER, "take", owner=owner, name=name)


def apart(reply: bytes, wanted: bytes) -> str:
    """The difference between a reply and the expected one."""
    at = next((at for at, two in enumerate(zip(reply, wanted)) if two[0] != two[1]), 0)
    here = slice(max(at - 20, 0), at + 60)
    return f"{reply[here]!r}; without them {wanted[here]!r}, from byte {here.start} on"


def is_memory(reply: bytes) -> bool:
    return reply.startswith(MEMORY)


def surely_holds(session: int, lines: Lines, replies: Lines) -> bool:
    """Whether a session with these replies has got something, and given back nothing since.

    A part without bytes leaves a session unchanged, which may be a new one that holds nothing.
    """
    for line, reply in zip(reversed(lines), reversed(replies)):
        request = reply_in(line)
        word = request.get("op")
        if request.get("s") != session or "ok" not in reply_in(reply) or request.get("bytes") == "":
            continue
        if word in GETTING | GIVING_BACK:
            return word in GETTING
    return False


class Trial:
    """A run followed by questions, and its replies if lines are left out."""

    def __init__(self, service: Service, run: Run) -> None:
        replies = service.run(run.lines).replies
        self.service = service
        self.lines = [*run.lines, *questions_afterwards(run.lines, replies)]
        self.known: dict[tuple[int, ...], Replies] = {}
        self.calls = self.without(()).asked

    def others(self, gone: tuple[int, ...]) -> list[int]:
        """The numbers of the lines that are not left out."""
        return sorted(set(range(len(self.lines))) - set(gone))

    def without(self, gone: tuple[int, ...]) -> Replies:
        """The replies if some lines are left out and no memory is refused."""
        if gone not in self.known:
            kept = [self.lines[number] for number in self.others(gone)]
            self.known[gone] = self.service.run(kept)
            if any(map(is_memory, self.known[gone].replies)):
                raise Wrong("Memory, where none was refused")
        return self.known[gone]

    def refuse(self, first: int, many: int) -> int:
        """Refuses some requests for memory, and returns the number of lines with the reply
        Memory."""
        served = self.service.run(self.lines, first, many)
        if served.refused == 0:
            raise Wrong(f"{served.asked} calls, and none refused")
        gone = tuple(number for number, reply in enumerate(served.replies) if is_memory(reply))
        for number in gone:
            self.judge_memory(number, served.replies)
        for number, wanted in zip(self.others(gone), self.without(gone).replies):
            if served.replies[number] != wanted:
                raise Wrong(f"{len(gone)} lines are answered Memory, and {self.shortly(number)} "
                            f"{apart(served.replies[number], wanted)}")
        return len(gone)

    def judge_memory(self, number: int, replies: Lines) -> None:
        """Raises Wrong for Memory in a session that is not the line's, or for a line that needs
        none."""
        request, session = reply_in(self.lines[number]), reply_in(replies[number])["s"]
        if session not in (0, request.get("s")):
            raise Wrong(f"Memory in session {session}, for {self.shortly(number)}")
        word, before = request.get("op"), (self.lines[:number], replies[:number])
        if session and (word in QUIET or word in GIVING_BACK and surely_holds(session, *before)):
            raise Wrong(f"Memory, where none is taken, for {self.shortly(number)}")

    def shortly(self, number: int) -> str:
        """The beginning of a line, for a message."""
        return repr(self.lines[number][:80])


def stride(calls: int, share: int) -> int:
    """The least k, 1 or a prime, for which each k-th request is at most `share` requests.

    A prime hits different requests of each line, if lines have equal numbers of them.
    """
    k = 1
    while calls > share * k or any(k % factor == 0 for factor in range(2, k)):
        k += 1
    return k


@dataclass(frozen=True)
class Counts:
    """The numbers of requests and trials, and the errors."""

    calls: int
    tried: int
    memory: int
    wrong: Sequence[str]


def try_calls(service: Service, run: Run, share: int) -> Counts:
    """Refuses a run's requests for memory in turn, as many as its share allows."""
    try:
        trial = Trial(service, run)
    except Wrong as why:
        return Counts(0, 0, 0, [f"{run.title}: {why}"])
    firsts = range(1, trial.calls + 1, stride(trial.calls, share))
    memory, wrong = 0, []
    for first in firsts:
        for many in ROWS:
            try:
                memory += trial.refuse(first, many)
            except Wrong as why:
                wrong.append(f"{run.title}, {many} refused from call {first} on: {why}")
    return Counts(trial.calls, len(firsts) * len(ROWS), memory, wrong)


RUNS = [*transcripts(), *examples(), *longer_runs()]


def try_numbered(service: Service, number: int, share: int) -> Counts:
    """Tries the run with this number."""
    return try_calls(service, RUNS[number], share)


@pytest.fixture(scope="module")
def counts(request: pytest.FixtureRequest, program: str, refusing: str,
           whole: bool) -> Iterator[dict[int, AsyncResult[Counts]]]:
    """The results of the selected runs, by number: two at a time, the longest first."""
    service = Service(program, refusing)
    assert service.run(RUNS[0].lines).asked, "it asks the C library for no memory: by `rt try`?"
    wanted = {item.callspec.params["number"] for item in request.session.items
              if item.name.startswith("test_run[")}
    with multiprocessing.get_context("fork").Pool(2) as pool:
        yield {number: pool.apply_async(try_numbered,
                                        (service, number, sys.maxsize if whole else SHARE))
               for number in sorted(wanted, key=lambda number: -len(RUNS[number].lines))}


@pytest.mark.parametrize("number", range(len(RUNS)), ids=[run.title for run in RUNS])
def test_run(counts: dict[int, AsyncResult[Counts]], number: int) -> None:
    assert not counts[number].get().wrong
