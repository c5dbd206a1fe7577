"""Runs the deepest requests with the stack size that docs/LIMITS.md says is enough.

Each case is a dictionary or a draft of the greatest depth that the rules allow, and one layer
deeper, which is refused; a child as deep as its parent; or a line of brackets. With that limit
(`ulimit -s`), a service gives the same replies as without. If there are a C compiler and an archive
of the library, a thread with a stack of that size (thread.c) answers the lines too.

`PYTHONPATH=tests python3 -m doors.service.stack.test_stack PROGRAM` prints the least stack with
which each case works, in steps of 4 KiB.
"""
from __future__ import annotations

import os
import resource
import shutil
import struct
import subprocess
import sys
import tempfile
from dataclasses import dataclass
from pathlib import Path
from typing import Callable, Iterable, Iterator, Sequence

import pytest

from parts import TOP, library

from ..runs import ask, stream_of

# The size in KiB that is enough according to docs/LIMITS.md and clients/c/ctfd.h.
ENOUGH = 256
STEP, MOST = 4, 8192
LAYERS = 512
INT = struct.pack("<I", 0x01000020)
INTEGER, POINTER, ARRAY, FUNCTION, STRUCT, UNION, TYPEDEF, CONST = 1, 3, 4, 5, 6, 7, 10, 12


@dataclass(frozen=True)
class Case:
    """Lines that need stack."""

    name: str
    lines: list[bytes]


def record(kind: int, vlen: int, field: int, rest: bytes = b"") -> bytes:
    return struct.pack("<IHH", 0, kind << 11 | vlen, field) + rest


def of_types(body: bytes, parname: int, strings: bytes) -> bytes:
    header = struct.pack("<8I", 0, parname, 0, 0, 0, 0, len(body), len(strings))
    return b"\xf1\xcf\x02\x00" + header + body + strings


def dictionary(types: Iterable[bytes]) -> bytes:
    """An integer, followed by types."""
    return of_types(record(INTEGER, 0, 4, INT) + b"".join(types), 0, b"\0")


def child(types: Iterable[bytes]) -> bytes:
    """A child."""
    return of_types(b"".join(types), 1, b"\0parent\0")


# ---- types that refer to another one by number


def aggregate(kind: int, count: int) -> Callable[[int], bytes]:
    """A struct or union whose last member continues the chain."""
    first = struct.pack("<IHH", 0, 1, 0) * (count - 1)
    return lambda t: record(kind, count, 4, first + struct.pack("<IHH", 0, t, 0))


def array(t: int) -> bytes:
    return record(ARRAY, 0, 0, struct.pack("<HHI", t, 1, 1))


def function(t: int) -> bytes:
    """A function that takes and returns the type below it."""
    return record(FUNCTION, 2, t, struct.pack("<HH", t, 0))


def taking(t: int) -> bytes:
    """A function that takes the type below it and returns an integer."""
    return record(FUNCTION, 2, 1, struct.pack("<HH", t, 0))


def plain_type(kind: int) -> Callable[[int], bytes]:
    return lambda t: record(kind, 0, t)


def turns(*kinds: Callable[[int], bytes]) -> Callable[[int, int], bytes]:
    return lambda i, t: kinds[i % len(kinds)](t)


VALUES = {
    "structs": turns(aggregate(STRUCT, 1)),
    "structs of two members": turns(aggregate(STRUCT, 2)),
    "unions": turns(aggregate(UNION, 2)),
    "arrays": turns(array),
    "typedefs": turns(plain_type(TYPEDEF)),
    "constants": turns(plain_type(CONST)),
    "structs of arrays of typedefs": turns(aggregate(STRUCT, 2), array, plain_type(TYPEDEF)),
}
DECLARATIONS = {
    "pointers": turns(plain_type(POINTER)),
    "pointers to arrays": turns(array, plain_type(POINTER)),
    "pointers to constants": turns(plain_type(CONST), plain_type(POINTER)),
    "functions that return pointers to functions": turns(function, plain_type(POINTER)),
    "functions that take pointers to functions": turns(taking, plain_type(POINTER)),
}


def handed_in(data: bytes) -> list[bytes]:
    return [ask(1, "part", section="ctf", bytes=data.hex()), ask(1, "check"), ask(1, "open")]


def chain(over: Callable[[int, int], bytes], layers: int) -> bytes:
    return dictionary(over(i, 1 + i) for i in range(layers))


def word_requests(layers: int, **words: dict[str, object]) -> list[bytes]:
    """Requests that descend into a type, for several types, the top one included."""
    return [ask(1, word, d=1, t=t, **fields)
            for t in (layers + 1, layers, layers // 2) for word, fields in words.items()]


def show_requests(layers: int) -> list[bytes]:
    return word_requests(layers, show={"bytes": "0000000000000000", "offset": 0})


def questions(layers: int) -> list[bytes]:
    return word_requests(layers, name={}, size={}, align={}, resolve={}, pointer={},
                         path={"names": [""] * layers})


def deep_types() -> Iterable[Case]:
    """Types of the greatest allowed depth, and one layer deeper, which is refused."""
    for name, over in {**VALUES, **DECLARATIONS}.items():
        for layers in (LAYERS, LAYERS + 1):
            opened = handed_in(chain(over, layers))
            yield Case(f"{layers} {name}", opened + questions(layers))
            yield Case(f"{layers} {name}, shown", opened + show_requests(layers))
    yield Case("32,000 structs in each other", handed_in(chain(VALUES["structs"], 32_000)))
    yield Case("32,000 pointers", handed_in(chain(DECLARATIONS["pointers"], 32_000)))


def deep_drafts() -> Iterable[Case]:
    """Nested structs, with a member at the bottom, one on top, and an update. They are nested from
    the bottom up, or from the top down, which makes all above deeper with each step."""
    for layers in (LAYERS, LAYERS + 1):
        for end, places in (("bottom", range(layers)), ("top", range(layers - 1, -1, -1))):
            lines = [ask(1, "create"),
                     ask(1, "add", d=1, what="integer", size=4, encoding=1, offset=0, bits=32)]
            lines += [ask(1, "add", d=1, what="struct") for _ in range(layers + 1)]
            lines += [ask(1, "add", d=1, what="member", t=3 + i, type=2 + i) for i in places]
            lines += [ask(1, "add", d=1, what="member", t=2, type=1),
                      ask(1, "add", d=1, what="member", t=1 + layers, type=layers),
                      ask(1, "update", d=1)]
            name = f"a draft of {layers} structs in each other from the {end}"
            yield Case(name, lines + questions(layers))
            yield Case(f"{name}, shown", lines + show_requests(layers))


def above(first: int, count: int, held: int) -> list[bytes]:
    """`count` structs with numbers from `first` on, each of which contains the previous one; the
    first contains `held`."""
    numbers = [held, *range(first, first + count)]
    return [ask(1, "add", d=1, what="member", t=outer, type=inner)
            for inner, outer in zip(numbers, numbers[1:])]


def circled_drafts() -> Iterable[Case]:
    """Drafts of the greatest number of nested structs, one of which is then put into the first. The
    structs in this cycle become deeper until their depth is unknown; then so do those that contain
    one of them, which are the remaining nested structs or as many others."""
    for last in (2, 3, LAYERS // 2, LAYERS):
        for others in (0, LAYERS - 1):
            lines = [ask(1, "create")]
            lines += [ask(1, "add", d=1, what="struct") for _ in range(LAYERS + 1 + others)]
            lines += above(2, last - 1 if others else LAYERS, 1) + above(LAYERS + 2, others, 1)
            lines += [ask(1, "add", d=1, what="member", t=1, type=last), ask(1, "update", d=1)]
            beside = f" and {others} above these" if others else ""
            yield Case(f"a draft of {LAYERS} structs, {last} in a circle{beside}", lines)


def deep_children() -> Iterable[Case]:
    """Types as deep as allowed on top of the deepest type of a parent."""
    for name, over in {**VALUES, **DECLARATIONS}.items():
        top = 0x8000 + LAYERS
        below = [1 + LAYERS, *range(0x8001, top)]
        lines = [*handed_in(chain(over, LAYERS)),
                 *handed_in(child(over(i, t) for i, t in enumerate(below))),
                 ask(1, "import", d=2, parent=1)]
        memory = {"bytes": "0000000000000000", "offset": 0}
        lines += [ask(1, word, d=2, t=t, **fields) for t in (top, 0x8001, 0x8000 + LAYERS // 2)
                  for word, fields in {"show": memory, "name": {}, "size": {}, "align": {},
                                       "resolve": {}, "pointer": {},
                                       "path": {"names": [""] * 2 * LAYERS}}.items()]
        yield Case(f"{LAYERS} {name} over as many of a parent", lines)


def found_by_name() -> Case:
    """Long names in a question."""
    stars = "int" + "*" * 500_000
    return Case("names of 500,000 stars",
                handed_in(dictionary([])) + [ask(1, "find", d=1, text=stars)])


def bracket_lines() -> Case:
    """Lines of nested brackets."""
    lines = [b'{"s":1,"op":"clear","x":' + b"[" * n + b"]" * n + b"}"
             for n in (126, 127, 500_000)]
    lines += [b'{"s":1,"op":"clear","x":' + b'{"a":' * n + b"1" + b"}" * n + b"}"
              for n in (126, 127, 100_000)]
    return Case("lines of brackets in each other", lines)


def cases() -> list[Case]:
    return [*deep_types(), *deep_drafts(), *circled_drafts(), *deep_children(), found_by_name(),
            bracket_lines()]


# ---- services and threads


@dataclass(frozen=True)
class Answering:
    """A command that answers lines. `command` gives its words for a stack size in KiB."""

    name: str
    command: Callable[[int], Sequence[str]]
    is_bounded: bool

    def answers(self, case: Case, kibibytes: int) -> bytes:
        """The replies with a stack of this size, and the exit status."""

        def set_limit() -> None:
            if self.is_bounded:
                resource.setrlimit(resource.RLIMIT_STACK, (kibibytes * 1024, kibibytes * 1024))

        done = subprocess.run(self.command(kibibytes), input=stream_of(case.lines),
                              capture_output=True, preexec_fn=set_limit, env={}, check=False)
        return done.stdout + b"status %d\n" % done.returncode

    def least(self, case: Case, wanted: bytes) -> int:
        """The least stack in KiB with which a case works."""
        low, high = 0, MOST
        while high - low > STEP:
            middle = (low + high) // 2 // STEP * STEP
            if self.answers(case, middle) == wanted:
                high = middle
            else:
                low = middle
        return high


CASES = {case.name: case for case in cases()}


def a_service(program: str) -> Answering:
    return Answering("a service", lambda _: [program, "serve"], True)


def a_thread(folder: Path) -> Answering:
    """thread.c, compiled into a folder with the archive. Raises CalledProcessError."""
    made, archive = folder / "thread", library().with_name("libctfd.a")
    subprocess.run(["cc", "-std=gnu11", "-O2", "-Wall", "-Wextra", "-Werror",
                    f"-I{TOP / 'clients' / 'c'}", "-o", str(made),
                    str(Path(__file__).with_name("thread.c")), str(archive), "-lpthread"],
                   check=True)
    return Answering("a thread", lambda kibibytes: [str(made), str(kibibytes)], False)


@pytest.fixture(scope="module")
def thread(tmp_path_factory: pytest.TempPathFactory) -> Answering:
    if not shutil.which("cc") or not library().with_name("libctfd.a").is_file():
        pytest.skip("no C compiler, or no archive of the library, is here")
    return a_thread(tmp_path_factory.mktemp("stack"))


@pytest.mark.parametrize("name", CASES)
def test_service(program: str, name: str) -> None:
    service = a_service(program)
    assert service.answers(CASES[name], ENOUGH) == service.answers(CASES[name], MOST)


@pytest.mark.parametrize("name", CASES)
def test_thread(program: str, thread: Answering, name: str) -> None:
    wanted = a_service(program).answers(CASES[name], MOST)
    assert thread.answers(CASES[name], ENOUGH) == wanted


def least(program: str) -> Iterator[str]:
    """A line for each case, with the least stack with which it works."""
    with tempfile.TemporaryDirectory() as folder:
        service = a_service(os.path.abspath(program))
        for case in CASES.values():
            wanted = service.answers(case, MOST)
            for one in (service, a_thread(Path(folder))):
                yield f"{case.name:58}{one.name:12}{one.least(case, wanted):6} KiB"


if __name__ == "__main__":
    for line in least(sys.argv[1]):
        print(line, flush=True)
