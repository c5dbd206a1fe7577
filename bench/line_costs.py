#!/usr/bin/env python3
"""Counts the instructions for a line of each word, compared with those of a lean program.

usage: line_costs.py PROGRAM [--types COUNT].. [--streams] [ROW..]

A session opens a dictionary of 110, 1,900 and 32,000 types of every kind, or of the numbers given,
and gives lines of one row: a word, two that undo each other, or a line that is refused. `PROGRAM
serve` runs under callgrind on a few of them and on more. Printed are the difference per line, and
its ratio to what lean.rs takes for the same lines. lean.rs reads JSON and writes JSON. It answers
`kind`, `part` and refused lines as PROGRAM does, and `pointer`, `enumerators` and `args` from the
same dictionary: for these three the replies are compared. For other words its reply is empty, so
its cost is that of reading the line and writing a short one. For `part`, costs are per byte. With
--streams the rows are streams of streams.py, of which the first 1,500 and the first 3,000 questions
are counted, without a comparison. Needs valgrind and rustc.
"""
from __future__ import annotations

import argparse
import re
import subprocess
import sys
import tempfile
from collections.abc import Callable
from concurrent.futures import ThreadPoolExecutor
from dataclasses import dataclass, field
from pathlib import Path

from dictionaries import GROUP, all_parts, child, every_kind

SIZES = (110, 1_900, 32_000)
FEW, MANY = 300, 900
PIECE_BYTES = 20_000
AT_ONCE = 2
STREAMS = ("kinds", "kind", "record", "members", "find", "symbol", "sessions")
FEW_OF_STREAM, MANY_OF_STREAM = 1_500, 3_000
HANDS_IN = (b'"op":"part"', b'"op":"open"')
# The rows that lean.rs answers from the dictionary.
FROM_DICTIONARY = ("pointer", "enumerators", "args")


@dataclass(frozen=True)
class Row:
    """A question that is asked `MANY` times; `each` gives the fields of the lines for one time."""

    name: str
    each: Callable[[int, int], list[str]]
    before: Callable[[int], list[str]] = field(default=lambda _types: [])
    bytes_a_line: int = 0


def question(word: str, fields: str = "") -> Callable[[int, int], list[str]]:
    """A question about slot 1."""
    return lambda _types, _i: [f'"op":"{word}","d":1{fields}']


def of_type(word: str, place: int, fields: str = "") -> Row:
    """A question about the type at this place of each group, with the groups in a scattered
    order."""
    def each(types: int, i: int) -> list[str]:
        group = i * 7_001 % (types // GROUP)
        return [f'"op":"{word}","d":1,"t":{GROUP * group + place}{fields}']
    return Row(word, each)


def of_symbol(word: str, place: int) -> Row:
    def each(types: int, i: int) -> list[str]:
        return [f'"op":"{word}","d":1,"sym":{(i * 7_001 % (types // 4)) * 4 + place}']
    return Row(word, each)


def symbol(types: int, i: int) -> list[str]:
    at = i * 7_001 % (types // 4) * 4 + 1
    return [f'"op":"symbol","d":1,"name":"module_function_{at * 7_919 % 1_000_003}"']


def find(types: int, i: int) -> list[str]:
    return [f'"op":"find","d":1,"text":"struct struct_{i * 7_001 % (types // GROUP)}"']


def label(types: int, i: int) -> list[str]:
    return [f'"op":"label","d":1,"name":"integer_{i * 7 % min(types // GROUP, 100)}"']


DRAFT = ['"op":"create"', '"op":"add","d":2,"what":"integer","name":"int","size":4,"encoding":1,'
         '"offset":0,"bits":32', '"op":"add","d":2,"what":"struct","name":"s"']
INTEGER = ('"op":"add","d":2,"what":"integer","name":"i%d","size":4,"encoding":1,"offset":0,'
           '"bits":32')


def member(_types: int, i: int) -> list[str]:
    return [f'"op":"add","d":2,"what":"member","t":2,"name":"m{i}","type":1']


ROWS = (
    Row("part", lambda _t, _i: [f'"op":"part","section":"ctf","bytes":"{PIECE_BYTES * "a5"}"'],
        bytes_a_line=PIECE_BYTES),
    Row("part of 8", lambda _t, _i: ['"op":"part","section":"ctf","bytes":"f1cf0200f1cf0200"']),
    Row("check", lambda _t, _i: ['"op":"check"'],
        lambda _t: ['"op":"part","section":"ctf","bytes":"f1cf0200"']),
    Row("open", lambda _t, _i: ['"op":"open"']),
    Row("clear", lambda _t, _i: ['"op":"clear"']),
    Row("reset", lambda _t, _i: ['"op":"reset"']),
    Row("import", lambda _t, _i: ['"op":"import","d":2,"parent":1'],
        lambda _t: [f'"op":"part","section":"ctf","bytes":"{child(1).hex()}"', '"op":"open"']),
    Row("publish", lambda _t, i: [f'"op":"publish","d":2,"name":"p{i}"'],
        lambda _t: ['"op":"create"']),
    Row("publish, withdraw", lambda _t, _i: ['"op":"publish","d":1,"name":"p"',
                                             '"op":"withdraw","name":"p"']),
    Row("take, close", lambda _t, i: ['"op":"take","owner":7,"name":"p"',
                                      f'"op":"close","d":{i + 2}'],
        lambda _t: ['"op":"publish","d":1,"name":"p"']),
    Row("create, close", lambda _t, i: ['"op":"create"', f'"op":"close","d":{i + 2}']),
    Row("add, integer", lambda _t, i: [INTEGER % i], lambda _t: DRAFT),
    Row("add, member", member, lambda _t: DRAFT),
    Row("add, pointer", lambda _t, i: ['"op":"add","d":2,"what":"pointer","type":1'],
        lambda _t: DRAFT),
    Row("add, discard", lambda _t, i: [INTEGER % i, '"op":"discard","d":2'],
        lambda _t: [*DRAFT, '"op":"update","d":2']),
    Row("add, update", lambda _t, i: [INTEGER % i, '"op":"update","d":2'], lambda _t: DRAFT),
    Row("bytes", question("bytes", ',"from":0,"count":16')),
    of_type("kind", 2),
    of_type("record", 2),
    of_type("members", 2),
    of_type("enumerators", 3),
    of_type("args", 6),
    of_type("array", 4),
    of_type("encoding", 1),
    of_type("reference", 7),
    of_type("resolve", 8),
    of_type("size", 2),
    of_type("align", 2),
    of_type("name", 2),
    of_type("pointer", 2),
    Row("find", find),
    of_type("path", 2, ',"names":["integer_0"]'),
    of_type("show", 1, ',"bytes":"01000000","offset":0'),
    Row("symbol", symbol),
    of_symbol("object", 0),
    of_symbol("function", 1),
    Row("labels", question("labels", ',"from":0,"count":1')),
    Row("label", label),
    Row("info", question("info")),
    Row("model", question("model")),
    Row("NotJson", lambda _t, _i: ['"op":"kind","d":1,"t":']),
    Row("BadRequest", lambda _t, _i: ['"op":"kind","d":1']),
    Row("NoSlot", lambda _t, _i: ['"op":"kind","d":9,"t":1']),
    Row("NoType", lambda _t, _i: ['"op":"kind","d":1,"t":32767']),
    Row("find of none", lambda _t, i: [f'"op":"find","d":1,"text":"struct none_{i}"']),
)


def lines_of(row: Row, types: int, times: int) -> bytes:
    asks = [line for i in range(times) for line in row.each(types, i)]
    return "".join(f'{{"s":7,{line}}}\n' for line in asks).encode()


def before(row: Row, types: int) -> bytes:
    handed_in = [*all_parts(7, every_kind(types)), '{"s":7,"op":"open"}\n']
    made = [f'{{"s":7,{line}}}\n' for line in row.before(types)]
    return "".join([*handed_in, *made]).encode()


def instructions(program: list[str], given: bytes) -> int:
    with tempfile.TemporaryFile() as stdin:
        stdin.write(given)
        stdin.seek(0)
        ran = subprocess.run(
            ["valgrind", "--tool=callgrind", "--callgrind-out-file=/dev/null", *program],
            stdin=stdin, stdout=subprocess.DEVNULL, stderr=subprocess.PIPE, text=True, check=True)
    counted = re.search(r"Collected : (\d+)", ran.stderr)
    assert counted is not None
    return int(counted[1])


def cost(program: list[str], front: bytes, row: Row, types: int) -> float:
    """The number of instructions per line, or per byte."""
    few, many = (10, 30) if row.bytes_a_line else (FEW, MANY)
    less = instructions(program, front + lines_of(row, types, few))
    more = instructions(program, front + lines_of(row, types, many))
    lines = (many - few) * len(row.each(types, 0))
    return (more - less) / lines / (row.bytes_a_line or 1)


def lean(folder: str) -> list[str]:
    program = f"{folder}/lean"
    subprocess.run(["rustc", "--edition", "2021", "-C", "opt-level=3", "-C", "panic=abort",
                    "-o", program, str(Path(__file__).with_name("lean.rs"))], check=True)
    return [program]


def questions(stream: str) -> list[bytes]:
    """The lines of a stream up to the last question that is counted."""
    made = subprocess.Popen([sys.executable, Path(__file__).with_name("streams.py"), stream],
                            stdout=subprocess.PIPE)
    assert made.stdout is not None
    found: list[bytes] = []
    asked_so_far = 0
    for line in made.stdout:
        found.append(line)
        asked_so_far += not any(word in line for word in HANDS_IN)
        if asked_so_far == MANY_OF_STREAM:
            break
    made.kill()
    made.wait()
    return found


def stream_cost(program: str, stream: str) -> str:
    """The cost of a question of a stream."""
    many, counted = questions(stream), MANY_OF_STREAM - FEW_OF_STREAM
    serve = [program, "serve"]
    more = instructions(serve, b"".join(many))
    less = instructions(serve, b"".join(many[:-counted]))
    return f"{stream:20} {(more - less) / counted:10,.0f}"


def replies(program: list[str], given: bytes) -> list[bytes]:
    """The last replies of a program: those to the lines of a row."""
    ran = subprocess.run(program, input=given, stdout=subprocess.PIPE, check=True)
    return ran.stdout.splitlines()[-MANY:]


def row_cost(program: str, floor: list[str], row: Row, types: int) -> str:
    front, serve = before(row, types), [program, "serve"]
    ours = cost(serve, front, row, types)
    theirs = cost(floor, front if row.name in FROM_DICTIONARY else b"", row, types)
    if row.name in FROM_DICTIONARY:
        given = front + lines_of(row, types, MANY)
        if replies(serve, given) != replies(floor, given):
            raise SystemExit(f"{row.name}: lean.rs and {program} have different replies")
    digits = 1 if row.bytes_a_line else 0
    return (f"{row.name:20} {types:6,} types {ours:10,.{digits}f} {theirs:10,.{digits}f} "
            f"{ours / theirs:6.2f}")


def main() -> None:
    parser = argparse.ArgumentParser(usage=(__doc__ or "").split("\n\n")[1])
    parser.add_argument("program")
    parser.add_argument("--types", type=int, action="append")
    parser.add_argument("--streams", action="store_true")
    parser.add_argument("rows", nargs="*")
    given = parser.parse_args()
    if given.streams:
        for stream in given.rows or STREAMS:
            print(stream_cost(given.program, stream), flush=True)
        return
    wanted = [row for row in ROWS if not given.rows or row.name in given.rows]
    with tempfile.TemporaryDirectory() as folder, ThreadPoolExecutor(AT_ONCE) as at_once:
        floor = lean(folder)
        told = at_once.map(lambda pair: row_cost(given.program, floor, pair[0], pair[1]),
                           [(row, types) for row in wanted for types in given.types or SIZES])
        for line in told:
            print(line, flush=True)


if __name__ == "__main__":
    main()
