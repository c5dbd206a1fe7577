#!/usr/bin/env python3
"""Times requests that are made to be slow, and how their cost grows.

usage: hostile.py PROGRAM [--growth] [--limit FACTOR] [WORD]..

Each case is a dictionary and one request (or a dump), some after many others; or a session and its
last request (hostile_sessions.py). The output has the megabytes that were read and written, the
milliseconds of processor time that the request took, the least of three runs, and the milliseconds
per megabyte. The aim is at most 10 ms per MB; at most 5 ms in all is also enough. With --limit, the
status is 1 if a case takes more than FACTOR times as long.

The next rows show the memory of dictionaries that are made to take much, and its ratio to the bytes
that a quota counts; with --limit, the case says how much is too much.

The next rows show requests of many sessions, slots and pending types, and the ratio of their time
to that of half as many; with --limit, more than three times as long is too much. The same is done
for files that the commands read (hostile_files.py), with a limit of 5 seconds for one.

With --growth, valgrind counts instructions for each case that has a size, and for one of half its
size: a ratio of 2 is linear. WORDs pick cases by their names.
"""
import argparse
import os
import random
import re
import subprocess
import sys
import tempfile
from dataclasses import dataclass
from typing import Callable

import hostile_dictionaries as made
from asking import Service
from charging import EMPTY
from dictionaries import all_parts
from hostile_files import FILES, MOST_SECONDS
from hostile_sessions import GROWTHS, HELD, SESSIONS

WANTED, LEAST = 10.0, 5.0
# The greatest ratio for twice the size.
GROWN = 3.0
RUNS, RUNS_OF_GROWTH = 3, 7


@dataclass(frozen=True)
class Case:
    """A request on a dictionary of a size. `make` gives the lists and a number, such as a type's;
    `ask` gives the fields of the request, or None for a dump; `before` gives those of earlier
    requests, from the size."""

    name: str
    size: int
    make: Callable
    ask: Callable | None
    before: Callable = lambda size: ()


def show(memory):
    return lambda t: '"op":"show","d":1,"t":%d,"bytes":"%s","offset":0' % (t, memory.hex())


def word(op, rest=""):
    return lambda t: '"op":"%s","d":1,"t":%d%s' % (op, t, rest)


def path(length, last=b"a"):
    name = (b"a" * (length - 1) + last).decode()
    return lambda t: '"op":"path","d":1,"t":%d,"names":["%s"]' % (t, name)


def open_line(t):
    return None


def name_line(op, end="", rest=""):
    """A request for the name in the middle, followed by `end`."""
    return lambda n: '"op":"%s"%s,"name":"p%06d%s"' % (op, rest, n // 2, end)


def publications(count):
    publish = '"op":"publish","d":1,"name":"p%06d"'
    return (publish % number for number in shuffled_symbols(count))


def empty_structs(count):
    return (bytes.fromhex(EMPTY), b"", b""), count


def shuffled_symbols(count):
    numbers = list(range(count))
    random.Random(1).shuffle(numbers)
    return numbers


MEGABYTE = 1_000_000
# The expected refusals, which depend on something at the end of the work.
EXPECTED = (b'"TooLong"', b'"NoMember"', b'"LongReply"', b'"NotPublished"')
WINDOW = ',"from":0,"count":20'

CASES = [
    Case("show: an array of enums, names of 10 bytes that overlap",
         32768, lambda n: made.enums(n, 10), show(bytes(32768))),
    Case("show: the same, names of 10,000 bytes",
         32768, lambda n: made.enums(n, 10_000), show(bytes(32768))),
    Case("show: 300 such enums, names of 1 MB",
         32400, lambda n: made.enums(n, MEGABYTE, 300), show(bytes(32768))),
    Case("show: an enum of 15 MB names",
         32768, lambda n: made.enums(n, 15 * MEGABYTE), show(bytes(32768))),
    Case("show: enums of two bytes, 1,023 values", 16384, made.many_values,
         show(b"".join((i * 7919 % 1023).to_bytes(2, "little") for i in range(16384)))),
    Case("show: an array behind 511 typedefs", 32768, made.typedefs, show(bytes(32768))),
    Case("show: integers of 64 bits without a size", 21845, made.integers, show(bytes(8))),
    Case("show: the same, from bit 3 on", 21845, lambda n: made.integers(n, 3), show(bytes(9))),
    Case("show: arrays of nothing, nested 499 deep", 499, made.nested_nothing, show(bytes(8))),
    Case("show: structs of 1,023 empty structs", 32, made.empty_members, show(bytes(8))),
    Case("path: 1,023 names of 1 MB that overlap",
         MEGABYTE, made.overlapping_members, path(MEGABYTE - 1022)),
    Case("path: 1,023 members of one name of 1 MB",
         MEGABYTE, made.same_members, path(MEGABYTE, b"b")),
    Case("path: 1,023 names that end elsewhere",
         MEGABYTE // 2, made.ends_far_off, path(MEGABYTE // 2 + 900)),
    Case("name: of 15 MB", 15 * MEGABYTE, made.long_names, word("name")),
    Case("record: a name of 15 MB", 15 * MEGABYTE, made.long_names, word("record")),
    Case("members: 20 of a name of 15 MB", 15 * MEGABYTE, made.long_names, word("members", WINDOW)),
    Case("find: among 16,000 names alike in front", 16000, made.alike,
         lambda t: '"op":"find","d":1,"text":"%s"' % ("%d" % 15999).rjust(79, "n")),
    Case("publish: one more than 16,000", 16_000, empty_structs,
         name_line("publish", "-", ',"d":1'), publications),
    Case("take: a name that none of 16,000 has", 16_000, empty_structs,
         name_line("take", "-", ',"owner":1'), publications),
    Case("withdraw: one of 16,000", 16_000, empty_structs, name_line("withdraw"), publications),
    Case("open: 699,048 symbols in order", 699_048, lambda n: made.named_symbols(n, range),
         open_line),
    Case("open: the same, shuffled", 699_048, lambda n: made.named_symbols(n, shuffled_symbols),
         open_line),
    Case("open: 1,900 unions of 1,023 members", 1900, made.unions, open_line),
    Case("dump: 20,000 symbols of a 15 MB name, untold",
         20_000, lambda n: made.untold(n, 15 * MEGABYTE), None),
    Case("dump: 32,765 pointers to a name of 1 MB",
         32765, lambda n: made.pointers(n, MEGABYTE), None),
    Case("dump: 32,255 pointers, 511 deep, to 65,537 bytes",
         32255, lambda n: made.deep_pointers(n, 65537), None),
]


def stream(lists, before, fields, word):
    """The lines that hand in a dictionary, open it and ask; they stop where `word` says."""
    yield from all_parts(1, lists)
    if word == "parts":
        return
    yield '{"s":1,"op":"open"}\n'
    asked = [*before, fields] if word == "asked" and fields else before
    yield from ('{"s":1,%s}\n' % one for one in asked)


class Run:
    """A case of a size, with its files in a folder."""

    def __init__(self, program, case, size, folder):
        lists, number = case.make(size)
        self.program, self.is_dump, self.folder = program, case.ask is None, folder
        self.lists = lists
        self.fields = None if self.is_dump else case.ask(number)
        self.before = list(case.before(size))
        self.files = [os.path.join(folder, name) for name in ("ctf", "sym", "str")]
        for file, data in zip(self.files, lists):
            with open(file, "wb") as out:
                out.write(data)

    def commands(self):
        """The command with the request and the one without it, each with its input."""
        if self.is_dump:
            has_symbols = self.lists[1] or self.lists[2]
            extra = ["--sym", self.files[1], "--str", self.files[2]] if has_symbols else []
            return ([self.program, "dump", self.files[0], *extra], os.devnull), None
        asked, before = "asked" if self.fields else "opened", "opened" if self.fields else "parts"
        return tuple(([self.program, "serve"], self.lines(word)) for word in (asked, before))

    def lines(self, word):
        file = os.path.join(self.folder, word)
        with open(file, "w") as out:
            out.writelines(stream(self.lists, self.before, self.fields, word))
        return file

    def megabytes(self, written):
        asked = len(self.fields or "")
        return (sum(map(len, self.lists)) + asked + written) / 1_000_000


def time_of(command, file):
    """The seconds of processor time, and the output."""
    with open(file, "rb") as stdin, tempfile.TemporaryFile() as out:
        child = subprocess.Popen(command, stdin=stdin, stdout=out)
        _, status, usage = os.wait4(child.pid, 0)
        if status:
            sys.exit(f"{' '.join(command)} ended with status {status}")
        out.seek(0)
        said = out.read()
    return usage.ru_utime + usage.ru_stime, said


def measure(run):
    """The megabytes and milliseconds of a request."""
    with_it, without = run.commands()
    best, said = min(time_of(*with_it) for _ in range(RUNS))
    if without:
        best -= min(time_of(*without) for _ in range(RUNS))[0]
        said = said.rsplit(b"\n", 2)[-2]
        if not said.startswith(b'{"ok"') and not any(name in said for name in EXPECTED):
            sys.exit(f"{run.fields}: {said[:200]}")
    return run.megabytes(len(said)), max(0.0, 1000 * best)


def instructions(command, file):
    words = ["valgrind", "--tool=callgrind", "--callgrind-out-file=/dev/null", *command]
    with open(file, "rb") as stdin:
        done = subprocess.run(words, stdin=stdin, stdout=subprocess.DEVNULL,
                              stderr=subprocess.PIPE, check=True)
    return int(re.search(rb"Collected : (\d+)", done.stderr).group(1))


def instruction_count(run):
    with_it, without = run.commands()
    return instructions(*with_it) - (instructions(*without) if without else 0)


def growth(program, case):
    """The ratio of the instructions of a case to those of one of half its size."""
    with tempfile.TemporaryDirectory() as small, tempfile.TemporaryDirectory() as large:
        half = instruction_count(Run(program, case, case.size // 2, small))
        return instruction_count(Run(program, case, case.size, large)) / half


@dataclass(frozen=True)
class Row:
    """The result of a case."""

    name: str
    megabytes: float
    milliseconds: float
    grown: float | None = None

    def is_over(self, factor):
        wanted = max(LEAST, WANTED * self.megabytes)
        return factor is not None and self.milliseconds > factor * wanted

    def report(self, factor):
        rate = self.milliseconds / self.megabytes
        words = [f"{self.name:52}{self.megabytes:8.2f} MB{self.milliseconds:9.1f} ms"
                 f"{rate:9.1f} ms/MB"]
        words += [f"x{self.grown:.2f}"] if self.grown else []
        words += ["TOO SLOW"] if self.is_over(factor) else []
        return "  ".join(words)


def dictionary_row(program, case, is_grown):
    with tempfile.TemporaryDirectory() as folder:
        megabytes, milliseconds = measure(Run(program, case, case.size, folder))
    return Row(case.name, megabytes, milliseconds,
               grown=growth(program, case) if is_grown else None)


def session_row(program, case):
    taken = []
    for _ in range(RUNS):
        with Service(program) as service:
            taken.append(service.request_time(case.lines()))
    seconds, moved, _ = min(taken)
    return Row(case.name, case.read + moved / 1_000_000, 1000 * seconds)


def held_row(program, case, limit):
    """A row of memory, and whether it is too much."""
    with Service(program) as service:
        before = service.memory()
        service.ask_all(case.lines())
        taken = service.memory() - before
    times = taken / case.counted
    is_over = limit is not None and times > case.most
    return f"{case.name:52}{case.counted / 1e6:8.2f} MB{taken / 1e6:9.1f} MB  x{times:.2f}" \
           f"{'  TOO MUCH' if is_over else ''}", is_over


def all_seconds(program, case, size):
    """The time of all requests of a case."""
    taken = []
    for _ in range(RUNS_OF_GROWTH):
        with Service(program) as service:
            taken.append(service.ask_all(case.lines(size)))
    return min(taken)


def all_instructions(program, case, size):
    with tempfile.NamedTemporaryFile("w") as file:
        file.writelines(case.lines(size))
        file.flush()
        return instructions([program, "serve"], file.name)


def steady(cost, size):
    """The costs of half a size and of the whole; measured again if the ratio is too large, since
    other processes may disturb a measurement."""
    for _ in range(3):
        half, whole = cost(size // 2), cost(size)
        if whole <= GROWN * half:
            break
    return half, whole


def growth_row(program, case, is_counted, limit):
    """A row of growth, and whether it is too much."""
    cost = all_instructions if is_counted else all_seconds
    half, whole = steady(lambda size: cost(program, case, size), case.size)
    used = f"{whole / 1e6:9.1f} million" if is_counted else f"{1000 * whole:9.1f} ms"
    is_over = limit is not None and whole > GROWN * half
    return f"{case.name:52}{case.size:8}   {used}  x{whole / half:.2f}" \
           f"{'  TOO SLOW' if is_over else ''}", is_over


def file_row(program, case, limit):
    """A row for a file that a command reads, and whether it takes too long."""
    half, whole = steady(lambda size: case.seconds(program, size), case.size)
    is_over = limit is not None and (whole > GROWN * half or whole > MOST_SECONDS)
    return f"{case.name:52}{case.size:8}   {1000 * whole:9.1f} ms  x{whole / half:.2f}" \
           f"{'  TOO SLOW' if is_over else ''}", is_over


def rows(program, options):
    """The rows, each with whether it exceeds its limit."""

    def is_picked(case):
        return not options.words or any(word in case.name for word in options.words)

    for case in filter(is_picked, CASES):
        row = dictionary_row(program, case, options.growth)
        yield row.report(options.limit), row.is_over(options.limit)
    for case in filter(is_picked, SESSIONS):
        row = session_row(program, case)
        yield row.report(options.limit), row.is_over(options.limit)
    for case in filter(is_picked, HELD):
        yield held_row(program, case, options.limit)
    for case in filter(is_picked, GROWTHS):
        yield growth_row(program, case, options.growth, options.limit)
    for case in filter(is_picked, FILES):
        yield file_row(program, case, options.limit)


def main():
    parser = argparse.ArgumentParser(description=__doc__,
                                     formatter_class=argparse.RawDescriptionHelpFormatter)
    parser.add_argument("program")
    parser.add_argument("words", nargs="*")
    parser.add_argument("--growth", action="store_true")
    parser.add_argument("--limit", type=float)
    options = parser.parse_intermixed_args()
    slow = 0
    for told, is_over in rows(os.path.abspath(options.program), options):
        print(told, flush=True)
        slow += is_over
    return 1 if slow else 0


if __name__ == "__main__":
    sys.exit(main())
