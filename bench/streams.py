#!/usr/bin/env python3
"""Writes a stream of requests to standard output. Each run writes the same stream.

usage: streams.py STREAM

kinds     an integer is opened once, and asked for its kind 100,000 times
large     32,766 integers without names are opened once, and the last is asked for its kind 1,000
          times
line      20 requests of 1,048,576 bytes, resets padded with blanks
sessions  80,000 sessions, with one reset each
again     10,000 sessions with one reset each, and then the last of them 10,000 times
kind      20,000 types of mixed kinds are opened once, and 10,000 of them, spread over all, are
          asked for their kind
record    the same, asked for their records
members   the same dictionary; each of its 5,000 structs is asked for its 14 members twice
size      the same dictionary; 10,000 of its types are asked for their size
known     30,000 visible types, most of them with different names, are opened once, and 10,000 are
          asked for their kind
find      the same; 10,000 of the names are looked up
symbol    a program of 20,000 symbols is opened once, and 10,000 of them, spread over all, are
          looked up by name
hostile   a struct of 1,023 members that all have one name of 15 MB is asked 100 times for its
          members and for a member that it does not have, and a type of that name 100 times for its
          record
parents   a parent of 20,000 types and 200 children, each of which imports it and is asked for one
          of its types
orphans   the same without the imports
"""
import sys

from dictionaries import (LONG_NAME, all_parts, child, long_names, mixed_types, named_types, parts,
                          spelling, symbols)

INT = "f1cf0200" + 24 * "00" + "0c00000005000000" + "01000000000c040020000001" + "00696e7400"


def kinds():
    yield '{"s":7,"op":"part","section":"ctf","bytes":"%s"}\n' % INT
    yield '{"s":7,"op":"open"}\n'
    for _ in range(100_000):
        yield '{"s":7,"op":"kind","d":1,"t":1}\n'


def large_stream():
    header = "f1cf0200" + 24 * "00" + (12 * 32_766).to_bytes(4, "little").hex() + "00000000"
    types = 32_766 * "00000000000c040020000001"
    yield '{"s":7,"op":"part","section":"ctf","bytes":"%s"}\n' % (header + types)
    yield '{"s":7,"op":"open"}\n'
    for _ in range(1_000):
        yield '{"s":7,"op":"kind","d":1,"t":32766}\n'


def line():
    for _ in range(20):
        yield '{"s":7,"op":"reset"}'.ljust(1_048_576) + "\n"


def sessions(count=80_000):
    for session in range(1, count + 1):
        yield '{"s":%d,"op":"reset"}\n' % session


def again():
    yield from sessions(10_000)
    for _ in range(10_000):
        yield '{"s":10000,"op":"reset"}\n'


def questions(word, step):
    """Asks 10,000 types, each `step` before the previous one, wrapping at the first."""
    yield from parts(7, mixed_types(20_000))
    yield '{"s":7,"op":"open"}\n'
    for i in range(10_000):
        yield '{"s":7,"op":"%s","d":1,"t":%d}\n' % (word, 20_000 - i * step % 20_000)


def kind():
    yield from questions("kind", 7_001)


def record():
    yield from questions("record", 7_001)


def members():
    yield from questions("members", 7_004)


def size():
    yield from questions("size", 7_001)


def of_names(line):
    """Opens the dictionary of names, and yields 10,000 lines, each for one type."""
    yield from parts(7, named_types(30_000))
    yield '{"s":7,"op":"open"}\n'
    for i in range(10_000):
        yield line(1 + i * 7_001 % 30_000)


def known_stream():
    yield from of_names(lambda t: '{"s":7,"op":"kind","d":1,"t":%d}\n' % t)


def find():
    yield from of_names(lambda t: '{"s":7,"op":"find","d":1,"text":"%s"}\n' % spelling(t).decode())


def symbol():
    lists = symbols(20_000)
    names = lists[2].split(b"\0")[1:]
    yield from all_parts(7, lists)
    yield '{"s":7,"op":"open"}\n'
    for i in range(10_000):
        yield '{"s":7,"op":"symbol","d":1,"name":"%s"}\n' % names[i * 7_001 % 20_000].decode()


def hostile():
    yield from parts(7, long_names())
    yield from parts(7, LONG_NAME, "str")
    yield '{"s":7,"op":"open"}\n'
    for _ in range(100):
        yield '{"s":7,"op":"path","d":1,"t":1,"names":["a"]}\n'
        yield '{"s":7,"op":"members","d":1,"t":1}\n'
        yield '{"s":7,"op":"record","d":1,"t":2}\n'


def family(imports):
    """A parent in slot 1 and 200 children; each child is asked for the parent's last type."""
    yield from parts(7, mixed_types(20_000))
    yield '{"s":7,"op":"open"}\n'
    for d in range(2, 202):
        yield from parts(7, child(20_000))
        yield '{"s":7,"op":"open"}\n'
        if imports:
            yield '{"s":7,"op":"import","d":%d,"parent":1}\n' % d
        yield '{"s":7,"op":"kind","d":%d,"t":20000}\n' % d


def parents():
    yield from family(True)


def orphans():
    yield from family(False)


STREAMS = {
    "kinds": kinds,
    "large": large_stream,
    "line": line,
    "sessions": sessions,
    "again": again,
    "kind": kind,
    "record": record,
    "members": members,
    "size": size,
    "known": known_stream,
    "find": find,
    "symbol": symbol,
    "hostile": hostile,
    "parents": parents,
    "orphans": orphans,
}

if __name__ == "__main__":
    if len(sys.argv) != 2 or sys.argv[1] not in STREAMS:
        sys.exit(__doc__)
    sys.stdout.writelines(STREAMS[sys.argv[1]]())
