#!/usr/bin/env python3
"""Measures the memory and time of sessions that each hand in and open the same dictionary.

usage: pooling.py PROGRAM

1, 100 or 500 sessions hand in equal lists of a dictionary of 5,000 named types, open them, and ask
one question each. Then they do the same with dictionaries that differ in one name. Prints the peak
memory of the service, and the processor time for each session after the first.
"""
import sys
import tempfile

import run
from dictionaries import all_parts, named_types

TYPES = 5_000


def same_dictionary(_session):
    return named_types(TYPES)


def own_dictionary(session):
    """The dictionary with the session's number in place of a name's digits."""
    return named_types(TYPES).replace(b"\0type_1001\0", b"\0type_%04d\0" % session)


def lines(dictionary, sessions):
    for session in range(1, 1 + sessions):
        yield from all_parts(session, (dictionary(session), b"", b""))
        yield '{"s":%d,"op":"open"}\n' % session
        yield '{"s":%d,"op":"size","d":1,"t":%d}\n' % (session, session)


def measure(program, dictionary, sessions):
    with tempfile.NamedTemporaryFile("w", suffix=".jsonl") as file:
        file.writelines(lines(dictionary, sessions))
        file.flush()
        used, _, memory = min(run.run([program, "serve"], file.name) for _ in range(3))
    return used, memory


def main():
    for name, dictionary in (("equal", same_dictionary), ("own", own_dictionary)):
        alone, memory = measure(sys.argv[1], dictionary, 1)
        print("%5s lists, one session: %.1f MiB, %.1f ms" % (name, memory / 1024, 1e3 * alone))
        for sessions in (100, 500):
            used, memory = measure(sys.argv[1], dictionary, sessions)
            each = 1e3 * (used - alone) / (sessions - 1)
            print("%5s lists, %3d sessions: %.1f MiB in all, %.2f ms for each more"
                  % (name, sessions, memory / 1024, each))


main()
