#!/usr/bin/env python3
"""Measures sessions that share a published dictionary, and questions of very many sessions.

usage: taking.py PROGRAM

One session publishes a dictionary of 20,000 named types; then none, 500 or 5,000 others take it,
and ask it one question each. Prints the peak memory of the service, and processor time.

Then 1,000 or 100,000 sessions ask 500,000 questions in random order: the size of a type of a
dictionary that all of them took, or what the draft of each has. Prints processor time for a
question.
"""
import random
import sys
import tempfile

import run
from dictionaries import all_parts, named_types

TYPES, QUESTIONS = 20_000, 500_000


def publishing(lists):
    """Requests of session 1, which publishes a dictionary."""
    yield from all_parts(1, lists)
    yield '{"s":1,"op":"open"}\n'
    yield '{"s":1,"op":"publish","d":1,"name":"base"}\n'


def take(session):
    return '{"s":%d,"op":"take","owner":1,"name":"base"}\n' % session


def size(session):
    return '{"s":%d,"op":"size","d":1,"t":%d}\n' % (session, 1 + session % TYPES)


def create(session):
    return '{"s":%d,"op":"create"}\n' % session


def info(session):
    return '{"s":%d,"op":"info","d":1}\n' % session


def taking(lists, takers):
    yield from publishing(lists)
    for session in range(2, 2 + takers):
        yield take(session)
        yield size(session)


def begun(lists, begin, sessions):
    """The first request of each of these sessions."""
    yield from publishing(lists)
    for session in range(2, 2 + sessions):
        yield begin(session)


def asked(lists, begin, ask, sessions):
    """The same, then questions in random order."""
    yield from begun(lists, begin, sessions)
    order = random.Random(1)
    for _ in range(QUESTIONS):
        yield ask(order.randrange(2, 2 + sessions))


def measure(program, lines, runs=3):
    with tempfile.NamedTemporaryFile("w", suffix=".jsonl") as file:
        file.writelines(lines)
        file.flush()
        used, _, memory = min(run.run([program, "serve"], file.name) for _ in range(runs))
    return used, memory


def main():
    program, lists = sys.argv[1], (named_types(TYPES), b"", b"")
    bare, memory = measure(program, taking(lists, 0))
    print("the owner alone: %.1f MiB" % (memory / 1024))
    for takers in (500, 5_000):
        used, memory = measure(program, taking(lists, takers))
        print("%5d sessions: %.1f MiB in all; %.1f microseconds for a take and a question"
              % (takers, memory / 1024, 1e6 * (used - bare) / takers))
    for what, begin, ask in (("a size", take, size), ("an info of a draft", create, info)):
        for sessions in (1_000, 100_000):
            before, _ = measure(program, begun(lists, begin, sessions), 5)
            used, _ = measure(program, asked(lists, begin, ask, sessions), 5)
            print("%6d sessions in random order: %.2f microseconds for %s"
                  % (sessions, 1e6 * (used - before) / QUESTIONS, what))


main()
