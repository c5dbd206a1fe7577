#!/usr/bin/env python3
"""Compares a queue of requests and several consumers with one `ctfd serve`.

usage: compare.py PROGRAM [--kill] [--across]

Starts its own redis-server, on a free port of the loopback and in a temporary folder, and a
consumer for each partition, and sends the requests of twenty sessions. The replies to each session
are compared with those of one process that gets all requests in the order of sending. Prints `same`
and the counts; if a session's replies differ, `different`, and the status is 1.

--kill    after a third of the replies all consumers are killed, and others are started when the
          next third is sent
--across  sessions also take from those of other partitions, which is not supported: the replies
          differ then
"""
import argparse
import contextlib
import json
import pathlib
import socket
import subprocess
import sys
import tempfile
import time

import mix
import streams

PARTITIONS = 4
SESSIONS = range(1, 21)
REQUESTS = 900
THIRD = REQUESTS // 3
CONSUMER = pathlib.Path(__file__).with_name("consumer.py")


def free_port():
    with socket.socket() as bound:
        bound.bind(("127.0.0.1", 0))
        return bound.getsockname()[1]


@contextlib.contextmanager
def running(*command):
    """A process that is terminated at the end of the `with` block."""
    process = subprocess.Popen(list(map(str, command)), stdout=subprocess.DEVNULL)
    try:
        yield process
    finally:
        process.terminate()
        process.wait()


def connect(port):
    """A connection to a redis-server that was just started."""
    for _ in range(100):
        with contextlib.suppress(ConnectionRefusedError):
            return streams.Redis(port)
        time.sleep(0.1)
    sys.exit("redis-server does not answer")


def gather(redis, count):
    """The replies of each session, until there are `count`; fewer if none comes for ten seconds."""
    replies = {session: [] for session in SESSIONS}
    names = [f"replies:{session}" for session in SESSIONS]
    for name, _, told in streams.follow(redis, names, 10_000):
        replies[int(name.split(b":")[1])].append(told[b"line"].decode())
        count -= 1
        if not count:
            break
    return replies


def by_queue(program, files, requests, kill):
    """The replies of each session, from a queue with a consumer for each partition."""
    with contextlib.ExitStack() as stack:
        folder, port = stack.enter_context(tempfile.TemporaryDirectory()), free_port()
        words = ["--bind", "127.0.0.1", "--port", port, "--dir", folder, "--save", "",
                 "--appendonly", "no"]
        stack.enter_context(running("redis-server", *words))
        redis = connect(port)

        def start(partition):
            return stack.enter_context(running(CONSUMER, port, partition, program, *files))

        def put(requests):
            for session, request in requests:
                streams.send(redis, PARTITIONS, session, request)

        consumers = [start(partition) for partition in range(PARTITIONS)]
        if kill:
            put(requests[:THIRD])
            gather(redis, THIRD)
            for consumer in consumers:
                consumer.kill()
                consumer.wait()
            put(requests[THIRD : 2 * THIRD])
            for partition in range(PARTITIONS):
                start(partition)
        put(requests[2 * THIRD if kill else 0 :])
        return gather(redis, len(requests))


def by_one(program, files, requests):
    """The replies of each session, from one process that gets all requests."""
    lines = "".join(streams.line(session, request) + "\n" for session, request in requests)
    command = [program, "serve", *files]
    told = subprocess.run(command, input=lines, stdout=subprocess.PIPE, text=True,
                          check=True).stdout
    replies = {session: [] for session in SESSIONS}
    for line in told.splitlines():
        replies[json.loads(line)["s"]].append(line)
    return replies


def granted_count(requests, replies, chosen):
    """The number of chosen requests that were granted."""
    waiting = {session: iter(lines) for session, lines in replies.items()}
    told = [(session, request, next(waiting[session])) for session, request in requests]
    return sum(chosen(session, request) and line.startswith('{"ok"')
               for session, request, line in told)


def refusal_count(replies, name):
    """The number of replies with a certain refusal."""
    return sum(f'"name":"{name}"' in line for lines in replies.values() for line in lines)


def takes_loaded(session, request):
    return request["op"] == "take" and request["owner"] == 0


def takes_published(session, request):
    return request["op"] == "take" and request["owner"] not in (0, session)


def withdraws(session, request):
    return request["op"] == "withdraw"


def main():
    parser = argparse.ArgumentParser(description=__doc__,
                                     formatter_class=argparse.RawDescriptionHelpFormatter)
    parser.add_argument("program")
    parser.add_argument("--kill", action="store_true")
    parser.add_argument("--across", action="store_true")
    words = parser.parse_args()

    def owners(session):
        return [s for s in SESSIONS if words.across or (s - session) % PARTITIONS == 0]

    requests = list(mix.mix(SESSIONS, owners, REQUESTS))
    with tempfile.TemporaryDirectory() as folder:
        files = mix.files(folder)
        one = by_one(words.program, files, requests)
        queue = by_queue(words.program, files, requests, words.kill)
    other = [session for session in SESSIONS if one[session] != queue[session]]
    print("different" if other else "same")
    print(f"{len(requests)} requests of {len(SESSIONS)} sessions in {PARTITIONS} partitions,"
          " granted", end=" ")
    print(granted_count(requests, one, lambda *_: True), end=", of these")
    print(f" {granted_count(requests, one, withdraws)} withdrawals", end=",")
    print(f" {granted_count(requests, one, takes_loaded)} takes of what was loaded", end=" and")
    print(f" {granted_count(requests, one, takes_published)} of what another session published")
    names = ("NotPublished", "ModelDiffers", "QuotaFull")
    print("refused among the others:",
          ", ".join(f"{refusal_count(one, name)} {name}" for name in names))
    if other:
        print("sessions that were replied otherwise:", *other)
    return 1 if other else 0


if __name__ == "__main__":
    sys.exit(main())
