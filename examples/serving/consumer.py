#!/usr/bin/env python3
"""Serves partitions of the queue: one `ctfd serve`, which is given their requests from the first
one on.

usage: consumer.py PORT PARTITION[,PARTITION].. PROGRAM [NAME=FILE]..

A partition has one consumer at a time. A new one begins at the stream's beginning, as the old one
did: requests that have a reply already are only replayed, and the others are answered.
"""
import subprocess
import sys

import streams

MEMORY = b'{"fault":{"code":0,'


class Service:
    def __init__(self, program, files):
        command = [program, "serve", *files]
        self.process = subprocess.Popen(command, stdin=subprocess.PIPE, stdout=subprocess.PIPE)

    def reply(self, line):
        """The reply to a request. A newline in the line would make two requests, so it is
        replaced."""
        self.process.stdin.write(line.replace(b"\n", b" ") + b"\n")
        self.process.stdin.flush()
        reply = self.process.stdout.readline()
        if not reply.endswith(b"\n"):
            sys.exit(f"the service ended with status {self.process.wait()}")
        return reply[:-1]


def on_record(redis, replies, number):
    """The stored reply to a request, or None."""
    found = redis.ask("XRANGE", replies, number, number)
    return streams.fields(found[0])[1][b"line"] if found else None


def serve(redis, service, number, request):
    replies = b"replies:" + request[b"s"]
    told = on_record(redis, replies, number)
    if told is not None and told.startswith(MEMORY):
        return  # it changed nothing then, and must not now
    reply = service.reply(request[b"line"])
    if told is None:
        redis.ask("XADD", replies, number, "line", reply)
    elif told != reply:
        sys.exit(f"{number.decode()} was replied otherwise before: {told.decode()},"
                 f" now {reply.decode()}")


def main(port, partitions, program, *files):
    redis, service = streams.Redis(int(port)), Service(program, files)
    names = [f"requests:{partition}" for partition in partitions.split(",")]
    for _, number, request in streams.follow(redis, names, 0):
        serve(redis, service, number, request)


if __name__ == "__main__":
    main(*sys.argv[1:]) if len(sys.argv) > 3 else sys.exit(__doc__)
