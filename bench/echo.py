#!/usr/bin/env python3
"""Writes each line of its input back and flushes it: the least that a service of lines can do.

usage: echo.py [SOCKET]

With SOCKET it listens there, and sends each client what it reads from it.
"""
from __future__ import annotations

import selectors
import socket
import sys

PIECE = 65_536


def echo_lines() -> None:
    for line in sys.stdin.buffer:
        sys.stdout.buffer.write(line)
        sys.stdout.buffer.flush()


def echo_clients(path: str) -> None:
    """Serves clients until a signal ends it."""
    listening = socket.socket(socket.AF_UNIX)
    listening.bind(path)
    listening.listen(128)
    with selectors.DefaultSelector() as ready:
        ready.register(listening, selectors.EVENT_READ)
        while True:
            for key, _ in ready.select():
                one = key.fileobj
                assert isinstance(one, socket.socket)
                if one is listening:
                    ready.register(listening.accept()[0], selectors.EVENT_READ)
                elif piece := one.recv(PIECE):
                    one.sendall(piece)
                else:
                    ready.unregister(one)
                    one.close()


if __name__ == "__main__":
    if sys.argv[1:]:
        echo_clients(sys.argv[1])
    else:
        echo_lines()
