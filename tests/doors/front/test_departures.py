"""Tests a front that gets SIGTERM, SIGINT or SIGKILL while clients come and leave.

Each run starts a front and some clients. Some read all their replies, some slowly, some never; some
leave with unanswered lines and unread replies, some in the middle of a line. At a random moment the
front gets one of the signals. It must then end with the status in its manual page, without a panic,
and, unless it was killed, leave no file. Clients that read must have received complete lines, each
the reply to their next line.
"""
from __future__ import annotations

import contextlib
import os
import random
import signal
import socket
import tempfile
import threading
import time
from typing import Iterator, List, Optional

import pytest

from .support import PATIENCE, Front, ask, serve

TAKE = ask("take", owner=0, name="lua")
KIND = ask("kind", d=1, t=218)
LARGE = ask("bytes", **{"d": 1, "from": 0, "count": 20_000})
REPLIES = dict(zip((TAKE, KIND, LARGE), serve(TAKE + KIND + LARGE)))


class Client(threading.Thread):
    """A client that behaves in one of several ways, and the replies that it got."""

    def __init__(self, path: str, chance: random.Random) -> None:
        super().__init__(daemon=True)
        self.way = chance.choice(("reads", "reads", "waits", "slow", "deaf", "half",
                                *["leaves"] * 4))
        self.sent: List[bytes] = [TAKE] + [chance.choice((KIND, KIND, LARGE))
                                           for _ in range(chance.choice((5, 50, 200)))]
        self.read = b""
        self._moment = chance.uniform(0, 0.06)
        self._socket = socket.socket(socket.AF_UNIX)
        self._socket.settimeout(PATIENCE)
        self._socket.connect(path)

    def run(self) -> None:
        with contextlib.suppress(OSError):
            if self.way == "waits":
                self._ask_one_by_one()
            else:
                writer = threading.Thread(target=self._write, daemon=True)
                writer.start()
                self._read()
                writer.join()
        self._socket.close()

    def wrong(self, is_killed: bool) -> Optional[str]:
        """An error in its replies, or None."""
        *lines, last = self.read.split(b"\n")
        for line, asked in zip(lines, self.sent):
            if line != REPLIES[asked]:
                return f"{self.way}: {line[:80]!r} in reply to {asked!r}"
        if len(lines) > len(self.sent):
            return f"{self.way}: {len(lines)} replies to {len(self.sent)} lines"
        if last and self.way in ("reads", "waits") and not is_killed:
            return f"{self.way}: a piece of a line, {last[:80]!r}"
        return None

    def _ask_one_by_one(self) -> None:
        for line in self.sent:
            self._socket.sendall(line)
            while not self.read.endswith(b"\n"):
                self._take()

    def _write(self) -> None:
        with contextlib.suppress(OSError):
            data = b"".join(self.sent)
            self._socket.sendall(data[:-7] if self.way == "half" else data)

    def _read(self) -> None:
        if self.way in ("deaf", "leaves"):
            time.sleep(self._moment if self.way == "leaves" else 5 * self._moment)
            return  # unread replies reset the connection
        while True:
            self._take(20_000 if self.way == "slow" else 65_536)
            if self.way == "slow":
                time.sleep(0.001)

    def _take(self, size: int = 65_536) -> None:
        data = self._socket.recv(size)
        if not data:
            raise OSError
        self.read += data


class Run:
    """One front, its clients, and its end."""

    def __init__(self, folder: str, seed: int) -> None:
        self.chance = random.Random(seed)
        self.processes = self.chance.choice((1, 1, 2))
        words = ["--grace", "5", "--processes", str(self.processes)]
        words += ["--withdraw"] if self.chance.random() < 0.5 else []
        self.front = Front(folder, *words, path=f"front{seed}").start()
        self.clients = [Client(self.front.path, self.chance) for _ in range(8)]

    def go(self) -> Iterator[str]:
        """Starts the clients, ends the front while they ask, and yields the errors."""
        for client in self.clients:
            client.start()
        time.sleep(self.chance.uniform(0, 0.06))
        how = self.chance.choice((signal.SIGTERM, signal.SIGTERM, signal.SIGINT, signal.SIGKILL))
        is_killed = how is signal.SIGKILL
        self.front.process.send_signal(how)
        try:
            status = self.front.process.wait(PATIENCE)
        except Exception as error:
            self.front.end(signal.SIGKILL)
            yield f"it does not end: {error}"
            return
        if status != (-how if is_killed else 0):
            yield f"status {status} after {how.name}"
        yield from self._left_behind(is_killed)

    def _left_behind(self, is_killed: bool) -> Iterator[str]:
        """Errors after the end: a panic, files that are left, wrong replies to clients."""
        said = self.front.output
        if "panicked" in said or "rror" in said:
            yield said[-2000:]
        files = [self.front.path] * (not is_killed) + [f"{self.front.path}.lock"]
        yield from (f"{path} is left" for path in files if os.path.exists(path))
        for client in self.clients:
            client.join(PATIENCE)
            if client.is_alive():
                yield f"{client.way}: it is not told of the end"
            wrong = client.wrong(is_killed)
            if wrong:
                yield wrong


def pytest_generate_tests(metafunc: pytest.Metafunc) -> None:
    """With --whole there are a thousand more runs."""
    if "number" in metafunc.fixturenames:
        whole = range(1000, 2000) if metafunc.config.getoption("--whole") else ()
        metafunc.parametrize("number", [*range(1, 41), *whole])


def test_departure(number: int) -> None:
    with tempfile.TemporaryDirectory(prefix="front") as folder:
        assert not list(Run(folder, number).go())
