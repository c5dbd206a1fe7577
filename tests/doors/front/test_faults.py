"""Lines of 200 clients while sockets are cut, files run out, and memory is refused.

Each line names a session that no other line names, and the reply names it too, so each reply shows
which line it answers. The types of each client have a name of their own, which replies contain. A
connection gets replies to its lines in their order, each once and without a gap, until it is
closed; one that its client ends gets all of them. Granted requests last: each publication whose
reply came is taken at the end. When memory is refused, the reply to a line may be Memory, and a
connection may be closed with HeldFull.
"""
from __future__ import annotations

import contextlib
import itertools
import json
import random
import re
import resource
import selectors
import signal
import socket
import tempfile
import time
from collections import Counter, deque
from pathlib import Path
from typing import Counter as Counts, Deque, Dict, Iterator, List, Tuple

import pytest

from .hostile import handed_in, request_text
from .support import PATIENCE, Front, Talker, ask

CLIENTS = 200
BATCH = 100
PIECE = 65_536
SHARDS = 2
HELD_FULL = b'{"fault":{"code":102,"name":"HeldFull","place":0},"s":0}'
MEMORY = b'"name":"Memory"'
WORDS = ("--user-connections", "1000", "--user-sessions", "1000000", "--memory", "1000000000",
         "--user-memory", "1000000000", "--processes", str(SHARDS))
GRANTED = b'{"ok":{'
PUBLISHED = b'{"ok":{}'
NUMBERED = b'{"fault":{"code":58,"name":"BadRequest","place":0}'
BETWEEN = 5_000  # lines between two faults
LIMITS = (resource.RLIMIT_NOFILE, resource.RLIMIT_AS, resource.RLIMIT_DATA)
numbers = itertools.count(1)


class Wrong(Exception):
    """A reply that is not the one to the next line."""


class Connection:
    """One connection of a client: what it asks, and the replies that it expects."""

    def __init__(self, path: str, types: int, chance: random.Random, seen: Counts[str]) -> None:
        self.socket = socket.socket(socket.AF_UNIX)
        self.socket.setblocking(False)
        self.socket.connect(path)
        self.types, self.chance, self.seen = types, chance, seen
        self.is_cut = chance.random() < 0.5  # or it is ended, with all lines answered
        self.name, self.number, self.is_published = f"v{next(numbers)}", 0, False
        self.is_refused = self.is_poor = self.has_ended = False
        self.wanted: Deque[Tuple[int, bytes]] = deque()
        self._batches = chance.randrange(1, 20)
        self._unsent, self._rest = [b"{}\n"], b""
        self.wanted.append((0, NUMBERED))
        for fields in (*handed_in(types), {"op": "publish", "d": 1, "name": self.name}):
            begins = PUBLISHED if fields["op"] == "publish" else GRANTED
            self._ask(request_text(fields)[1:-1].encode(), begins)
        self._data = memoryview(b"".join(self._unsent))

    def _ask(self, fields: bytes, begins: bytes) -> None:
        number = next(numbers)
        self._unsent.append(b'{"s":%d,%b}\n' % (number, fields))
        self.wanted.append((number, begins))

    def _ask_some(self) -> None:
        """Writes questions; replies to half of them contain the client's own name."""
        self._unsent = []
        own = b'{"ok":{"name":"of_%d"}' % self.types
        for _ in range(BATCH):
            if self.chance.random() < 0.5:
                self._ask(b'"op":"name","d":1,"t":1', own)
            else:
                self._ask(b'"op":"kind","d":1,"t":1', b'{"ok":{"kind":"integer"}')
        if self.chance.random() < (0.5 if self.seen["short"] else 0.02):
            size = self.chance.randrange(10_000, 500_000)
            self._ask(b'"op":"part","section":"str","bytes":"' + 2 * size * b"6" + b'"', GRANTED)
            self._ask(b'"op":"clear"', GRANTED)
        self._data = memoryview(b"".join(self._unsent))
        self._batches -= 1

    def end(self) -> None:
        """Stops asking."""
        self._batches, self.is_cut = 0, False

    def write(self) -> bool:
        """Writes a piece. Returns whether the connection goes on."""
        if not self._data and self._batches > 0 and not self.is_poor:
            self._ask_some()
        if self._data:
            size = int(2 ** self.chance.uniform(4, 16))
            with contextlib.suppress(BlockingIOError, BrokenPipeError, ConnectionResetError):
                self._data = self._data[self.socket.send(self._data[:size]):]
        elif self.is_cut:
            return False
        elif not self.has_ended:
            self.has_ended = True
            with contextlib.suppress(OSError):
                self.socket.shutdown(socket.SHUT_WR)
        return True

    def read(self) -> bool:
        """Reads and checks replies. Returns whether the connection goes on."""
        try:
            data = self.socket.recv(PIECE)
        except ConnectionResetError:  # it was closed with unread lines
            data = b""
        *replies, self._rest = (self._rest + data).split(b"\n")
        for reply in replies:
            self._judge(reply)
        if not data and not self.is_refused and (self.wanted or self._rest):
            raise Wrong(f"{len(self.wanted)} lines of session {self.number} have no reply, and"
                        f" nobody said why; {self._rest!r}")
        return bool(data)

    def _judge(self, reply: bytes) -> None:
        """Checks that a reply is the one to the next line."""
        if reply == HELD_FULL:
            self.is_refused = True
            self.seen["HeldFull"] += 1
            return
        if self.is_refused or not self.wanted:
            raise Wrong(f"{reply!r}, and nothing was asked")
        number, begins = self.wanted.popleft()
        self.seen["answered"] += 1
        if MEMORY in reply:
            self.is_poor = True
            self.seen["Memory"] += 1
            if not number or reply.endswith(b',"s":0}'):
                return
        elif not number:
            self.number = json.loads(reply)["s"]
            number = self.number
        if not reply.endswith(b',"s":%d}' % number):
            raise Wrong(f"{reply!r} in reply to {number}")
        if not reply.startswith(begins) and not self.is_poor:
            raise Wrong(f"{reply!r}, and not {begins!r}")
        self.is_published |= begins is PUBLISHED and reply.startswith(PUBLISHED)


class Load:
    """A front, its clients, and the faults that it suffers."""

    def __init__(self, folder: str, count: int, seed: int) -> None:
        self.chance, self._count = random.Random(seed), count
        self.front = Front(folder, *WORDS).start()
        self.seen: Counts[str] = Counter()
        self.published: List[Tuple[int, str, int]] = []
        self._ready = selectors.DefaultSelector()
        self._next_fault = BETWEEN
        pid = self.front.process.pid
        self._before = {name: resource.prlimit(pid, name) for name in LIMITS}

    @property
    def unanswered_count(self) -> int:
        """The number of lines that are still to be answered."""
        return max(0, self._count - self.seen["answered"])

    def run(self) -> None:
        """Runs until enough lines were answered, and all clients have ended."""
        open_now = 0
        free = list(range(1, CLIENTS + 1))
        quiet = time.monotonic()
        while self.unanswered_count or open_now:
            while free and self.unanswered_count and self._connects(free[-1]):
                free.pop()
                open_now += 1
            events = self._ready.select(0.1)
            quiet = time.monotonic() if events else quiet
            if time.monotonic() - quiet > PATIENCE:
                raise Wrong(f"nothing comes for {PATIENCE} seconds, of {open_now} connections")
            self.chance.shuffle(events)
            for key, mask in events:
                connection: Connection = key.data
                goes_on = not mask & selectors.EVENT_READ or connection.read()
                if goes_on and mask & selectors.EVENT_WRITE:
                    if not self.unanswered_count:
                        connection.end()
                    goes_on = connection.write()
                if goes_on and connection.has_ended:
                    self._ready.modify(connection.socket, selectors.EVENT_READ, connection)
                if not goes_on:
                    self._close(connection)
                    free.append(connection.types)
                    open_now -= 1
            self._befall()
        self._limit({})

    def _connects(self, types: int) -> bool:
        """Whether a connection can be opened; false if too many wait to be accepted."""
        try:
            connection = Connection(self.front.path, types, self.chance, self.seen)
        except BlockingIOError:
            return False
        self._ready.register(connection.socket, selectors.EVENT_READ | selectors.EVENT_WRITE,
                             connection)
        self.seen["connections"] += 1
        return True

    def _close(self, connection: Connection) -> None:
        self._ready.unregister(connection.socket)
        connection.socket.close()
        if connection.is_published:
            self.published.append((connection.number, connection.name, connection.types))

    def _befall(self) -> None:
        """Sometimes takes away files or memory from the front, until the next time."""
        if self.seen["answered"] < self._next_fault:
            return
        self._next_fault += BETWEEN
        faults = ("files", "memory", "memory", "nothing") if self.unanswered_count else ("end",)
        fault = self.chance.choice(faults)
        self._limit(dict(self._short_of(fault)))
        self.seen["short"] = int(fault == "memory")
        self.seen[f"times {fault}"] += 1

    def _short_of(self, fault: str) -> Iterator[Tuple[int, int]]:
        """Limits that the front has reached already, or reaches soon."""
        process = Path(f"/proc/{self.front.process.pid}")
        if fault == "files":
            yield resource.RLIMIT_NOFILE, len(list(process.joinpath("fd").iterdir()))
        elif fault == "memory":
            sizes = dict(re.findall(r"(Vm\w+):\s+(\d+) kB", process.joinpath("status").read_text()))
            more = self.chance.choice((0, 16, 64, 1024))
            yield resource.RLIMIT_AS, (int(sizes["VmSize"]) + more) << 10
            yield resource.RLIMIT_DATA, (int(sizes["VmData"]) + more) << 10

    def _limit(self, limits: Dict[int, int]) -> None:
        """Sets limits for the front, and restores all others."""
        for name, (soft, hard) in self._before.items():
            resource.prlimit(self.front.process.pid, name, (limits.get(name, soft), hard))

    def lost(self) -> int:
        """The number of granted publications that cannot be taken; each is in one shard."""
        talkers = [Talker(self.front.path) for _ in range(SHARDS)]
        lost = 0
        for owner, name, types in self.published:
            told = [talker.ask(ask("take", owner=owner, name=name)) for talker in talkers]
            lost += sum(b'"types":%d}' % types in reply for reply in told) != 1
            for talker in talkers:
                talker.ask(ask("reset"))
        return lost


def pytest_generate_tests(metafunc: pytest.Metafunc) -> None:
    """With --whole there are also a million lines from another seed."""
    if "count" in metafunc.fixturenames:
        whole = [(1_000_000, 2)] if metafunc.config.getoption("--whole") else []
        metafunc.parametrize("count, seed", [(100_000, 1), *whole])


def test_faults(count: int, seed: int) -> None:
    with tempfile.TemporaryDirectory(prefix="front") as folder:
        load = Load(folder, count, seed)
        try:
            load.run()
            assert load.lost() == 0
            assert load.front.end() == 0
        except BaseException:
            load.front.end(signal.SIGKILL)
            print(load.front.output[-2000:])
            raise
        assert "panicked" not in load.front.output
    told = ", ".join(f"{name} {number}" for name, number in load.seen.most_common())
    print(f"{CLIENTS} clients, {len(load.published)} publications, {told}")
