"""Fair shares of the service's time, limits for each user, and the choice of connections to close
when memory is short."""
from __future__ import annotations

import contextlib
import fcntl
import os
import random
import socket
import struct
import time
import unittest
from typing import Iterator, List

from .support import HAND_IN, INT, PATIENCE, Front, Talker, WithFront, ask, standing, until

KIND = ask("kind", d=1, t=1)
INTEGER = b'{"ok":{"kind":"integer"},"s":1}'
OTHER = ask("part", section="ctf", bytes=INT.replace("696e74", "696e75")) + ask("open")
LOOKED_UP = b'{"op":"kind","d":1,"t":1,"s":1}\n'  # one by one, since its s is not in front
REFUSED = b'{"fault":{"code":%d,"name":"%b","place":0},"s":0}'
MEBIBYTE = 1 << 20
MEMBERS = 1023
UNIONS = int(os.environ.get("UNIONS", "860"))  # 7 MB; the most expensive list has 8,000
QUEUED = 200
BETWEEN = 2  # imports that may precede another client's question: the running one, and the next one
PART = 1_000_000
SOMEBODY, ANOTHER = 65_534, 65_533


def child(unions: int) -> bytes:
    """A dictionary whose members all have the first type of its parent."""
    names = b"\0p\0"
    union = struct.pack("<IHH", 0, 7 << 11 | 1 << 10 | MEMBERS, 8)
    records = (union + struct.pack("<IHH", 0, 1, 0) * MEMBERS) * unions
    head = struct.pack("<8I", 0, 1, 0, 0, 0, 0, len(records), len(names))
    return b"\xf1\xcf\x02\0" + head + records + names


def handed_in(data: str) -> Iterator[bytes]:
    """The lines that hand in a dictionary and open it, from its hexadecimal digits."""
    for start in range(0, len(data), PART):
        yield ask("part", section="ctf", bytes=data[start:start + PART])
    yield ask("open")


def made_dear(talker: Talker, unions: int = UNIONS) -> None:
    """Hands in two parents, and a child whose import takes long."""
    talker.ask(HAND_IN + OTHER)
    for line in handed_in(child(unions).hex()):
        talker.ask(line)


class Queue:
    """A client with a queue of long requests, which others can count.

    Before each import, it publishes a dictionary under a new name. A client that takes one of these
    names learns whether that import has begun, so no clock is needed to count the requests of the
    queue that were answered between two others. The parents alternate, because importing a slot's
    present parent again takes no time.
    """

    def __init__(self, talker: Talker, unions: int = UNIONS) -> None:
        made_dear(talker, unions)
        self.owner, self._talker, self._replies = talker.number(), talker, 0
        self._rest = b""

    def fill(self, count: int = QUEUED) -> None:
        """Sends `count` imports at once, and waits for the first of them."""
        lines = [ask("publish", d=1, name=f"import-{number}")
                 + ask("import", d=3, parent=1 + number % 2) for number in range(1, count + 1)]
        self._talker.send(b"".join(lines))
        self._talker.socket.setblocking(False)
        until(lambda: self.reply_count() > 0)

    def reply_count(self) -> int:
        """The number of imports that were answered."""
        with contextlib.suppress(BlockingIOError):
            while True:
                data = self._talker.socket.recv(MEBIBYTE)
                assert data, "the front has closed it"
                self._rest += data
        *lines, self._rest = self._rest.split(b"\n")
        assert all(line == b'{"ok":{},"s":1}' for line in lines), lines[:3]
        self._replies += len(lines)
        return self._replies // 2

    def has_begun(self, number: int) -> bytes:
        """The request that finds out whether an import has begun: it is refused if not."""
        return ask("take", owner=self.owner, name=f"import-{number}")


@contextlib.contextmanager
def as_user(number: int) -> Iterator[None]:
    """Connections in this context belong to another user."""
    os.seteuid(number)
    try:
        yield
    finally:
        os.seteuid(0)


as_root = unittest.skipIf(os.getuid(), "not possible here: only root can connect as several users")


class Shares(WithFront):
    """A client that has used more of the service's time waits for those that have used less."""

    def test_small_questions_beside_the_dearest_requests(self) -> None:
        """49 clients ask small questions again and again beside a queue of 200 imports.

        Each waits for the running import, and for one more that may have been chosen already. They
        ask while the front is stopped, so it makes no difference how busy the machine is.
        """
        front = self.front().start()
        queue = Queue(self.talker(front))
        others = [self.talker(front) for _ in range(49)]
        for other in others:
            other.ask(HAND_IN)
        queue.fill()
        rounds = 0
        while queue.reply_count() < QUEUED - 2 * BETWEEN and rounds < 40:
            rounds += 1
            with standing(front):
                question = queue.has_begun(queue.reply_count() + BETWEEN + 1)
                for other in others:
                    other.send(KIND + question)
            for other in others:
                self.assertEqual(other.line(), INTEGER)
                self.assertIn(b'"NotPublished"', other.line())
            time.sleep(0.02 * random.random())
        self.assertGreater(rounds, 5)
        until(lambda: queue.reply_count() == QUEUED, 10 * PATIENCE)
        self.assertIn(b'"types":1', others[0].ask(queue.has_begun(QUEUED)))

    def test_newcomer_is_not_behind_a_queue(self) -> None:
        """A new client is answered in the middle of the queue, not at its end, however late it is
        let in."""
        front = self.front().start()
        queue = Queue(self.talker(front))
        queue.fill()
        newcomer = self.talker(front)
        self.assertIn(b'"NotPublished"', newcomer.ask(queue.has_begun(QUEUED // 2)))
        with standing(front):
            newcomer.send(queue.has_begun(queue.reply_count() + BETWEEN + 1))
        self.assertIn(b'"NotPublished"', newcomer.line())


class OneUser(WithFront):
    """No user can take everything."""

    def several(self, *words: str) -> Front:
        os.chmod(self.folder, 0o755)
        return self.front("--mode", "666", *words).start()

    def idle(self, front: Front, user: int, count: int) -> None:
        with as_user(user):
            for _ in range(count):
                self.talker(front)

    @as_root
    def test_idle_connections_of_one_user(self) -> None:
        front = self.several()
        self.idle(front, SOMEBODY, 1_000)
        with as_user(ANOTHER):
            talker = self.talker(front)
        self.assertGreater(talker.number(), 0)

    @as_root
    def test_connections_of_one_user_are_limited(self) -> None:
        """A connection beyond the limit is refused with ConnectionsFull; another user's is not."""
        front = self.several("--user-connections", "3")
        self.idle(front, SOMEBODY, 3)
        with as_user(SOMEBODY):
            refused = self.talker(front)
        self.assertEqual(refused.line(), REFUSED % (100, b"ConnectionsFull"))
        self.assertTrue(refused.is_closed())
        with as_user(ANOTHER):
            self.assertGreater(self.talker(front).number(), 0)
        self.assertIn(f"user {SOMEBODY} is refused a connection", front.output)

    def test_sessions_of_one_user_are_limited(self) -> None:
        front = self.front("--user-sessions", "5").start()
        for _ in range(5):
            self.talker(front).close()
        self.assertEqual(self.talker(front).line(), REFUSED % (101, b"SessionsFull"))

    def test_all_sessions_are_made(self) -> None:
        front = self.front("--sessions", "2").start()
        for _ in range(3):
            self.talker(front)
        self.assertEqual(front.process.wait(PATIENCE), 7)

    @as_root
    def test_memory_of_one_user(self) -> None:
        """The half-lines of one user do not close another user's connections."""
        front = self.several("--user-memory", str(3 * MEBIBYTE))
        talkers: List[Talker] = []
        for user in (ANOTHER, *[SOMEBODY] * 6, ANOTHER):
            with as_user(user):
                talkers.append(self.talker(front))
            with contextlib.suppress(OSError):
                talkers[-1].send(b'{"op":"info","x":"' + 900_000 * b" ")
        until(lambda: "memory " in front.tell())
        for talker in (talkers[0], talkers[-1]):
            self.assertIn(b'"BadRequest"', talker.ask(b'"}\n'))

    @as_root
    def test_lines_of_one_user_in_the_service(self) -> None:
        """A user whose lines fill its share leaves room for another's, and all are answered."""
        front = self.several("--ahead", "64", "--user-ahead", "8")
        talkers: List[Talker] = []
        for user in (SOMEBODY, SOMEBODY, ANOTHER):
            with as_user(user):
                talkers.append(self.talker(front))
            talkers[-1].ask(HAND_IN)
        for talker in talkers:
            talker.send(500 * LOOKED_UP)
        for talker in talkers:
            for _ in range(500):
                self.assertEqual(talker.line(), INTEGER)

    @as_root
    def test_users_have_equal_shares(self) -> None:
        """A user with many connections gets no more of the service than one with a single one."""
        front = self.several()
        with as_user(SOMEBODY):
            dear = [self.talker(front) for _ in range(5)]
        with as_user(ANOTHER):
            other = self.talker(front)
        queues = [Queue(talker, 200) for talker in dear]
        other.ask(HAND_IN)
        for queue in queues:
            queue.fill(100)
        for _ in range(10):
            with standing(front):
                questions = [queue.has_begun(queue.reply_count() + more) for queue in queues
                             for more in range(1, BETWEEN + 2)]
                other.send(KIND + b"".join(questions))
            self.assertEqual(other.line(), INTEGER)
            begun = sum(b'"NotPublished"' not in other.line() for _ in questions)
            self.assertLessEqual(begun, BETWEEN)
            other.ask(ask("reset"), HAND_IN)
        self.assertLess(max(queue.reply_count() for queue in queues), 100)

    def test_lock_that_others_may_open(self) -> None:
        """A lock file that others may open is refused: another user could hold the lock."""
        path = os.path.join(self.folder, "front.sock")
        with open(f"{path}.lock", "w"):
            os.chmod(f"{path}.lock", 0o644)
        front = self.front()
        self.assertEqual(front.process.wait(PATIENCE), 5)
        self.assertIn("others may open it: remove it", front.output)

    def test_lock_is_the_fronts_own(self) -> None:
        """Of several that start at once, one listens, and no file is left."""
        with socket.socket(socket.AF_UNIX) as stale:
            stale.bind(os.path.join(self.folder, "front.sock"))
        fronts = [self.front() for _ in range(4)]
        until(lambda: sum(front.process.poll() is not None for front in fronts) == 3)
        self.assertEqual(sorted(os.listdir(self.folder)), ["front.sock", "front.sock.log"])
        self.assertGreater(self.talker(fronts[0]).number(), 0)

    def test_folder_that_another_locks(self) -> None:
        """The front starts although another process holds a lock on the socket's folder."""
        held = os.open(self.folder, os.O_RDONLY)
        self.addCleanup(os.close, held)
        fcntl.flock(held, fcntl.LOCK_EX)
        front = self.front().start()
        self.assertGreater(self.talker(front).number(), 0)


class Memory(WithFront):
    """If memory is short, the client that asked for more last is closed, not the one that has
    most."""

    def test_honest_client_stays(self) -> None:
        front = self.front("--memory", str(32 * MEBIBYTE)).start()
        honest = self.talker(front)
        honest.ask(ask("take", owner=0, name="lua"))
        large = ask("bytes", **{"d": 1, "from": 0, "count": 20_000})
        lines = 200
        honest.send(lines * large)  # 8 MB of replies, which it does not read yet
        until(lambda: int(held_bytes(front.tell())) > MEBIBYTE)
        others = [self.talker(front) for _ in range(40)]
        for other in others:
            with contextlib.suppress(OSError):
                other.send(1_000_000 * b" ")
        # 32 of them fit; half a megabyte is left, so an honest reader's next replies have room.
        until(lambda: "memory 8" in front.tell())
        for _ in range(lines):
            self.assertIn(b'"length"', honest.line())
        self.assertIn(b'"name":"HeldFull"', b"".join(map(receive, others)))


def held_bytes(said: str) -> str:
    """The number of bytes that a front reports as held."""
    return said.split(" held ")[1].split(";")[0]


def receive(talker: Talker) -> bytes:
    """The bytes that have come so far."""
    talker.socket.setblocking(False)
    with contextlib.suppress(OSError):
        return talker.socket.recv(MEBIBYTE)
    return b""

