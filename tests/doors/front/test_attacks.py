"""Attacks on another client's session, and on other clients' time and memory."""
from __future__ import annotations

import contextlib
import json
import os
import resource
import socket
import threading
import time
from typing import List

from .support import HAND_IN, Front, Talker, WithFront, ask, memory, processor, until

KIND = ask("kind", d=1, t=1)
INTEGER = b'{"ok":{"kind":"integer"},"s":1}'
NO_SLOT = b'{"fault":{"code":49,"name":"NoSlot","place":0},"s":%d}'
LONG_LINE = b'{"fault":{"code":59,"name":"LongLine","place":0},"s":0}'
MEBIBYTE = 1 << 20
ENDLESS = 2048


class Numbers(WithFront):
    """No client can use another one's session."""

    def setUp(self) -> None:
        super().setUp()
        front = self.front().start()
        self.victim, self.attacker = self.talker(front), self.talker(front)
        self.number = self.victim.number()
        self.victim.ask(HAND_IN)

    def attack(self, line: str) -> bytes:
        """The reply to an attack with the victim's number. Asserts that the victim still has its
        types."""
        said = self.attacker.ask(line.replace("VICTIM", str(self.number)).encode() + b"\n")
        self.assertEqual(self.victim.ask(KIND), INTEGER)
        return said

    def test_number_of_another(self) -> None:
        self.assertEqual(self.attack('{"s":VICTIM,"op":"close","d":1}'), NO_SLOT % self.number)

    def test_number_twice(self) -> None:
        for line in ('{"s":9,"op":"close","d":1,"s":VICTIM}',
                     '{"s":9,"s":VICTIM,"op":"close","d":1}'):
            self.assertEqual(self.attack(line), NO_SLOT % self.number)
        self.assertEqual(self.attack('{"s":VICTIM,"op":"close","d":1,"s":9}'), NO_SLOT % 9)

    def test_escape_in_the_key(self) -> None:
        for line in ('{"\\u0073":VICTIM,"op":"close","d":1}',
                     '{"s":9,"op":"close","d":1,"\\u0073":VICTIM}'):
            self.assertEqual(self.attack(line), NO_SLOT % self.number)

    def test_number_inside_a_text(self) -> None:
        for line in ('{"s":9,"op":"close","d":1,"x":"\\",\\"s\\":VICTIM}"}',
                     '{"s":9,"op":"close","d":1,"x":",\\"s\\":VICTIM}"}',
                     '{"s":9,"op":"close","x":"s","d":1}'):
            self.assertEqual(self.attack(line), NO_SLOT % 9)

    def test_number_inside_another_object(self) -> None:
        self.assertEqual(self.attack('{"s":9,"op":"close","d":1,"x":{"s":VICTIM}}'), NO_SLOT % 9)
        told = json.loads(self.attack('{"op":"close","d":1,"x":[{"s":VICTIM}]}'))
        self.assertNotIn(told["s"], (9, self.number))

    def test_broken_lines(self) -> None:
        for line in ('{"op":"close","d":1,"s":VICTIM', '{"op":"close","d":1,"s":VICTIM}}',
                     '{"op":"close","d":1,"s":VICTIM,}', '{"op":"close","d":1,"s":VICTIM}\0',
                     '\ufeff{"op":"close","d":1,"s":VICTIM}', '{"x":"\\","op":"close","d":1}',
                     '[{"op":"close","d":1,"s":VICTIM}'):
            self.assertIn(b'"name":"NotJson"', self.attack(line), line)
        self.assertIn(b'"name":"BadRequest"', self.attack('[{"op":"close","d":1,"s":VICTIM}]'))

    def test_number_that_is_none(self) -> None:
        for session in ("null", "0", "-1", '"VICTIM"', "VICTIM.0", "4294967296", "[VICTIM]"):
            said = self.attack('{"s":VICTIM,"op":"close","d":1,"s":%s}' % session)
            self.assertEqual(said, b'{"fault":{"code":58,"name":"BadRequest","place":0},"s":0}')

    def test_two_lines_in_one(self) -> None:
        self.attacker.send(b'{"op":"close","d":1,"s":%d}\r{"op":"reset"}\n' % self.number)
        self.assertIn(b"NotJson", self.attacker.line())
        self.assertEqual(self.victim.ask(KIND), INTEGER)


class Patience(WithFront):
    """No client can delay another."""

    def test_line_without_end(self) -> None:
        front = self.front().start()
        talker, other = self.talker(front), self.talker(front)
        other.ask(HAND_IN)
        talker.number()
        before, piece = memory(front.process.pid)["VmRSS"], MEBIBYTE * b"x"
        for count in range(ENDLESS):
            talker.send(piece)
            if count % 256 == 0:
                self.assertEqual(other.ask(KIND), INTEGER)
        self.assertEqual(talker.ask(b"\n"), LONG_LINE)
        self.assertEqual(talker.ask(ask("reset", 9)), b'{"ok":{},"s":9}')
        after = memory(front.process.pid)["VmHWM"]
        self.assertLess(after - before, 16 * 1024)

    def test_half_a_line_and_a_hang(self) -> None:
        front = self.front("--stalled", "1").start()
        stalled, other = self.talker(front), self.talker(front)
        other.ask(HAND_IN)
        stalled.send(b'{"s":1,"op"')
        self.assertEqual(other.ask(KIND), INTEGER)
        self.assertTrue(stalled.is_closed())
        self.assertEqual(other.ask(KIND), INTEGER)
        front.until_told("half a line 1")

    def test_drop_by_drop(self) -> None:
        front = self.front("--stalled", "0.5").start()
        talker = self.talker(front)
        began = time.monotonic()
        with self.assertRaises(OSError):
            while time.monotonic() - began < 30:
                talker.send(b" ")
                time.sleep(0.05)

    def test_idle(self) -> None:
        front = self.front("--idle", "3").start()
        talker = self.talker(front)
        talker.number()
        self.assertTrue(talker.is_closed())
        front.until_told("idle 1")

    def test_client_that_never_reads(self) -> None:
        front = self.front().start()
        deaf, other = self.talker(front), self.talker(front)
        other.ask(HAND_IN)
        deaf.ask(ask("take", owner=0, name="lua"))
        large = ask("bytes", **{"d": 1, "from": 0, "count": MEBIBYTE})
        writer = threading.Thread(target=pour, args=(deaf, large), daemon=True)
        writer.start()
        before, questions = processor(front.process.pid), 500
        for _ in range(questions):
            self.assertEqual(other.ask(KIND), INTEGER)
        used = processor(front.process.pid) - before
        self.assertLess(used / questions, 0.001)  # seconds of processor time
        self.assertLess(memory(front.process.pid)["VmHWM"], 128 * 1024)
        deaf.socket.shutdown(socket.SHUT_RDWR)  # wakes the writer
        writer.join()
        until(lambda: "connections 1 of 2" in front.tell())

    def test_client_that_never_reads_is_ended(self) -> None:
        front = self.front("--stalled", "1").start()
        deaf = self.talker(front)
        deaf.ask(ask("take", owner=0, name="lua"))
        threading.Thread(target=pour, args=(deaf, ask("bytes", **{"d": 1, "from": 0,
                                                                 "count": MEBIBYTE})),
                         daemon=True).start()
        until(lambda: "unread 1" in front.tell())

    def test_unanswered_lines(self) -> None:
        front = self.front("--bytes", "1000", "--unread", "1000").start()
        deaf = self.talker(front)
        deaf.number()
        deaf.socket.settimeout(2)
        sent = 0
        with self.assertRaises(socket.timeout):
            while sent < 64 * MEBIBYTE:
                sent += deaf.socket.send(1000 * KIND)
        self.assertLess(sent, 8 * MEBIBYTE)

    def test_memory(self) -> None:
        front = self.front("--memory", str(3 * MEBIBYTE)).start()
        talkers = [self.talker(front) for _ in range(5)]
        for talker in talkers:
            with contextlib.suppress(OSError):
                talker.send(900_000 * b" ")
        until(lambda: "memory " in front.tell())
        self.assertLess(memory(front.process.pid)["VmHWM"], 64 * 1024)

    def test_memory_that_the_system_refuses(self) -> None:
        """Nothing ends: a client that asked for more is refused, others are answered, and
        statistics are printed, or report that there is no memory."""
        path = os.path.join(self.folder, "front.prom")
        front = self.front("--memory", str(1 << 30), "--user-memory", str(1 << 30),
                           "--metrics", path).start()
        honest = self.talker(front)
        honest.ask(HAND_IN)
        resource.prlimit(front.process.pid, resource.RLIMIT_AS, 2 * (64 * MEBIBYTE,))
        others = [self.talker(front) for _ in range(107)]
        for other in others:
            with contextlib.suppress(OSError):
                other.send(1_000_000 * b" ")
        self.assertEqual(honest.ask(KIND), INTEGER)
        self.assertIn("connections ", front.tell())
        for other in others:
            other.socket.shutdown(socket.SHUT_WR)
        told = [other.line() for other in others]
        self.assertIn(b'"name":"HeldFull"', b"".join(told))
        self.assertIn(b'"name":"NotJson"', b"".join(told))
        self.assertEqual(honest.ask(KIND), INTEGER)
        self.assertEqual(front.end(), 0)

    def test_memory_of_the_services(self) -> None:
        """A request that needs more is refused with Memory; sessions keep their content, and others
        go on."""
        front = self.front("--service-memory", str(48 * MEBIBYTE), "--memory", str(4 * MEBIBYTE),
                           "--connections", "20").start()
        honest, greedy = self.talker(front), self.talker(front)
        honest.ask(HAND_IN)
        part = ask("part", section="str", bytes="61" * 400_000)
        told = [greedy.ask(part) for _ in range(150)]
        refused = [b'"name":"Memory"' in reply for reply in told]
        self.assertIn(True, refused)
        self.assertGreater(refused.index(True), 20)
        self.assertEqual(honest.ask(KIND), INTEGER)
        self.assertEqual(greedy.ask(ask("clear")), b'{"ok":{},"s":1}')
        self.assertIn(b'"ok"', greedy.ask(part))
        self.assertGreater(self.talker(front).number(), 2)

    def test_turns(self) -> None:
        """Clients take turns by lines: one with a thousand waiting lines does not delay one with a
        single line."""
        front = self.front().start()
        greedy, other = self.talker(front), self.talker(front)
        for talker in (greedy, other):
            talker.ask(ask("take", owner=0, name="lua"))
        show = ask("bytes", **{"d": 1, "from": 0, "count": 20_000})
        greedy.send(1000 * show)
        greedy.line()
        other.ask(ask("kind", d=1, t=1))
        greedy.socket.setblocking(False)
        read = 0
        try:
            while True:
                read += greedy.socket.recv(MEBIBYTE).count(b"\n")
        except BlockingIOError:
            self.assertLess(read, 900)


class Connections(WithFront):
    """Many connections."""

    def test_a_thousand(self) -> None:
        front = self.front("--connections", "200").start()
        before, numbers = files(front), []
        for _ in range(10):
            talkers = [Talker(front.path) for _ in range(100)]
            for place, talker in enumerate(talkers):
                talker.send(b"{}\n" if place % 2 else b"")
            numbers += [json.loads(talker.line())["s"] for talker in talkers[1::2]]
            for talker in talkers:
                talker.close()
        self.assertEqual(len(set(numbers)), 500)
        self.assertEqual(numbers, sorted(numbers))
        until(lambda: "connections 0 of 1000" in front.tell())
        self.assertEqual(files(front), before)
        last = self.talker(front)
        self.assertGreater(last.number(), max(numbers))

    def test_a_thousand_at_once(self) -> None:
        front = self.front("--connections", "1000", "--user-connections", "1000").start()
        talkers: List[Talker] = []
        self.addCleanup(lambda: [talker.close() for talker in talkers])
        for _ in range(900):
            talkers.append(Talker(front.path))
        for talker in talkers:
            talker.send(HAND_IN + KIND)
        for talker in talkers:
            self.assertEqual([talker.line() for _ in range(3)][-1], INTEGER)
        self.assertLess(memory(front.process.pid)["VmHWM"], 128 * 1024)

    def test_too_many(self) -> None:
        front = self.front("--connections", "2").start()
        first, second = self.talker(front), self.talker(front)
        first.number(), second.number()
        self.assertTrue(self.talker(front).is_closed())
        first.close()
        until(lambda: "connections 1" in front.tell())
        self.assertGreater(self.talker(front).number(), 2)
        front.until_told("too many 1")


def pour(talker: Talker, line: bytes) -> None:
    """Writes without reading."""
    try:
        for _ in range(100_000):
            talker.send(line)
    except OSError:
        pass


def files(front: Front) -> int:
    """The number of open files of a front."""
    return len(os.listdir(f"/proc/{front.process.pid}/fd"))
