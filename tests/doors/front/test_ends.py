"""How the front begins and ends, and what happens to clients when a process is killed."""
from __future__ import annotations

import os
import socket
import stat
import subprocess
import sys
import threading
import time
from pathlib import Path

from .support import (COMMAND, HAND_IN, LUA, PATIENCE, Front, Talker, WithFront, ask, standing,
                     until)

TAKE = ask("take", owner=0, name="lua")
KIND = ask("kind", d=1, t=1)


class Load:
    """Clients that ask without end, each in a thread, until their sockets are closed."""

    def __init__(self, front: Front, count: int = 4) -> None:
        self.talkers = [Talker(front.path) for _ in range(count)]
        self.replies = 0
        self.threads = [threading.Thread(target=self._run, args=(talker,), daemon=True)
                        for talker in self.talkers]
        for thread in self.threads:
            thread.start()
        until(lambda: self.replies > 100)

    def _run(self, talker: Talker) -> None:
        try:
            talker.ask(TAKE)
            while talker.ask(20 * KIND):
                self.replies += 20
        except OSError:
            pass
        finally:
            talker.close()

    def has_ended(self) -> bool:
        """Whether all clients have noticed the closed socket."""
        for thread in self.threads:
            thread.join(PATIENCE)
        return not any(thread.is_alive() for thread in self.threads)


class Kills(WithFront):
    """A process is killed under load."""

    def test_front(self) -> None:
        """Clients see their sockets closed, and the next front, with the same arguments, starts at
        the same path, as by a unit with Restart=on-failure."""
        for _ in range(3):
            front = self.front().start()
            load = Load(front)
            front.process.kill()
            self.assertTrue(load.has_ended())
            self.assertTrue(os.path.exists(front.path))
        talker = self.talker(self.front().start())
        self.assertEqual(talker.number(), 1)
        self.assertIn(b'"types":526', talker.ask(TAKE))

    def test_clients(self) -> None:
        front = self.front("--withdraw").start()
        code = (f"import sys; sys.path.insert(0, {str(Path(__file__).parent)!r})\n"
                "from support import *\n"
                f"t = Talker({front.path!r})\n"
                f"t.ask(HAND_IN + ask('publish', d=1, name='base'))\n"
                "print(t.number(), flush=True)\n"
                "while True: t.ask(50 * ask('kind', d=1, t=1))\n")
        children = [subprocess.Popen([sys.executable, "-c", code], stdout=subprocess.PIPE)
                    for _ in range(4)]
        owners = [int(child.stdout.readline()) for child in children if child.stdout]
        other = self.talker(front)
        self.assertIn(b'"types":1', other.ask(ask("take", owner=owners[0], name="base")))
        for child in children:
            child.kill()
            child.communicate()
        until(lambda: "connections 1 of 5" in front.tell())
        for owner in owners:
            self.assertIn(b"NotPublished", other.ask(ask("take", owner=owner, name="base")))
        self.assertIn(b'"kind":"integer"', other.ask(KIND))


class Ends(WithFront):
    """The front is ended by a signal, or its clients leave."""

    def test_answers_what_was_read(self) -> None:
        front = self.front().start()
        talkers = [self.talker(front) for _ in range(5)]
        for talker in talkers:
            talker.ask(TAKE)
            talker.send(500 * KIND + b'{"s":1,"op"')
        until(lambda: f"lines {5 * 501}," in front.tell())
        self.assertEqual(front.end(), 0)
        for talker in talkers:
            for _ in range(500):
                self.assertEqual(talker.line(), b'{"ok":{"kind":"integer"},"s":1}')
            self.assertEqual(talker.line(), b"")
        self.assertFalse(os.path.exists(front.path))

    def test_under_load(self) -> None:
        front = self.front().start()
        load = Load(front)
        self.assertEqual(front.end(), 0)
        self.assertTrue(load.has_ended())

    def test_beside_a_client_that_has_left(self) -> None:
        """If a client left with unanswered lines, the others still get their replies."""
        front = self.front().start()
        gone, honest = Talker(front.path), self.talker(front)
        large = ask("bytes", **{"d": 1, "from": 0, "count": 20_000})
        for talker in (gone, honest):
            talker.ask(TAKE)
        gone.send(KIND)  # an unread reply, so its end resets the connection
        until(lambda: "lines 3," in front.tell())
        with standing(front):
            for talker in (gone, honest):
                talker.send(50 * large)
            gone.close()
            front.process.terminate()
        for _ in range(50):
            self.assertIn(b'"length"', honest.line())
        self.assertEqual(honest.line(), b"")
        self.assertEqual(front.process.wait(PATIENCE), 0)
        self.assertNotIn("panicked", front.output)

    def test_client_that_does_not_read_holds_up_no_end(self) -> None:
        front = self.front("--grace", "1").start()
        deaf = self.talker(front)
        deaf.ask(TAKE)
        deaf.send(200 * ask("bytes", **{"d": 1, "from": 0, "count": 20_000}))
        until(lambda: "connections 1 of 1" in front.tell())
        began = time.monotonic()
        self.assertEqual(front.end(), 0)
        self.assertLess(time.monotonic() - began, 20)

    def test_last_piece_is_a_line(self) -> None:
        talker = self.talker(self.front().start())
        talker.send(HAND_IN + KIND[:-1])
        talker.socket.shutdown(socket.SHUT_WR)
        self.assertEqual([talker.line() for _ in range(4)][2:],
                         [b'{"ok":{"kind":"integer"},"s":1}', b""])

    def test_reset_at_the_end(self) -> None:
        """Without --withdraw a publication stays; sessions that took it keep it in any case."""
        for words, wanted in (((), b'"types":1'), (("--withdraw",), b"NotPublished")):
            front = self.front(*words).start()
            owner, other = self.talker(front), self.talker(front)
            number = owner.number()
            owner.ask(HAND_IN, ask("publish", d=1, name="a"), ask("publish", d=1, name="b"),
                      b'{"d":1,"name":"\\u0063","op":"\\u0070ublish"}\n', ask("withdraw", name="b"))
            for name in "ac":
                other.ask(ask("take", owner=number, name=name))
            owner.close()
            until(lambda: "connections 1 of 2" in front.tell())
            for name in "ac":
                self.assertIn(wanted, other.ask(ask("take", owner=number, name=name)), name)
            self.assertIn(b'"kind":"integer"', other.ask(KIND))
            self.assertEqual(front.end(), 0)


class Begins(WithFront):
    """The socket, and obstacles at its path."""

    def refusal(self, *words: str, status: int = 5) -> str:
        front = self.front(*words, path="other")
        self.assertEqual(front.process.wait(PATIENCE), status)
        self.assertTrue(all(line.startswith("ctfd") for line in front.output.splitlines()))
        return front.output

    def test_somebody_listens(self) -> None:
        front = self.front().start()
        self.assertIn("somebody listens there already", self.refusal("--socket", front.path))
        self.assertEqual(self.talker(front).number() > 0, True)

    def test_file_that_is_no_socket(self) -> None:
        path = os.path.join(self.folder, "plain")
        Path(path).write_text("kept")
        self.assertIn("is no socket", self.refusal("--socket", path))
        self.assertEqual(Path(path).read_text(), "kept")

    def test_folder_that_is_not_there(self) -> None:
        self.assertIn("No such file", self.refusal("--socket", f"{self.folder}/no/socket"))

    def test_group_that_is_not_there(self) -> None:
        self.assertIn("no group nobodys", self.refusal("--group", "nobodys"))

    def test_file_that_is_refused(self) -> None:
        bad = os.path.join(self.folder, "bad.ctf")
        Path(bad).write_text("no dictionary")
        said = self.refusal(f"bad={bad}", status=1)
        self.assertIn("BadMagic", said)
        self.assertIn("ended with status 1 before it answered", said)
        self.assertFalse(os.path.exists(os.path.join(self.folder, "other")))

    def test_wrong_words(self) -> None:
        for words in (["--line", "1048577"], ["--lines", "0"], ["--idle", "-1"], ["--mode", "9"]):
            ended = subprocess.run([COMMAND, "--socket", "x", *words],
                                   capture_output=True, text=True)
            self.assertEqual(ended.returncode, 2)
            self.assertIn(words[0], ended.stderr)

    def test_words_of_older_scripts(self) -> None:
        """Options that named a service's program, restarted it, and limited its queue."""
        front = self.front("--service", "/no/ctfd", "--restart", "--lines", "50").start()
        for word in ("restart", "service", "lines"):
            self.assertIn(f"--{word} is without effect: ", front.output)
        self.assertIn(b'"types":526', self.talker(front).ask(TAKE))

    def test_program_in_place_of_a_section(self) -> None:
        said = self.refusal(f"own={COMMAND}", status=1)
        self.assertIn(f"`ctfd-convert {COMMAND} OUT`", said)

    def test_no_socket(self) -> None:
        ended = subprocess.run([COMMAND], capture_output=True, text=True)
        self.assertEqual(ended.returncode, 5)
        self.assertIn("name one by --socket PATH", ended.stderr)

    def test_mode(self) -> None:
        for words, mode in (((), 0o660), (("--mode", "600"), 0o600)):
            front = self.front(*words, "--group", str(os.getgid())).start()
            found = os.stat(front.path)
            self.assertEqual(stat.S_IMODE(found.st_mode), mode)
            self.assertEqual(found.st_gid, os.getgid())
            front.end()

    def test_socket_of_systemd(self) -> None:
        path = os.path.join(self.folder, "handed")
        with socket.socket(socket.AF_UNIX) as made:
            made.bind(path)
            made.listen()
            code = ("import os, sys\n"
                    f"os.dup2({made.fileno()}, 3)\n"
                    "os.environ.update(LISTEN_FDS='1', LISTEN_PID=str(os.getpid()))\n"
                    "os.execv(sys.argv[1], sys.argv[1:])\n")
            child = subprocess.Popen([sys.executable, "-c", code, COMMAND, LUA],
                                     pass_fds=[made.fileno()], stderr=subprocess.PIPE)
        self.addCleanup(child.communicate)
        talker = Talker(path)
        self.assertIn(b'"types":526', talker.ask(TAKE))
        child.terminate()
        self.assertEqual(child.wait(PATIENCE), 0)
        self.assertTrue(os.path.exists(path))
        talker.close()

    def test_what_is_handed_over_does_not_listen(self) -> None:
        code = ("import os, sys, socket\n"
                "made = socket.socket(socket.AF_UNIX)\n"
                "os.dup2(made.fileno(), 9); os.dup2(9, 3)\n"
                "os.environ.update(LISTEN_FDS='1', LISTEN_PID=str(os.getpid()))\n"
                "os.execv(sys.argv[1], sys.argv[1:])\n")
        ended = subprocess.run([sys.executable, "-c", code, COMMAND], capture_output=True,
                               text=True)
        self.assertEqual(ended.returncode, 5)
        self.assertIn("does not listen", ended.stderr)


class Statistics(WithFront):
    """Statistics."""

    def test_counts(self) -> None:
        front = self.front().start()
        talker = self.talker(front)
        talker.ask(TAKE, KIND, b"no\n", ask("kind", d=9, t=1), ask("kind", d=9, t=1))
        front.until_told("connections 1 of 1, lines 5,", "NoSlot 2, NotJson 1", "dearest: ",
                         "session 1, ")

    def test_again_and_again(self) -> None:
        front = self.front("--stats", "0.2").start()
        until(lambda: front.output.count("connections 0 of 0") >= 3)
