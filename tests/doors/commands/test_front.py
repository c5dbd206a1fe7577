"""Tests of the front: how it ends, its messages about files, and its statistics file."""
from __future__ import annotations

import contextlib
import json
import os
import signal
import socket
import subprocess
import time
from pathlib import Path
from typing import List

from ..support import EXAMPLES, Case, clean, run, tool

LUA = EXAMPLES / "lua.ctf"
WITHOUT_EFFECT = "ctfd-front: --restart is without effect: the service is in this process"


class Front(Case):
    def setUp(self) -> None:
        super().setUp()
        self.socket = self.folder / "socket"

    def front(self, *words: str) -> "subprocess.Popen[str]":
        """Starts a front, and waits until it listens."""
        door = subprocess.Popen([tool("front"), "--socket", str(self.socket), *words,
                                 f"lua={LUA}"], stderr=subprocess.PIPE, text=True, env=clean())
        self.addCleanup(door.communicate)
        self.addCleanup(door.kill)
        until = time.monotonic() + 10
        while time.monotonic() < until:
            try:
                self.ask(b"{}\n")
                return door
            except OSError:  # it does not listen yet
                time.sleep(0.02)
        raise AssertionError("the front does not listen")

    def ask(self, line: bytes, waits: bool = True) -> "socket.socket":
        """A connection that has sent a line, and received its reply if `waits` is true."""
        channel = socket.socket(socket.AF_UNIX)
        self.addCleanup(channel.close)
        channel.settimeout(10)
        channel.connect(str(self.socket))
        channel.sendall(line)
        if waits:
            self.assertIn("s", json.loads(channel.recv(65_536)))
        return channel

    def seconds_to_end(self, door: "subprocess.Popen[str]") -> float:
        """The number of seconds that a front takes to end."""
        begun = time.monotonic()
        door.send_signal(signal.SIGTERM)
        door.wait(60)
        return time.monotonic() - begun


class Ends(Front):
    def test_a_service_that_is_busy(self) -> None:
        """The front ends within the seconds of --grace, even if the client reads no replies."""
        for count in (1, 20_000):
            door = self.front("--grace", "3")
            channel = self.ask(b'{"op":"info","d":1}\n', waits=False)
            channel.setblocking(False)
            with contextlib.suppress(BlockingIOError):
                channel.sendall(b'{"op":"names","d":1}\n' * count)
            self.assertLess(self.seconds_to_end(door), 5, count)  # twice the grace is 6
            self.socket.unlink(missing_ok=True)

    def test_a_service_that_answers(self) -> None:
        door = self.front()
        self.assertLess(self.seconds_to_end(door), 5)
        self.assertEqual(door.returncode, 0)


class Files(Front):
    def refusal(self, *words: str) -> "tuple[int, List[str]]":
        done = run(tool("front"), "--socket", self.socket, *words, seconds=20)
        self.assert_tame(done, words, seconds=20)
        return done.status, done.errors.splitlines()

    def test_a_file_that_is_not_there(self) -> None:
        """Restarting would not help."""
        options: List[List[str]] = [[], ["--restart"]]
        for more in options:
            status, lines = self.refusal(*more, f"x={self.folder}/none")
            self.assertEqual(status, 3)
            if more:
                self.assertEqual(lines.pop(0), WITHOUT_EFFECT)
            self.assertIn("none", lines[0])
            self.assertNotIn("--restart", "\n".join(lines))

    def test_a_program(self) -> None:
        program = self.compile("int main(void) { return 0; }", "-g", name="made.exe")
        member = self.compile("int one;", "-g")
        archive = self.folder / "made.a"
        subprocess.run(["ar", "rc", str(archive), str(member)], check=True)
        for path in (program, member, archive):
            status, lines = self.refusal(f"lua={LUA}", f"x={path}")
            self.assertEqual(status, 1, lines)
            self.assertEqual(len(lines), 1, lines)
            self.assertIn(f"ctfd-convert {path} ", lines[0])
            self.assertIn("x=", lines[0])


class Metrics(Front):
    def test_a_link_in_its_way(self) -> None:
        """A link that another user has put beside the file is neither followed nor changed."""
        victim, path = self.folder / "victim", self.folder / "metrics"
        victim.write_text("mine\n")
        links = [self.folder / f"metrics{end}" for end in (".new", ".tmp", "~")]
        for link in links:
            link.symlink_to(victim)
        path.symlink_to(victim)
        door = self.front("--metrics", str(path), "--stats", "0.1")
        self.wait_for(path)
        self.seconds_to_end(door)
        self.assertEqual(victim.read_text(), "mine\n")
        self.assertFalse(path.is_symlink())
        self.assertIn("ctfd_front_connections", path.read_text())
        self.assertEqual(path.stat().st_mode & 0o777, 0o666 & ~self.mask())
        names = {found.name for found in self.folder.iterdir()}
        self.assertEqual(names - {"socket"}, {"victim", "metrics", *(link.name for link in links)})

    def wait_for(self, path: Path) -> None:
        until = time.monotonic() + 10
        while path.is_symlink() and time.monotonic() < until:
            time.sleep(0.02)

    def mask(self) -> int:
        found = os.umask(0o022)
        os.umask(found)
        return found
