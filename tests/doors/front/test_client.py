"""The Python client over a socket: of a front, and of a service for each connection."""
from __future__ import annotations

import os
import signal
import socket
import subprocess
import sys
import threading
from typing import Dict

from .support import PROGRAM, TOP, WithFront, until

sys.path.insert(0, str(TOP / "clients" / "python"))

import ctfd  # noqa: E402

CLIENT = TOP / "clients" / "python"
FILE = str(TOP / "examples" / "lua.ctf")
OLDER = str(TOP / "examples" / "zlib.ctf")


# Prints the names and sizes of a file's types, or a refusal on one line.
NAMES = f"""import sys
sys.path.insert(0, "{CLIENT}")
import ctfd
try:
    with ctfd.connect() as client:
        types = ctfd.open_file(client.session(), sys.argv[1])
        print(*((one.name, one.number) for one in types.types()))
except ctfd.Error as error:
    sys.exit(str(error))
"""


def run(path: str, **more: str) -> "tuple[int, str, str]":
    """Runs a program with the client on a file. Returns its status and its texts."""
    environment = {**os.environ, **more}
    environment.pop("CTFD" if "CTFD_SOCKET" in more else "CTFD_SOCKET", None)
    ended = subprocess.run([sys.executable, "-c", NAMES, path], capture_output=True, text=True,
                           env=environment)
    return ended.returncode, ended.stdout, ended.stderr


class OverSocket(WithFront):
    def test_programs_print_the_same(self) -> None:
        front = self.front().start()
        for path in (FILE, OLDER, "/dev/null"):
            self.assertEqual(run(path, CTFD_SOCKET=front.path), run(path), path)
        until(lambda: "lines 0" not in front.tell())

    def test_nobody_listens(self) -> None:
        status, _, said = run(FILE, CTFD_SOCKET=f"{self.folder}/none")
        self.assertNotEqual(status, 0)
        self.assertIn("start ctfd-front there", said)
        self.assertEqual(len(said.splitlines()), 1)

    def test_sessions(self) -> None:
        """Each session is a connection; sessions publish for each other under their numbers."""
        front = self.front().start()
        with ctfd.Client(socket=front.path) as client:
            first, second = client.session(), client.session()
            self.assertNotEqual(first.number, second.number)
            types = ctfd.open_file(first, FILE)
            with self.assertRaises(ctfd.Refused):
                second.ask("kind", d=1, t=1)
            types.publish("lua-5.4")
            taken = ctfd.taken(second, first.number, "lua-5.4")
            self.assertEqual(taken.find("struct lua_State").size,
                             types.find("struct lua_State").size)
            self.assertIsNone(client.pid)
        until(lambda: "connections 0 of 2" in front.tell())

    def test_many_in_one_round(self) -> None:
        front = self.front().start()
        with ctfd.Client(socket=front.path) as client:
            session = client.session()
            slot = ctfd.open_file(session, FILE).slot
            answers = session.ask_all([("members", {"d": slot, "t": 218})] * 20_000)
            self.assertEqual(len(answers), 20_000)
            self.assertTrue(all(answer == answers[0] for answer in answers))

    def test_front_ends(self) -> None:
        front = self.front().start()
        with ctfd.Client(socket=front.path) as client:
            session = client.session()
            session.ask("create")
            front.end(signal.SIGKILL)
            with self.assertRaises(ctfd.Gone) as caught:
                session.ask("create")
            self.assertIn("was closed", str(caught.exception))

    def test_connection_is_refused(self) -> None:
        front = self.front("--connections", "1").start()
        with ctfd.Client(socket=front.path):
            with self.assertRaises(ctfd.Gone) as caught:
                ctfd.Client(socket=front.path)
            self.assertIn("too many connections", str(caught.exception))

    def test_service_of_ones_own(self) -> None:
        """A service of one connection, as by systemd's Accept=yes: sessions are numbers on it."""
        path = os.path.join(self.folder, "own")
        with socket.socket(socket.AF_UNIX) as listener:
            listener.bind(path)
            listener.listen()
            serving = threading.Thread(target=serve_one, args=(listener,))
            serving.start()
            with ctfd.Client(socket=path) as client:
                self.assertEqual([client.session().number for _ in range(2)], [1, 2])
                self.assertEqual(client.session().ask("create"), {"d": 1})
            serving.join()

    def test_environment(self) -> None:
        front = self.front().start()
        before: Dict[str, str] = dict(os.environ)
        self.addCleanup(os.environ.update, before)
        self.addCleanup(os.environ.pop, "CTFD_SOCKET")
        os.environ["CTFD_SOCKET"] = front.path
        with ctfd.Client() as client:
            self.assertEqual(client.where, f"at the socket {front.path}")
        with ctfd.Client(PROGRAM) as client:
            self.assertEqual(client.where, f"process {client.pid}")


def serve_one(listener: socket.socket) -> None:
    channel, _ = listener.accept()
    with channel:
        subprocess.run([PROGRAM, "serve"], stdin=channel, stdout=channel, check=True)
