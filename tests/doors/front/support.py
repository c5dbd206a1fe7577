"""Helpers for the tests of the front: starting fronts, and clients on plain sockets."""
from __future__ import annotations

import contextlib
import json
import os
import re
import signal
import socket
import subprocess
import tempfile
import time
import unittest
from pathlib import Path
from typing import Any, Callable, Dict, Iterator, List, Sequence

TOP = Path(__file__).resolve().parents[3]
PROGRAM = os.environ.get("CTFD", "")
TARGET = Path(os.environ.get("CARGO_TARGET_DIR") or TOP / "clients" / "rust" / "target")
COMMAND = os.environ.get("CTFD_FRONT", str(TARGET / "release" / "ctfd-front"))
LUA = f"lua={TOP / 'examples' / 'lua.ctf'}"
INT = ("f1cf0200" + 24 * "00" + "0c00000005000000" "01000000000c040020000001" "00696e7400")
PATIENCE = float(os.environ.get("PATIENCE", "60"))


def ask(op: str, s: int = 1, **fields: Any) -> bytes:
    """A request as a client writes it, with its newline."""
    return json.dumps({"s": s, "op": op, **fields}, separators=(",", ":")).encode() + b"\n"


HAND_IN = ask("part", section="ctf", bytes=INT) + ask("open")


class Talker:
    """A client: a socket, and the lines that it has read."""

    def __init__(self, path: str) -> None:
        self.path = path
        self.socket = socket.socket(socket.AF_UNIX)
        self.socket.settimeout(PATIENCE)
        self.socket.connect(path)
        self._rest = b""

    def send(self, data: bytes) -> None:
        self.socket.sendall(data)

    def line(self) -> bytes:
        """The next reply, or nothing at the end."""
        while b"\n" not in self._rest:
            data = self.socket.recv(1 << 20)
            if not data:
                return b""
            self._rest += data
        line, self._rest = self._rest.split(b"\n", 1)
        return line

    def ask(self, *lines: bytes) -> bytes:
        """The reply to the last of some lines."""
        self.send(b"".join(lines))
        return [self.line() for _ in range(sum(line.count(b"\n") for line in lines))][-1]

    def number(self) -> int:
        """The session that the front has assigned."""
        found: int = json.loads(self.ask(b"{}\n"))["s"]
        return found

    def is_closed(self) -> bool:
        """Whether the other end closes the connection within PATIENCE."""
        try:
            while self.socket.recv(1 << 20):
                pass
        except socket.timeout:
            return False
        except ConnectionError:
            pass
        return True

    def close(self) -> None:
        self.socket.close()


class Front:
    """A ctfd-front for one test, optionally run by another program such as valgrind."""

    def __init__(self, folder: str, *words: str, path: str = "front.sock",
                 under: Sequence[str] = ()) -> None:
        self.path = os.path.join(folder, path)
        self._log = Path(folder) / f"{path}.log"
        with self._log.open("wb") as log:
            self.process = subprocess.Popen(
                [*under, COMMAND, "--socket", self.path, *words, LUA],
                stderr=log, stdout=log, stdin=subprocess.DEVNULL)

    @property
    def output(self) -> str:
        return self._log.read_text()

    def start(self, times: int = 1) -> Front:
        """Waits until it listens."""
        until(lambda: self.output.count("listening") >= times or self.process.poll() is not None)
        if self.process.poll() is not None:
            raise AssertionError(self.output)
        return self

    def tell(self) -> str:
        """The statistics that it prints at SIGUSR1."""
        before = self.output
        self.process.send_signal(signal.SIGUSR1)
        until(lambda: len(self.output) > len(before) or self.process.poll() is not None)
        status = self.process.poll()
        assert status is None, f"it has ended with {status}: {self.output}"
        return self.output[len(before):]

    def until_told(self, *parts: str) -> None:
        """Waits until its statistics contain some parts; on a busy machine, shards may report
        late."""
        until(lambda: all(part in self.tell() for part in parts))

    def end(self, how: signal.Signals = signal.SIGTERM) -> int:
        """Ends it, and returns its status."""
        if self.process.poll() is None:
            self.process.send_signal(how)
        return self.process.wait(PATIENCE)


class WithFront(unittest.TestCase):
    """A test case with a folder; fronts and clients are ended with it."""

    def setUp(self) -> None:
        made = tempfile.TemporaryDirectory(prefix="front")
        self.addCleanup(made.cleanup)
        self.folder = made.name

    def front(self, *words: str, **more: str) -> Front:
        front = Front(self.folder, *words, **more)
        self.addCleanup(front.end, signal.SIGKILL)
        return front

    def talker(self, front: Front) -> Talker:
        talker = Talker(front.path)
        self.addCleanup(talker.close)
        return talker


@contextlib.contextmanager
def standing(front: Front) -> Iterator[None]:
    """Stops the front inside this context."""
    front.process.send_signal(signal.SIGSTOP)
    try:
        until(lambda: all(state(task) == "T" for task in tasks(front)))
        yield
    finally:
        front.process.send_signal(signal.SIGCONT)


def tasks(front: Front) -> List[Path]:
    """The threads of a front."""
    return list(Path(f"/proc/{front.process.pid}/task").iterdir())


def state(task: Path) -> str:
    """The state of a thread: running, sleeping or stopped."""
    try:
        return (task / "stat").read_text().rsplit(")", 1)[1].split()[0]
    except OSError:
        return "T"  # the thread has ended


def until(holds: Callable[[], bool], patience: float = PATIENCE) -> None:
    """Waits until a condition holds."""
    end = time.monotonic() + patience
    while not holds():
        if time.monotonic() > end:
            raise AssertionError("it did not come about")
        time.sleep(0.02)


def memory(pid: int) -> Dict[str, int]:
    """The memory of a process in KiB: VmHWM is the peak, VmRSS the present size."""
    status = Path(f"/proc/{pid}/status").read_text()
    return {name: int(size) for name, size in re.findall(r"(VmHWM|VmRSS):\s+([0-9]+) kB", status)}


def processor(pid: int) -> float:
    """The seconds of processor time that a process has used."""
    return time.clock_gettime(~pid << 3 | 2)  # see clock_getcpuclockid(3)


def serve(given: bytes, files: Sequence[str] = (LUA,)) -> "list[bytes]":
    """The replies of a separate `ctfd serve`."""
    ended = subprocess.run([PROGRAM, "serve", *files], input=given, capture_output=True,
                           check=True)
    return ended.stdout.split(b"\n")[:-1]
