"""A service that is asked through pipes, with the processor time of each request."""
import itertools
import resource
import subprocess
import time
from typing import Iterable, Iterator

# The number of requests in the pipe at a time; their replies fit into the other pipe.
AT_ONCE = 100


def until_last(lines: Iterable[str]) -> Iterator[tuple[str, bool]]:
    """Each line, and whether it is the last."""
    first, second = itertools.tee(lines)
    next(second)
    yield from ((line, False) for _, line in zip(second, first))
    yield next(first), True


class Service:
    """A process of `ctfd serve`."""

    def __init__(self, program: str, *words: str) -> None:
        self._child = subprocess.Popen([program, "serve", *words], stdin=subprocess.PIPE,
                                       stdout=subprocess.PIPE)

    def __enter__(self) -> "Service":
        return self

    def __exit__(self, *_: object) -> None:
        self._child.stdin.close()
        self._child.stdout.close()
        self._child.wait()

    def _replies(self, requests: list[str]) -> bytes:
        """The last of the replies to a few requests, or nothing without any."""
        self._child.stdin.write("".join(requests).encode())
        self._child.stdin.flush()
        reply = b""
        for _ in requests:
            reply = self._child.stdout.readline()
        return reply

    def _spent(self) -> float:
        """The processor time of the service in seconds, read when it waits for a request."""
        while self._state() != "S":
            time.sleep(0.0005)
        with open(f"/proc/{self._child.pid}/schedstat") as file:
            return int(file.read().split()[0]) / 1e9

    def memory(self) -> int:
        """The resident memory of the service in bytes."""
        with open(f"/proc/{self._child.pid}/statm") as file:
            return int(file.read().split()[1]) * resource.getpagesize()

    def _state(self) -> str:
        with open(f"/proc/{self._child.pid}/stat") as file:
            return file.read().rsplit(")", 1)[1].split()[0]

    def request_time(self, lines: Iterable[str]) -> tuple[float, int, bytes]:
        """The seconds that the last request takes, its bytes with those of its reply, and the
        reply."""
        waiting: list[str] = []
        for line, is_last in until_last(lines):
            if is_last or len(waiting) == AT_ONCE:
                self._replies(waiting)
                waiting = []
            waiting.append(line)
        before = self._spent()
        reply = self._replies(waiting)
        return self._spent() - before, len(waiting[0]) + len(reply), reply

    def ask_all(self, lines: Iterable[str]) -> float:
        """The seconds that all requests take together."""
        lines = iter(lines)
        before = self._spent()
        while some := list(itertools.islice(lines, AT_ONCE)):
            self._replies(some)
        return self._spent() - before
