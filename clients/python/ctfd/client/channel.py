"""Channels to a service: the pipes of a process started here, or a socket of a front."""
from __future__ import annotations

import contextlib
import json
import os
import re
import socket
import subprocess
from typing import Any, Dict, Optional, Protocol, Sequence

from .faults import ADVICE, FRONT_REFUSES, Gone

READ = 65_536
ROOM = re.compile(r"[A-Za-z0-9._-]{1,64}\Z")


class Channel(Protocol):
    """Two non-blocking files. `number` is the session that the front has assigned, or 0."""

    requests: int
    replies: int
    number: int
    pid: Optional[int]

    @property
    def where(self) -> str: ...

    def how_it_ended(self) -> str: ...

    def close(self) -> None: ...


class Pipes:
    """A service started here. It ends when its input is closed."""

    number = 0

    def __init__(self, command: Sequence[str]) -> None:
        try:
            self._process = subprocess.Popen(command, stdin=subprocess.PIPE, bufsize=0,
                                             stdout=subprocess.PIPE, start_new_session=True)
        except OSError as error:
            raise Gone(f"the service {command[0]} can't be started: {error.strerror}") from error
        assert self._process.stdin and self._process.stdout
        self.pid: Optional[int] = self._process.pid
        self.requests = self._process.stdin.fileno()
        self.replies = self._process.stdout.fileno()
        os.set_blocking(self.requests, False)
        os.set_blocking(self.replies, False)

    @property
    def where(self) -> str:
        return f"process {self.pid}"

    def how_it_ended(self) -> str:
        try:
            return (f"the service ended with status {self._process.wait(1)}: what it says of that"
                    " stands on standard error; start it again")
        except subprocess.TimeoutExpired:
            return "the service has closed its pipes"

    def close(self) -> None:
        for pipe in (self._process.stdin, self._process.stdout):
            if pipe:
                pipe.close()
        try:
            self._process.wait(5)
        except subprocess.TimeoutExpired:
            self._process.kill()
            self._process.wait()


class Socket:
    """A connection to a front, or to a service that systemd started for this connection."""

    pid: Optional[int] = None

    def __init__(self, path: str, patience: Optional[float], room: Optional[str] = None) -> None:
        self.path = path
        self._channel = socket.socket(socket.AF_UNIX, socket.SOCK_STREAM)
        self._channel.settimeout(patience)
        try:
            self._channel.connect(path)
            if room is not None:
                self._enter(room)
            self.number = self._session_number()
        except OSError as error:
            self._channel.close()
            why = error.strerror or "it does not answer"
            raise Gone(f"the socket {path}: {why}; start ctfd-front there, or name another by"
                       " CTFD_SOCKET") from error
        self._channel.setblocking(False)
        self.replies = self._channel.fileno()
        self.requests = os.dup(self.replies)  # a selector accepts a file descriptor only once

    def _enter(self, room: str) -> None:
        """Enters a room, which decides the service. Without a front there is one room for all."""
        said = self._reply({"s": 1, "op": "room", "name": room})
        if "ok" not in said and said["fault"]["name"] == "BadRequest" and not ROOM.match(room):
            self._channel.close()
            raise Gone(f"the socket {self.path}: {room!r} is no name of a room: it has 1 to 64"
                       " letters, digits, '.', '_' or '-'")

    def _session_number(self) -> int:
        """The session of this connection, which the front names in its reply to an empty
        request."""
        number = self._reply({})["s"]
        if not isinstance(number, int):
            raise self._no_service()
        return number

    def _reply(self, request: Dict[str, Any]) -> Dict[str, Any]:
        """The reply to a request. Raises Gone with the reason if the connection is refused."""
        said = b""
        with contextlib.suppress(BrokenPipeError, ConnectionResetError):
            try:
                self._channel.sendall(json.dumps(request).encode("ascii") + b"\n")
            except (BrokenPipeError, ConnectionResetError):
                pass  # the reason may still be there to read
            while not said.endswith(b"\n"):
                data = self._channel.recv(READ)
                if not data:
                    break
                said += data
        if not said:
            raise self._closed_at_once("its service has ended")
        try:
            reply = json.loads(said.split(b"\n", 1)[0])
            refused = reply.get("fault", {}).get("name")
        except (ValueError, AttributeError):
            raise self._no_service() from None
        if refused in FRONT_REFUSES:
            raise self._closed_at_once(f"{refused}, {ADVICE[refused]}")
        if not isinstance(reply.get("s"), int):
            raise self._no_service()
        return dict(reply)

    def _no_service(self) -> Gone:
        self._channel.close()
        return Gone(f"the socket {self.path}: what answers there is no ctfd")

    def _closed_at_once(self, why: str) -> Gone:
        self._channel.close()
        return Gone(f"the socket {self.path} was closed at once: {why}; try again later")

    @property
    def where(self) -> str:
        return f"at the socket {self.path}"

    def how_it_ended(self) -> str:
        return (f"the socket {self.path} was closed: its service has ended, or this connection was"
                " idle for too long; begin anew")

    def close(self) -> None:
        os.close(self.requests)
        self._channel.close()
