"""A client of a service, and its sessions.

One loop writes requests and reads replies, with non-blocking files: a client that wrote everything
before it reads would block both sides as soon as the pipes are full. It uses no threads, so it also
runs inside a debugger.
"""
from __future__ import annotations

import binascii
import collections
import json
import os
from typing import TYPE_CHECKING, Deque, Iterable, List, NoReturn, Optional, Sequence

from . import service
from .asked import AnswersByWord
from .faults import Error, Gone, Refused, exception_for
from .model import Model
from .session import Answer, Outcome, Request, Service, Session
from .told import Told

if TYPE_CHECKING:
    from .. import replies
    from .channel import Channel
    from .dictionary import Dictionary

PIECE = 262_144
READ = 262_144
WRITE = 65_536
SERVE = ("serve",)

_DECODED = json.JSONDecoder().decode


class PendingReply:
    """A reply that is still to come, also after its call was interrupted."""

    def __init__(self) -> None:
        self.reply: Optional[Answer] = None


class Client(Service):
    """A connection to a service, which is searched for and started if none is named.

    `socket` is the path of a ctfd-front's socket; each session is then a connection of its own. If
    neither `program` nor `socket` is given, CTFD_SOCKET may name the socket. `room` (default:
    CTFD_ROOM) is a name that clients choose in common to take from each other, if the front has
    several services. `patience` is how many seconds the service may be silent before Gone is
    raised; None waits for ever. After an exception in the middle of a call, such as Ctrl-C, the
    next call skips the replies that are still to come; in rare cases it raises Gone. A service that
    is started here has a process session of its own, so Ctrl-C in a terminal does not end it.
    """

    def __init__(self, program: Optional[str] = None, arguments: Sequence[str] = SERVE,
                 patience: Optional[float] = 60, socket: Optional[str] = None,
                 room: Optional[str] = None) -> None:
        self.patience = patience
        if program is None and socket is None and arguments == SERVE:
            socket = service.socket()
        self._socket, self._room = socket, service.room() if room is None else room
        self._channel = self._open_channel([program or "", *arguments])
        self._requests, self._replies = self._channel.requests, self._channel.replies
        self._others: List[Client] = []
        self._unsent = bytearray()
        self._unread = bytearray()
        self._lines: Deque[bytearray] = collections.deque()
        self._pieces: Deque[bytes] = collections.deque()
        self._written: Deque[int] = collections.deque()
        self._owed: Deque[PendingReply] = collections.deque()
        self._gone: Optional[str] = None
        self._torn = False  # true during steps that an interrupt must not separate
        self._last_session = self._channel.number - 1 if self._channel.number else 0
        self._has_session = self._is_closed = False
        self.requests = self.rounds = 0

    def _open_channel(self, command: List[str]) -> Channel:
        """Opens the channel. A module that starts processes is imported only if one is started."""
        from .channel import Pipes, Socket

        if self._socket is None:
            return Pipes([service.to_start(command[0]), *command[1:]])
        return Socket(self._socket, self.patience, self._room)

    @property
    def pid(self) -> Optional[int]:
        """The process ID of the service, or None if it was not started here."""
        return self._channel.pid

    @property
    def where(self) -> str:
        """Where the service is, as text."""
        return self._channel.where

    def session(self) -> Session:
        """A new session; behind a front, a further connection."""
        if self._channel.number and self._has_session:
            self._others.append(Client(patience=self.patience, socket=self._socket,
                                       room=self._room))
            return self._others[-1].session()
        self._has_session = True
        self._last_session += 1
        return LineSession(self, self._last_session)

    def replies(self, session: int, requests: Iterable[Request]) -> List[Answer]:
        """The whole reply to each request, in order. Requests are written while replies are
        read."""
        if self._torn and not self._gone:
            self._gone = "interrupted in the middle of a request; replies are out of step: create a new Client"
        if self._gone:
            raise Gone(self._gone)
        lines = [request_line(session, op, fields) for op, fields in requests]
        mine = [PendingReply() for _ in lines]
        written = b"".join(lines)
        self._torn = True
        self._owed += mine
        self._unsent += written
        self._torn = False
        self.requests += len(lines)
        self.rounds += 1
        self._run(mine)
        return [owed.reply for owed in mine if owed.reply is not None]

    def close(self) -> None:
        """Ends the service if this client started it; otherwise closes the connections to it."""
        self._gone = self._gone or "the client was closed"
        if not self._is_closed:
            self._is_closed = True
            for other in self._others:
                other.close()
            self._channel.close()

    def _run(self, mine: List[PendingReply]) -> None:
        import selectors

        self._forget()  # drops what an interrupted call has written already
        self._answer()
        with selectors.DefaultSelector() as ready:
            ready.register(self._replies, selectors.EVENT_READ)
            if self._unsent:
                ready.register(self._requests, selectors.EVENT_WRITE)
            while mine and mine[-1].reply is None:
                events = ready.select(self.patience)
                if not events:
                    self._end(f"the service has been silent for {self.patience} seconds: start"
                              " it again, with more patience for large questions")
                for key, _ in events:
                    if key.fd == self._replies:
                        self._read()
                    elif not self._write():
                        ready.unregister(self._requests)

    # Python handles signals only between calls, so steps that must not be separated contain no
    # call. For the system's results, `extend` with `map` is one call: no result is lost.

    def _write(self) -> bool:
        """Writes some of the unsent bytes. Returns whether any are left."""
        try:
            self._written.extend(map(os.write, [self._requests], [self._unsent[:WRITE]]))
        except BlockingIOError:
            return True
        except (BrokenPipeError, ConnectionResetError):
            self._end(self._channel.how_it_ended())
        self._forget()
        return bool(self._unsent)

    def _forget(self) -> None:
        """Drops the bytes that were written."""
        while self._written:
            self._torn = True
            del self._unsent[:self._written[0]]
            del self._written[0]
            self._torn = False

    def _read(self) -> None:
        try:
            self._pieces.extend(map(os.read, [self._replies], [READ]))
        except BlockingIOError:
            return
        except ConnectionResetError:
            self._end(self._channel.how_it_ended())
        self._answer()

    def _answer(self) -> None:
        """Gives the lines that were read to the replies that are owed, in order."""
        while self._pieces:
            if not self._pieces[0]:
                self._end(self._channel.how_it_ended())
            self._torn = True
            self._unread += self._pieces[0]
            del self._pieces[0]
            self._torn = False
        if b"\n" in self._unread:
            *lines, rest = self._unread.split(b"\n")
            self._torn = True
            self._lines += lines
            self._unread = rest
            self._torn = False
        while self._lines:
            if not self._owed:
                self._end("unexpected extra reply from the service")
            reply = _DECODED(self._lines[0].decode("utf-8"))
            self._torn = True
            self._owed[0].reply = reply
            del self._owed[0]
            del self._lines[0]
            self._torn = False

    def _end(self, why: str) -> NoReturn:
        self._gone = why
        raise Gone(why)


class LineSession(Session):
    """A session of a service, asked by lines."""

    client: Client

    def ask_all(self, requests: Sequence[Request]) -> List[Outcome]:
        replies = self.client.replies(self.number, requests)
        return [_outcome(reply, op, fields) for (op, fields), reply in zip(requests, replies)]

    def open(self, ctf: bytes, sym: Optional[bytes] = None, strings: Optional[bytes] = None,
             model: Optional[Model] = None) -> replies.Opened:
        """Hands in the lists of a dictionary and opens it, in one round trip. Returns `d` and
        `types`.

        The default model is "lp64". The stage is cleared first, and again if the dictionary is
        refused.
        """
        requests: List[Request] = [("clear", {})]
        for section, data in (("ctf", ctf), ("sym", sym), ("str", strings)):
            requests += _parts(section, data)
        outcomes = self.ask_all([*requests, ("open", {} if model is None else {"model": model})])
        opened = outcomes[-1]
        fault = next((o for o in outcomes if isinstance(o, Refused)), None)
        if isinstance(opened, Refused) or fault:
            if not isinstance(opened, Refused):
                self.ask("close", d=opened["d"])
            self.ask("clear")
            raise fault or Error("open was refused")
        return {"d": opened["d"], "types": opened["types"]}

    def told(self, types: Dictionary) -> Told:
        return AnswersByWord(types)


def request_line(session: int, op: str, fields: Answer) -> bytes:
    """A request as a line for the service."""
    if len(fields) == 2 and "d" in fields and "t" in fields:  # most are questions on a type
        return b'{"s":%d,"op":"%b","d":%d,"t":%d}\n' % (session, op.encode("ascii"), fields["d"],
                                                      fields["t"])
    if op == "part" and isinstance(fields.get("bytes"), memoryview):  # megabytes
        return b'{"s":%d,"op":"part","section":"%b","bytes":"%b"}\n' % (
            session, fields["section"].encode("ascii"), binascii.hexlify(fields["bytes"]))
    request = {"s": session, "op": op, **fields}
    return json.dumps(request, separators=(",", ":")).encode("ascii") + b"\n"


def _outcome(reply: Answer, op: str, fields: Answer) -> Outcome:
    return exception_for(reply["fault"], op, fields) if "fault" in reply else reply["ok"]


def _parts(section: str, data: Optional[bytes]) -> List[Request]:
    """The requests that stage a list, with its bytes in hexadecimal; none if `data` is None."""
    if data is None:
        return []
    whole = memoryview(data)
    return [("part", {"section": section, "bytes": whole[start:start + PIECE]})
            for start in range(0, max(1, len(data)), PIECE)]
