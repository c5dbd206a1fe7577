"""Isolation, tested from outside: each client of a front gets the replies of a service of its own.

Clients send valid and hostile lines through one front, in random order and in pieces of random
sizes. They publish for each other, withdraw and take. The replies to each are compared, byte for
byte, with those of a separate `ctfd serve`, which is given the client's lines, and before each take
the publication that the take has found. The reply to a take shows which: an owner's publications
differ in their number of types.
"""
from __future__ import annotations

import json
import random
import selectors
import socket
import tempfile
from collections import Counter
from typing import Counter as Counts, Iterator, List, Sequence

import pytest

from .hostile import Fields, Sender, SentLine, handed_in, request_text
from .support import Front, Talker, serve

NAMES = ("base", "more", "x")
FIRST_OF_OTHERS = 1_000_000
CLIENTS, LINES = 200, 100_000
EACH = 4
LUA_TYPES = 526
# Many clients with lines of 1 MB should not be closed here.
ROOM = ("--memory", "2000000000", "--user-memory", "2000000000")


class Client:
    """A client: what it sends, and the replies that it got."""

    def __init__(self, path: str) -> None:
        self.talker = Talker(path)
        self.number = self.talker.number()
        self.sent: List[SentLine] = []
        self.unsent = memoryview(b"")
        self.read: List[bytes] = []

    def begin(self, sent: List[SentLine], with_end: bool) -> None:
        self.sent = sent
        data = b"\n".join(one.line for one in sent)
        is_last_empty = not sent[-1].line
        self.unsent = memoryview(data + (b"\n" if with_end or is_last_empty else b""))
        self.talker.socket.setblocking(False)

    def write(self, size: int) -> bool:
        """Writes a piece. Returns whether there is more to write."""
        try:
            self.unsent = self.unsent[self.talker.socket.send(self.unsent[:size]):]
        except BlockingIOError:
            pass
        if not self.unsent:
            self.talker.socket.shutdown(socket.SHUT_WR)
        return bool(self.unsent)

    def take(self) -> bool:
        """Reads a piece. Returns whether more may come."""
        data = self.talker.socket.recv(1 << 16)
        self.read.append(data)
        return bool(data)

    @property
    def replies(self) -> List[bytes]:
        return b"".join(self.read).split(b"\n")[:-1]


def requests(number: int, others: Sequence[int], count: int,
             chance: random.Random) -> Iterator[Fields]:
    """The requests of a client: it opens, publishes and withdraws its own dictionaries, and takes
    and asks any."""
    is_first = True
    while count > 0:
        if is_first or chance.random() < 0.02:
            is_first = False
            asked = [{"op": "clear"}, *handed_in(types_of(number, chance.randrange(EACH))),
                     {"op": "publish", "d": chance.randint(1, 6), "name": chance.choice(NAMES)}]
        else:
            asked = [any_request(number, others, chance)]
        yield from asked[:count]
        count -= len(asked)


def types_of(number: int, place: int) -> int:
    """The number of types of a client's dictionary; it is unique, and different from lua's."""
    types = 1 + (number - 2) * EACH + place
    return types + (types >= LUA_TYPES)


def any_request(number: int, others: Sequence[int], chance: random.Random) -> Fields:
    slot = {"d": chance.randint(1, 9)}
    asked = {**slot, "t": chance.choice((1, 2, 3, 7, 218, 526, 32_769))}
    kind = chance.random()
    if kind < 0.5:
        op = chance.choice(("kind", "record", "name", "size", "encoding", "pointer", "members"))
        return {"op": op, **asked}
    if kind < 0.72:
        owner = chance.choice((0, number, *chance.sample(others, 4)))
        return {"op": "take", "owner": owner, "name": "lua" if not owner else chance.choice(NAMES)}
    if kind < 0.8:
        return {"op": "withdraw", "name": chance.choice(NAMES)}
    if kind < 0.88:
        return {"op": "publish", **slot, "name": chance.choice(NAMES)}
    if kind < 0.96:
        return chance.choice([{"op": "info", **slot}, {"op": "close", **slot}, {"op": "create"},
                              {"op": "check"}, {"op": "clear"}, {"op": "find", **slot,
                                                                 "text": "of_9"}])
    if kind < 0.98:
        return {"op": "add", **slot, "what": "struct", "name": f"s{number}"}
    return chance.choice([{"op": "reset"}, {"op": "nothing"}])


def lines(client: Client, others: Sequence[int], count: int,
          chance: random.Random) -> List[SentLine]:
    """The lines that one client sends."""
    own = chance.choice((client.number, 1, FIRST_OF_OTHERS + client.number))
    sender = Sender(client.number, own, others, chance)
    made: List[SentLine] = []
    for fields in requests(client.number, [n for n in others if n != client.number], count,
                           chance):
        # Halves of two dictionaries could form one that looks like another client's.
        most = 0.85 if fields["op"] in ("clear", "part", "open") else 1
        kind = most * chance.random()
        made.append(sender.plain_request(fields) if kind < 0.6 else
                    sender.disguised_request(fields) if kind < 0.85 else
                    sender.refused_request(fields))
    if chance.random() < 0.1:
        made[chance.randrange(len(made))] = sender.long_line()
        made[chance.randrange(len(made))] = sender.longest()
    return made


def exchange(clients: Sequence[Client], chance: random.Random) -> None:
    """Lets all clients write and read, in random order and sizes."""
    with selectors.DefaultSelector() as ready:
        for client in clients:
            ready.register(client.talker.socket, 3, client)
        while ready.get_map():
            events = ready.select(60)
            if not events:
                raise SystemExit("no reply comes for 60 seconds")
            chance.shuffle(events)
            for key, mask in events:
                client: Client = key.data
                if mask & selectors.EVENT_READ and not client.take():
                    ready.unregister(client.talker.socket)
                elif mask & selectors.EVENT_WRITE and client.unsent:
                    if not client.write(int(2 ** chance.uniform(0, 15))):
                        ready.modify(client.talker.socket, selectors.EVENT_READ, client)


class OwnService:
    """A client's own service: its lines, and which of its replies count."""

    def __init__(self, own: int) -> None:
        self.given: List[bytes] = []
        self.counts: List[bool] = []
        self._own = own

    def ask(self, line: bytes, counts: bool) -> None:
        self.given.append(line)
        self.counts.append(counts)

    def before_take(self, owner: int, name: str, reply: bytes) -> None:
        """Makes what the take has found: the owner's publication of that name, if there was one."""
        if owner in (0, self._own):
            return
        told = json.loads(reply)
        if "ok" not in told and told["fault"]["name"] != "NotPublished":
            return
        asked: List[Fields] = [{"op": "withdraw", "name": name}, {"op": "reset"}]
        if "ok" in told:
            asked += [*recipe_of(told["ok"]["types"]),
                      {"op": "publish", "d": 1, "name": name}]
        for fields in asked:
            self.ask(request_text({"s": owner, **fields}).encode(), False)

    def replies(self) -> List[bytes]:
        told = serve(b"\n".join(self.given) + b"\n")
        assert len(told) == len(self.counts), (len(told), len(self.counts))
        return [reply for reply, counts in zip(told, self.counts) if counts]


def recipe_of(types: int) -> List[Fields]:
    """The requests that make the dictionary that a take has found, from its number of types."""
    if types == LUA_TYPES:
        return [{"op": "take", "owner": 0, "name": "lua"}]
    return handed_in(types) if types else [{"op": "create"}]


def wrong(client: Client) -> Iterator[str]:
    """Differences between a client's replies and those of its own service."""
    replies = client.replies
    if len(replies) != len(client.sent):
        yield f"session {client.number}: {len(replies)} replies to {len(client.sent)} lines"
        return
    named = (sent.named for sent in client.sent if sent.line == sent.own and sent.named)
    own = OwnService(next(named) or 0)
    for sent, reply in zip(client.sent, replies):
        if sent.took:
            own.before_take(*sent.took, reply)
        own.ask(sent.own, True)
    for sent, reply, wanted in zip(client.sent, replies, own.replies()):
        if sent.named is not None and not wanted.endswith(b'"s":0}'):
            wanted = wanted[:wanted.rindex(b":")] + b":%d}" % sent.named
        if reply != wanted:
            yield f"session {client.number}: {sent.line[:300]!r}: {reply!r}, and not {wanted!r}"


def pytest_generate_tests(metafunc: pytest.Metafunc) -> None:
    """With --whole there are more seeds, with twice as many lines."""
    if "seed" in metafunc.fixturenames:
        metafunc.parametrize("seed", range(1, 7 if metafunc.config.getoption("--whole") else 2))


def test_isolation(seed: int) -> None:
    chance, seen, total = random.Random(seed), Counter[str](), LINES if seed == 1 else 2 * LINES
    with tempfile.TemporaryDirectory() as folder:
        front = Front(folder, *ROOM).start()
        first = Talker(front.path)
        assert first.number() == 1
        clients = [Client(front.path) for _ in range(CLIENTS)]
        numbers = [client.number for client in clients]
        assert numbers == list(range(2, CLIENTS + 2))
        for client in clients:
            sent = lines(client, numbers, total // CLIENTS, chance)
            client.begin(sent, chance.random() < 0.5)
        exchange(clients, chance)
        status = front.end()
    assert not [why for client in clients for why in wrong(client)][:20]
    assert status == 0
    for client in clients:
        tally(client, seen)
    print(f"{CLIENTS} clients, {sum(seen.values())} lines, {seen['found']} takes of another's found,"
          f" {seen['granted']} others granted, {seen['refused']} refused")


def tally(client: Client, seen: Counts[str]) -> None:
    for sent, reply in zip(client.sent, client.replies):
        is_other = sent.took is not None and sent.took[0] not in (0, client.number)
        granted = reply.startswith(b'{"ok"')
        seen["found" if granted and is_other else "granted" if granted else "refused"] += 1
