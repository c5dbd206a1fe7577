"""Several services in one front: rooms, in which clients meet."""
from __future__ import annotations

import json
import sys
from typing import Set

from .support import HAND_IN, TOP, Front, Talker, WithFront, ask, tasks

sys.path.insert(0, str(TOP / "clients" / "python"))

import ctfd  # noqa: E402

TAKE = ask("take", owner=0, name="lua")
PUBLISH = HAND_IN + ask("publish", d=1, name="base")
SERVICES = 3


def room(name: str, **fields: object) -> bytes:
    return json.dumps({"op": "room", "name": name, **fields}).encode() + b"\n"


class Rooms(WithFront):
    def enter(self, front: Front, name: str) -> Talker:
        talker = self.talker(front)
        self.assertEqual(talker.ask(room(name, s=1)), b'{"ok":{"room":"%b"},"s":1}' % name.encode())
        return talker

    def test_clients_of_a_room_meet(self) -> None:
        """Clients in a room of any name find what others there publish; clients outside may not."""
        front = self.front("--processes", str(SERVICES)).start()
        services: Set[int] = set()
        for number in range(12):
            name = f"group-{number}"
            owner = self.enter(front, name)
            session = owner.number()
            owner.ask(PUBLISH)
            for _ in range(3):
                taker = self.enter(front, name)
                self.assertIn(b'"types":1', taker.ask(ask("take", owner=session, name="base")))
        told = front.tell()
        services = {int(part.split(" has ")[1].split()[0])
                    for part in told.split("services: ")[1].split(", ") if " has " in part}
        self.assertNotIn(0, services, told)

    def test_operator_is_met_anywhere(self) -> None:
        front = self.front("--processes", str(SERVICES)).start()
        names = [(task / "comm").read_text() for task in tasks(front)]
        self.assertEqual(sum(name.startswith("shard ") for name in names), SERVICES)
        talkers = [self.talker(front) for _ in range(2 * SERVICES)]
        for talker in talkers:
            self.assertIn(b'"types":526', talker.ask(TAKE))
        self.assertEqual(front.tell().count("has 2 connections"), SERVICES)

    def test_numbers_differ_over_services(self) -> None:
        front = self.front("--processes", str(SERVICES)).start()
        numbers = [self.talker(front).number() for _ in range(20)]
        self.assertEqual(len(set(numbers)), 20)

    def test_room_is_asked_for_first(self) -> None:
        """A later request for a room, and one with a wrong name, is refused."""
        talker = self.talker(self.front("--processes", "2").start())
        for line in (room("a b"), room(""), room("x" * 65), room("a"), b'{"op":"room"}\n'):
            self.assertIn(b'"BadRequest"', talker.ask(line))

    def test_room_with_one_service(self) -> None:
        """The same lines work with any number of services."""
        front = self.front().start()
        talker = self.talker(front)
        number = json.loads(talker.ask(room("a")))["s"]
        self.assertEqual(number, talker.number())
        self.assertIn(b'"types":526', talker.ask(TAKE))

    def test_lines_behind_the_room(self) -> None:
        talker = self.talker(self.front("--processes", "2").start())
        talker.send(room("a", s=1) + TAKE + ask("kind", d=1, t=218) + b'{"s":1,"op":"inf')
        talker.send(b'o","d":1}\n')
        told = [talker.line() for _ in range(4)]
        self.assertEqual([b'"room"' in told[0], b'"d":1' in told[1], b'"struct"' in told[2],
                          b'"child"' in told[3]], [True] * 4, told)

    def test_python_client(self) -> None:
        front = self.front("--processes", str(SERVICES)).start()
        path = str(TOP / "examples" / "lua.ctf")
        for name in ("one", "two", "three"):
            with ctfd.Client(socket=front.path, room=name) as client:
                owner, taker = client.session(), client.session()
                types = ctfd.open_file(owner, path)
                types.publish("lua")
                taken = ctfd.taken(taker, owner.number, "lua")
                self.assertEqual(taken.find("struct lua_State").size, 200)
        with self.assertRaises(ctfd.Gone) as caught:
            ctfd.Client(socket=front.path, room="no name")
        self.assertIn("is no name of a room", str(caught.exception))
