"""Compares the library's rows of types with its calls for single types, and with the service.

For all types of the examples, of random dictionaries (parents and children), and of damaged ones
that are still accepted: kinds, names, flags, sizes, alignments, references, lists, and the refusals
of these.
"""
from __future__ import annotations

import random
import sys
from pathlib import Path
from typing import Any, Callable, Dict, Iterator, List, NamedTuple, Optional, Tuple

TOP = Path(__file__).resolve().parents[3]
sys.path.insert(0, str(TOP / "clients" / "python"))

import pytest

import ctfd  # noqa: E402
from ctfd.client.calls import Calls
from ctfd.client.inside import Inside, InsideSession
from ctfd.client.slot import Slot

from parts import library  # noqa: E402

SEED, RANDOM, DAMAGED, TYPES = 20, 200, 200, 40
WORDS = ("record", "size", "align", "name", "members", "enumerators", "args", "array", "encoding",
         "resolve", "reference")
TOLD = ("kind", "name", "is_root", "spelled", "size", "align", "reference", "members",
        "enumerators", "arguments", "array", "encoding")
NUMBERS = {"kind": "kind", "size": "size", "align": "align", "resolve": "resolved",
           "reference": "reference", "length": "length"}


class Lists(NamedTuple):
    """A dictionary to open, and its parent."""

    name: str
    ctf: bytes
    sym: Optional[bytes] = None
    strings: Optional[bytes] = None
    parent: Optional[bytes] = None


def outcome(ask: Callable[[], Any]) -> Any:
    """The answer, or the fault's name and place."""
    try:
        return ask()
    except ctfd.Refused as fault:
        return fault.name, fault.place


def open_lists(session: ctfd.Session, lists: Lists) -> Optional[ctfd.Dictionary]:
    """The dictionary, with its parent, or None if it is refused."""
    try:
        types = ctfd.open_source(session, ctfd.Source(lists.ctf, lists.sym, lists.strings,
                                                      how="given"))
        if lists.parent is not None:
            types.import_parent(ctfd.open_source(session, ctfd.Source(lists.parent)))
    except ctfd.Refused:
        return None
    return types


def differences(ours: ctfd.Dictionary, theirs: ctfd.Dictionary, slot: Slot) -> Iterator[str]:
    """Differences between rows, calls and words for the types of a dictionary."""
    parents = list(theirs.parent.numbers) if theirs.parent else [1]
    numbers = [*ours.numbers, *parents, 0x7FFF, ours.first + ours.own]
    theirs.fetch((word, t) for word in WORDS for t in numbers)
    for t in numbers:
        for name in TOLD:
            rows = outcome(lambda: getattr(ours.told, name)(t))
            words = outcome(lambda: getattr(theirs.told, name)(t))
            if rows != words:
                yield f"{name} of {t}: by rows {rows}, by words {words}"
        for call, name in NUMBERS.items():
            rows = outcome(lambda: getattr(ours.told, name)(t))
            told = outcome(lambda: slot.number(call, t))
            if call == "kind" and isinstance(told, int):
                told = KINDS[told]
            if rows != told:
                yield f"{call} of {t}: by rows {rows}, by its call {told}"
    if (ours.labels(), sorted(ours.names())) != (theirs.labels(), sorted(theirs.names())):
        yield "the labels or the names"


KINDS = ("unknown", "integer", "float", "pointer", "array", "function", "struct", "union", "enum",
         "forward", "typedef", "volatile", "const", "restrict")


class Maker:
    """Makes random dictionaries, as drafts of the library."""

    def __init__(self, session: InsideSession, chance: random.Random) -> None:
        self._session, self._chance = session, chance

    def pair(self, number: int) -> Lists:
        """A dictionary; every second one has a parent."""
        over = self._draft(None) if number % 2 else None
        made = self._draft(over)
        parent = None if over is None else self._bytes(over)
        return Lists(f"random {number}", self._bytes(made), parent=parent)

    def _draft(self, over: Optional[int]) -> int:
        named = {} if over is None else {"parent": over, "parname": "parent"}
        slot = int(self._session.ask("create", **named)["d"])
        for _ in range(self._chance.randrange(1, 4)):
            for _ in range(self._chance.randrange(1, TYPES)):
                outcome(lambda: self._session.ask("add", d=slot, **self._addition()))
            outcome(lambda: self._session.ask("update", d=slot))
        outcome(lambda: self._session.ask("discard", d=slot))
        return slot

    def _number(self) -> int:
        """A type number: the parent's, an own one, or one without a type."""
        return self._chance.choice((0, 0x8000)) + self._chance.randrange(TYPES)

    def _addition(self) -> Dict[str, Any]:
        chance = self._chance
        what = chance.choice((*KINDS, *("member", "enumerator") * 6, "label"))
        name = "".join(chance.choice("ab_ é") for _ in range(chance.randrange(4)))
        return {"what": what, "name": ctfd.text.escape(name), "root": chance.random() < 0.8,
                "type": self._number(), "t": self._number(), "value": chance.randrange(-9, 9),
                "contents": self._number(), "index": self._number(),
                "count": chance.choice((0, 1, 7, 1 << 31)), "last": self._number(),
                "args": [self._number() for _ in range(chance.randrange(4))],
                "tag": chance.choice(("struct", "union", "enum")),
                "size": chance.choice((0, 4, 8, 9000, 1 << 40)),
                "encoding": chance.randrange(9), "offset": chance.randrange(40),
                "bits": chance.randrange(65)}

    def _bytes(self, slot: int) -> bytes:
        return bytes.fromhex(self._session.ask("bytes", d=slot, **{"from": 0})["bytes"])


def damage(chance: random.Random, found: List[Lists]) -> Iterator[Lists]:
    """Copies with some bytes changed after the header."""
    number = 0
    while True:
        lists = chance.choice(found)
        ctf = bytearray(lists.ctf)
        for _ in range(chance.randrange(1, 4)):
            ctf[chance.randrange(36, len(ctf))] = chance.randrange(256)
        number += 1
        yield lists._replace(name=f"damaged {number} of {lists.name}", ctf=bytes(ctf))


Sessions = Tuple[InsideSession, ctfd.Session]


def compare(sessions: Sessions, lists: Lists) -> Optional[int]:
    """The number of compared types; None if both refuse the dictionary."""
    ours, theirs = (open_lists(session, lists) for session in sessions)
    assert (ours is None) == (theirs is None), lists.name
    if ours is None or theirs is None:
        return None
    slot = sessions[0].slots[ours.slot]
    assert not list(differences(ours, theirs, slot)), lists.name
    for session in sessions:
        session.ask("reset")
    return ours.own


@pytest.fixture(scope="module")
def inside() -> Iterator[Inside]:
    if not library().is_file():
        pytest.skip(f"there is no {library()}")
    with Inside(Calls(str(library()))) as opened_library:
        yield opened_library


@pytest.fixture(scope="module")
def sessions(inside: Inside, program: str) -> Iterator[Sessions]:
    """A session of the library in process, and one of the service."""
    with ctfd.Client(program) as client:
        yield inside.session(), client.session()


@pytest.fixture(scope="module")
def pairs(inside: Inside) -> List[Lists]:
    """Random dictionaries."""
    return list(map(Maker(inside.session(), random.Random(SEED)).pair, range(RANDOM)))


@pytest.mark.parametrize("name", ("lua", "zlib"))
def test_example(sessions: Sessions, name: str) -> None:
    found = ctfd.read(str(TOP / "examples" / f"{name}.ctf"))
    assert compare(sessions, Lists(name, found.ctf, found.sym, found.strings))


def test_random(sessions: Sessions, pairs: List[Lists]) -> None:
    assert all(compare(sessions, lists) is not None for lists in pairs)


def test_damaged(sessions: Sessions, pairs: List[Lists]) -> None:
    hostile = damage(random.Random(SEED), [one for one in pairs if len(one.ctf) < 65_536])
    accepted = 0
    while accepted < DAMAGED:
        accepted += compare(sessions, next(hostile)) is not None
