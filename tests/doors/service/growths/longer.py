"""Two longer runs, each with all words of the protocol."""
from __future__ import annotations

import json
import re
from pathlib import Path
from typing import Iterator

from ..runs import TOP, Run, ask

TYPE_WORDS = ("kind record members enumerators args array encoding reference resolve size align"
              " name pointer").split()
SLOT_WORDS = ("labels", "info", "model")


def hand_in(session: int, name: str, piece: int = 1 << 18) -> Iterator[bytes]:
    """Hands in a program of the examples in pieces, checks it, and opens it."""
    for section in ("ctf", "sym", "str"):
        whole = Path(TOP, "examples", f"{name}.{section}").read_bytes()
        for at in range(0, len(whole), piece):
            yield ask(session, "part", section=section, bytes=whole[at : at + piece].hex())
    yield ask(session, "check")
    yield ask(session, "open")


def ask_of_type(session: int, d: int, t: int) -> Iterator[bytes]:
    """Every question about a type."""
    for word in TYPE_WORDS:
        yield ask(session, word, d=d, t=t)
    yield ask(session, "path", d=d, t=t, names=["x"])
    yield ask(session, "show", d=d, t=t, bytes="0123456789abcdef" * 16, offset=0)


def ask_of_slot(
    session: int, d: int, text: str, symbol: str = "none", data: int = 0, code: int = 0
) -> Iterator[bytes]:
    """Every question about a slot as a whole, and about its content."""
    for word in SLOT_WORDS:
        yield ask(session, word, d=d)
    yield ask(session, "find", d=d, text=text)
    yield ask(session, "symbol", d=d, name=symbol)
    yield ask(session, "object", d=d, sym=data)
    yield ask(session, "function", d=d, sym=code)
    yield ask(session, "label", d=d, name="mark")
    yield ask(session, "bytes", d=d, **{"from": 0, "count": 4096})


def add_types(session: int, d: int, base: int) -> Iterator[bytes]:
    """One addition of each sort; the first type has the number `base` + 1."""

    def add(what: str, **fields: object) -> bytes:
        return ask(session, "add", d=d, what=what, **fields)

    whole = base + 1
    yield add("integer", name="int", encoding=1, offset=0, bits=32, size=4)
    yield add("float", name="double", encoding=2, offset=0, bits=64, size=8)
    for what in ("pointer", "typedef", "volatile", "const", "restrict"):
        yield add(what, type=whole, name="" if what != "typedef" else "number")
    yield add("array", contents=whole, index=whole, count=3)
    yield add("function", type=whole, args=[whole, whole + 2, 0], name="draw")
    yield add("struct", name="point")
    yield add("union", name="either")
    yield add("enum", name="colour")
    yield add("forward", name="shape", tag="union")
    yield add("unknown")
    for what in ("struct", "union"):
        t = base + (10 if what == "struct" else 11)
        for name in ("x", "y", "x", ""):
            yield add("member", t=t, name=name, type=whole)
    for name, value in (("red", 0), ("green", -1), ("red", 2)):
        yield add("enumerator", t=base + 12, name=name, value=value)
    yield add("label", name="mark", last=whole)


def a_real_program() -> Iterator[bytes]:
    """One session asks about all of a program's types, and makes a dictionary over it."""
    yield from hand_in(1, "lua", 4096)
    for t in range(1, 527, 25):
        yield from ask_of_type(1, 1, t)
    yield from ask_of_slot(1, 1, "struct lua_State *", "lua_close", data=19, code=4)
    yield ask(1, "publish", d=1, name="lua")
    yield ask(1, "create", parent=1, parname="lua", parlabel="mark")
    yield from add_types(1, 2, 0x8000)
    yield ask(1, "update", d=2)
    yield ask(1, "add", d=2, what="pointer", type=218)
    yield ask(1, "discard", d=2)
    for t in range(0x8001, 0x800F):
        yield from ask_of_type(1, 2, t)
    yield from ask_of_slot(1, 2, "struct point")
    yield ask(1, "publish", d=2, name="over")
    yield ask(1, "take", owner=1, name="over")
    yield ask(1, "withdraw", name="over")
    yield ask(1, "import", d=3, parent=1)
    yield from ask_of_type(1, 3, 0x8003)
    yield ask(1, "part", section="ctf", bytes="f1cf")
    yield ask(1, "clear")
    yield ask(1, "close", d=1)
    yield from ask_of_type(1, 3, 218)
    yield ask(1, "reset")


def make_parent(session: int) -> Iterator[bytes]:
    """A draft that is updated twice, and published in between."""
    yield ask(session, "create", model="ilp32")
    yield from add_types(session, 1, 0)
    yield ask(session, "update", d=1)
    yield ask(session, "publish", d=1, name="base")
    yield ask(session, "add", d=1, what="pointer", type=10, name="")
    yield ask(session, "discard", d=1)
    yield ask(session, "add", d=1, what="typedef", type=10, name="point_t")
    yield ask(session, "update", d=1)
    yield from ask_of_slot(session, 1, "point_t")


def stand_over(session: int, owner: int) -> Iterator[bytes]:
    """A session takes a parent, makes a child over it, takes that too, and imports it."""
    yield ask(session, "take", owner=owner, name="base")
    yield ask(session, "create", parent=1, parname="base", model="ilp32")
    yield from add_types(session, 2, 0x8000)
    yield ask(session, "add", d=2, what="pointer", type=10)
    yield ask(session, "update", d=2)
    yield ask(session, "publish", d=2, name="child")
    yield ask(session, "take", owner=session, name="child")
    yield ask(session, "import", d=3, parent=1)
    yield ask(session, "import", d=3, parent=1)
    for t in (1, 10, 12, 0x8001, 0x800A, 0x800F):
        yield from ask_of_type(session, 3, t)
    yield from ask_of_slot(session, 3, "struct point *")


def many_sessions() -> Iterator[bytes]:
    """Sessions that meet: one makes the parent that two others use, with their lines
    alternating."""
    yield from make_parent(1)
    for one, other in zip(stand_over(2, 1), stand_over(3, 1)):
        yield one
        yield other
    yield from hand_in(4, "zlib")
    yield ask(4, "publish", d=1, name="zlib")
    yield from hand_in(4, "zlib")
    yield from ask_of_slot(4, 2, "z_stream *", "inflate", data=12, code=16)
    yield ask(2, "close", d=1)
    yield ask(1, "withdraw", name="base")
    yield ask(1, "reset")
    for session in (2, 3):
        yield from ask_of_type(session, 3, 10)
    yield ask(4, "part", section="str", bytes="00")
    yield ask(4, "clear")
    yield ask(4, "take", owner=2, name="child")
    yield ask(4, "take", owner=3, name="child")


def words() -> list[str]:
    """The words of the protocol, from the table in docs/PROTOCOL.md."""
    text = Path(TOP, "docs", "PROTOCOL.md").read_text(encoding="utf-8")
    table = text.split("\n## The words at a glance\n")[1].split("\n## ")[0]
    return re.findall(r"^\| \[`([a-z]+)`\]\(#\1\) \|", table, re.MULTILINE)


def longer_runs() -> Iterator[Run]:
    """The two runs, after a check that each has every word."""
    for run in (a_real_program, many_sessions):
        lines = tuple(run())
        missing = set(words()) - {json.loads(line)["op"] for line in lines}
        if missing:
            raise SystemExit(f"tests/doors/service/growths/longer.py: {run.__name__} lacks {sorted(missing)}")
        yield Run(run.__name__.replace("_", " "), lines)
