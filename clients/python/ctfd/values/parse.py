"""Parses the text that `show` answers, guided by the type of the value."""
from __future__ import annotations

import re
from typing import Dict, List, NamedTuple, Tuple, Union

from .. import text
from ..client.faults import Error
from ..client.types import Type

CHARACTER = 2
DEEPEST = 100

_LEAF = re.compile(r"[\w$-]+")


class Leaf(NamedTuple):
    """A number, or an enumerator's name, as `show` answers it."""

    text: str


class Characters(NamedTuple):
    """The bytes of an array of characters. `total` is the length of the array; `data` may be
    shorter."""

    data: bytes
    total: int


class Parts(NamedTuple):
    """The members of a struct or union, or the first elements of an array, which has `total`."""

    items: List["Value"]
    total: int


class Lost(NamedTuple):
    """A value that could not be read: the name of the refusal, or "cut" if a bound was reached."""

    why: str


Value = Union[Leaf, Characters, Parts, Lost]


class Unclear(Error):
    """A text that cannot be parsed as a value of its type; its parts are then asked for."""


def is_character(t: Type) -> bool:
    """Whether a resolved type is a character of 8 bits, signed or not."""
    if t.kind != "integer" or t.size != 1:
        return False
    flags, offset, bits = t.encoding
    return bool(flags & CHARACTER) and (offset, bits) == (0, 8)


def parse(t: Type, shown: str) -> Value:
    """The value of type `t` in a text."""
    resolved = t.resolved
    if resolved.kind in ("struct", "union", "array"):
        return Parser(text.name(shown)).parse(resolved)
    return Leaf(text.name(shown))


class Parser:
    """Parses one text from left to right. Raises Unclear if values are nested more than DEEPEST
    deep."""

    def __init__(self, shown: str) -> None:
        self.shown = shown
        self.at = 0
        self.members: Dict[Type, List[Tuple[str, Type]]] = {}

    def parse(self, t: Type) -> Value:
        """The value of the whole text."""
        read = self._value(t, 0)
        if self.at != len(self.shown):
            raise Unclear(f"more follows at {self.at}")
        return read

    def _value(self, t: Type, depth: int) -> Value:
        if depth > DEEPEST:
            raise Unclear("too deep")
        if t.kind in ("struct", "union"):
            return self._aggregate(t, depth)
        if t.kind == "array":
            return self._array(t, depth)
        found = _LEAF.match(self.shown, self.at)
        if not found:
            raise Unclear(f"no value at {self.at}")
        self.at = found.end()
        return Leaf(found[0])

    def _aggregate(self, t: Type, depth: int) -> Value:
        items: List[Value] = []
        self._eat("{")
        for prefix, inner in self._members(t):
            self._eat(prefix)
            items.append(self._value(inner, depth + 1))
        self._eat("}")
        return Parts(items, len(items))

    def _members(self, t: Type) -> List[Tuple[str, Type]]:
        """The text before each member, and the member's type."""
        if t not in self.members:
            named = [(f"{m.name} = " if m.name else "", m.type.resolved) for m in t.members]
            self.members[t] = [(f", {prefix}" if number else prefix, inner)
                               for number, (prefix, inner) in enumerate(named)]
        return self.members[t]

    def _array(self, t: Type, depth: int) -> Value:
        items: List[Value] = []
        contents, count = t.contents.resolved, t.count
        self._eat("[")
        for number in range(count):
            self._eat(", " if number else "")
            items.append(self._value(contents, depth + 1))
        self._eat("]")
        return _characters(items) if is_character(contents) else Parts(items, count)

    def _eat(self, wanted: str) -> None:
        if not self.shown.startswith(wanted, self.at):
            raise Unclear(f"{wanted!r} is not at {self.at}")
        self.at += len(wanted)


def _characters(items: List[Value]) -> Value:
    """The bytes of characters that were shown as numbers."""
    try:
        shown = bytes(int(one.text) & 255 for one in items if isinstance(one, Leaf))
    except ValueError as error:
        raise Unclear(str(error)) from None
    return Characters(shown, len(items))
