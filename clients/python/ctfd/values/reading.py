"""Values in a program's memory, read with `show` and parsed by their types.

One request reads a whole value. If the service refuses it (TooLong, Incomplete, ShortMemory), or if
the text cannot be parsed, the parts are asked for, all of a level in one round trip. Bounds limit
this, since a hostile type could double the work at each level.
"""
from __future__ import annotations

from dataclasses import dataclass, field
from typing import Callable, Dict, List, NamedTuple, Optional, Tuple, TypeVar

from ..client.faults import Error, Refused
from ..client.types import PointerTo, Type
from ..client.session import Request
from .parse import Characters, Leaf, Lost, Parts, Unclear, Value, is_character, parse

WHOLE = 400_000
MANY = 4096
LONG_TEXT, MOST_TEXT = 1024, 65_536
LONGEST_TEXT = 65_536
AGGREGATES = ("struct", "union")
COMPOSED = (*AGGREGATES, "array")

Read = Callable[[int, int], bytes]
Item = TypeVar("Item")


@dataclass
class Bounds:
    """The limits for reading values: elements of each array that is split, values and parts read
    one by one, and characters of text, also of text that the service produced in vain."""

    elements: int = 200
    pieces: int = 65_536
    text: int = 4_194_304


class Wanted(NamedTuple):
    """A value to read, `bit` bits after the address `at`."""

    type: Type
    at: int
    bit: int = 0


@dataclass
class Piece:
    """A value or a part of one, and where to put the result. `memory` has its bytes once they are
    read."""

    wanted: Wanted
    into: List[Value]
    index: int
    is_part: bool = False
    memory: Optional[bytes] = None

    def put(self, value: Value) -> None:
        self.into[self.index] = value


def span(t: Type, bit: int) -> int:
    """The number of bytes from the one in which a value begins to the one in which it ends."""
    lies = t.bit_field
    bits = 8 * (t.size or 0) if lies is None else lies.offset + lies.bits
    return (bit + bits + 7) // 8


def values(wanted: List[Wanted], read: Read, bounds: Optional[Bounds] = None) -> List[Value]:
    """The values at some addresses, in few round trips.

    `read` takes an address and a length, and returns as many of the bytes as it can.
    """
    for t in {one.type for one in wanted}:
        t.gather()
    return Reading(read, bounds or Bounds()).run(wanted)


def value(t: Type, memory: bytes, bounds: Optional[Bounds] = None) -> Value:
    """The value of type `t` in some bytes."""
    return values([Wanted(t, 0)], lambda at, size: memory[at:at + size], bounds)[0]


@dataclass
class Reading:
    """One call of `values`. Level by level, pieces are read or split into smaller ones."""

    read: Read
    bounds: Bounds
    apart: Dict[Type, bool] = field(default_factory=dict)

    def run(self, wanted: List[Wanted]) -> List[Value]:
        roots: List[Value] = [Lost("cut")] * len(wanted)
        level = [Piece(one, roots, number) for number, one in enumerate(self._within_limit(wanted))]
        while level:
            end = self._end_of_round(level)
            level, later = level[:end], level[end:]
            refused: List[Tuple[Piece, str]] = []
            asked = [piece for piece in level if self._must_ask(piece, refused)]
            refused += self._ask(asked)
            level = later + [part for piece, why in refused for part in self._parts(piece, why)]
        return roots

    def _end_of_round(self, level: List[Piece]) -> int:
        """The number of pieces that one round may ask for, if each long one is as long as
        possible."""
        room = max(1, self.bounds.text // LONGEST_TEXT)
        for number, piece in enumerate(level):
            room -= not _is_short(piece.wanted.type.resolved)
            if room < 0:
                return number
        return len(level)

    def _within_limit(self, pieces: List[Item]) -> List[Item]:
        """The first of some pieces, as many as the limit still allows."""
        kept = pieces[:self.bounds.pieces]
        self.bounds.pieces -= len(kept)
        return kept

    def _must_ask(self, piece: Piece, refused: List[Tuple[Piece, str]]) -> bool:
        """Whether to ask the service for a piece; otherwise the piece has its value or must be
        split."""
        t = piece.wanted.type.resolved
        if self.bounds.text <= 0:
            piece.put(Lost("cut"))
            return False
        if t.kind == "array" and is_character(t.contents.resolved) and piece.wanted.bit % 8 == 0:
            piece.put(self._characters(piece, t))
            return False
        if isinstance(t, PointerTo):
            piece.put(self._pointer(piece, t.size))
            return False
        if self._is_split(t):
            if t.size and not piece.is_part:
                self.read(piece.wanted.at + piece.wanted.bit // 8, 1)  # Error if nothing is there
            refused.append((piece, "TooLong"))
            return False
        return True

    def _pointer(self, piece: Piece, size: int) -> Value:
        """A pointer whose type the dictionary does not have, as `show` would show it."""
        data = self._memory(piece, size)
        return Lost("ShortMemory") if len(data) < size else Leaf(f"0x{data[::-1].hex()}")

    def _characters(self, piece: Piece, t: Type) -> Value:
        """An array of characters as bytes; `show` would write each as a number."""
        kept = min(t.count, MOST_TEXT)
        data = self._memory(piece, kept)
        short = len(data) < kept
        return Lost("ShortMemory") if short and not data else Characters(data, t.count)

    def _memory(self, piece: Piece, length: int) -> bytes:
        """The bytes of a piece, starting with the byte in which it begins."""
        if piece.memory is None:
            try:
                piece.memory = self.read(piece.wanted.at + piece.wanted.bit // 8, length)
            except Error:
                if not piece.is_part:
                    raise
                piece.memory = b""  # other parts may be readable
        return piece.memory[:length]

    def _is_split(self, t: Type) -> bool:
        """Whether a type is never asked for as a whole."""
        if (t.size or 0) > WHOLE or (t.kind == "array" and t.count > MANY):
            return True
        if t not in self.apart:
            held = held_by(t) if t.kind in COMPOSED else []
            self.apart[t] = any(map(_is_unclear, held))
        return self.apart[t]

    def _ask(self, pieces: List[Piece]) -> List[Tuple[Piece, str]]:
        """Asks for pieces in one round trip. Returns those that failed, each with the reason."""
        if not pieces:
            return []
        session = pieces[0].wanted.type.dictionary.session
        outcomes = session.ask_all([self._request(piece) for piece in pieces])
        refused: List[Tuple[Piece, str]] = []
        for piece, outcome in zip(pieces, outcomes):
            if isinstance(outcome, Refused):
                self.bounds.text -= LONGEST_TEXT if outcome.name == "TooLong" else 0
                refused.append((piece, outcome.name))
                continue
            self.bounds.text -= len(outcome["text"])
            try:
                piece.put(parse(piece.wanted.type, outcome["text"]))
            except Unclear:
                refused.append((piece, "Unclear"))
        return refused

    def _request(self, piece: Piece) -> Request:
        t, _, bit = piece.wanted
        data = self._memory(piece, span(t, bit % 8))
        fields = {"d": t.dictionary.slot, "t": t.number, "bytes": data.hex(), "offset": bit % 8}
        return "show", fields

    def _parts(self, piece: Piece, why: str) -> List[Piece]:
        """The members or elements of a value; none if it has none, and it is then Lost."""
        t = piece.wanted.type.resolved
        if self.bounds.pieces <= 0:
            piece.put(Lost("cut"))
            return []
        if t.kind in AGGREGATES:
            places = [(member.type, member.offset) for member in t.members]
            items: List[Value] = [Lost("cut")] * len(places)
            piece.put(Parts(items, len(places)))
            places = self._within_limit(places)
        elif t.kind == "array" and t.contents.size:
            step = 8 * t.contents.size
            count = min(t.count, self.bounds.elements, self.bounds.pieces)
            places = self._within_limit([(t.contents, number * step) for number in range(count)])
            items = [Lost("cut")] * len(places)
            piece.put(Parts(items, t.count))
        else:
            piece.put(Lost(why))
            return []
        return [self._part(piece, inner, offset, items, number)
                for number, (inner, offset) in enumerate(places)]

    def _part(self, whole: Piece, t: Type, offset: int, into: List[Value], index: int) -> Piece:
        """A part that begins `offset` bits after the start of the whole."""
        first, bit = divmod(whole.wanted.bit % 8 + offset, 8)
        start = whole.wanted.at + whole.wanted.bit // 8
        part = Piece(Wanted(t, start + first, bit), into, index, True)
        if whole.memory is not None:
            part.memory = whole.memory[first:first + span(t, bit)]
        return part


def held_by(whole: Type) -> List[Type]:
    """The types in a value of a type, itself included, each once."""
    seen: Dict[Type, None] = {}
    todo = [whole.resolved]
    while todo:
        t = todo.pop()
        if t in seen:
            continue
        seen[t] = None
        if t.kind in AGGREGATES:
            todo += [member.type.resolved for member in t.members]
        elif t.kind == "array":
            todo.append(t.contents.resolved)
    return list(seen)


def _is_short(t: Type) -> bool:
    """Whether the text of a value has at most a few dozen characters."""
    return t.kind in ("integer", "float", "pointer") and (t.size or 0) <= 16


def _is_unclear(t: Type) -> bool:
    """Whether a text with such a value would be needlessly long, or ambiguous."""
    if t.kind == "array":
        return t.count > LONG_TEXT and is_character(t.contents.resolved)
    return t.kind == "enum" and any(not name.isidentifier() for name, _ in t.enumerators)

