"""The types of a dictionary in this process, read from rows: one call for all types, and one for
each list.

The rows stay as the library wrote them, and fields are read from them when needed. Each name is
decoded once, from the dictionary's own lists.
"""
from __future__ import annotations

import ctypes
from typing import TYPE_CHECKING, Any, Dict, Iterable, List, Optional, Tuple

from .. import text
from .calls import ENUMERATOR_ROW, KINDS, MEMBER_ROW, TYPE_ROW, U64, Array, Encoding

if TYPE_CHECKING:
    from .slot import Slot

# Positions of a row's fields, in words of 8, 4 and 2 bytes.
LONGS, WORDS, SHORTS = TYPE_ROW // 8, TYPE_ROW // 4, TYPE_ROW // 2
SIZE, ALIGN, LENGTH, NAME_AT = 0, 1, 2, 3
NAME_LIST, KIND, ROOT, SIZE_STATUS, ALIGN_STATUS, RESOLVED_STATUS, REFERENCE_STATUS = range(8, 15)
RESOLVED, REFERENCE = 31, 32
NOWHERE = 2  # the list of an empty name


class Names(Dict[int, str]):
    """The names in a list by offset, each decoded once."""

    def __init__(self, data: bytes) -> None:
        super().__init__()
        self._data = data

    def __missing__(self, at: int) -> str:
        end = self._data.index(b"\0", at)
        name = self[at] = text.decoded(self._data[at:end])
        return name


class Rows:
    """The types of a slot. For numbers below `first`, it asks the rows of the parent."""

    def __init__(self, slot: Slot) -> None:
        self._slot = slot
        self.first, self.count = slot.first, slot.count
        room = bytearray(TYPE_ROW * max(1, self.count))
        rows = (ctypes.c_char * len(room)).from_buffer(room)
        slot.call_checked("types", 0, rows, self.count, ctypes.byref(U64()))
        whole = memoryview(room)
        self._longs, self._words, self._shorts = (whole.cast("Q"), whole.cast("I"),
                                                  whole.cast("H"))
        self._names: List[Dict[int, str]] = [*map(Names, slot.lists), {}]

    def _at(self, t: int) -> int:
        """The row of an own type, or -1 if `t` is not one."""
        at = t - self.first
        return at if 0 <= at < self.count else -1

    def _elsewhere(self, t: int) -> Rows:
        """The parent's rows, for a type of the parent. Raises Refused if `t` is no type."""
        parent = self._slot.parent
        if parent is None or not 0 < t <= parent.count:
            self._slot.number("kind", t)  # raises the refusal
            raise AssertionError(t)
        return parent

    def kind(self, t: int) -> str:
        at = self._at(t)
        return KINDS[self._words[WORDS * at + KIND]] if at >= 0 else self._elsewhere(t).kind(t)

    def is_root(self, t: int) -> bool:
        at = self._at(t)
        if at < 0:
            return self._elsewhere(t).is_root(t)
        return self._words[WORDS * at + ROOT] != 0

    def name(self, t: int) -> str:
        at = self._at(t)
        if at < 0:
            return self._elsewhere(t).name(t)
        kept = self._words[WORDS * at + NAME_LIST]
        return "" if kept == NOWHERE else self._names[kept][self._longs[LONGS * at + NAME_AT]]

    def size(self, t: int) -> int:
        at = self._at(t)
        if at < 0:
            return self._elsewhere(t).size(t)
        if self._words[WORDS * at + SIZE_STATUS]:
            self._slot.refuse("size", self._words[WORDS * at + SIZE_STATUS], t=t)
        return self._longs[LONGS * at + SIZE]

    def align(self, t: int) -> int:
        at = self._at(t)
        if at < 0:
            return self._elsewhere(t).align(t)
        if self._words[WORDS * at + ALIGN_STATUS]:
            self._slot.refuse("align", self._words[WORDS * at + ALIGN_STATUS], t=t)
        return self._longs[LONGS * at + ALIGN]

    def resolved(self, t: int) -> int:
        at = self._at(t)
        if at < 0:
            return self._elsewhere(t).resolved(t)
        if self._words[WORDS * at + RESOLVED_STATUS]:
            self._slot.refuse("resolve", self._words[WORDS * at + RESOLVED_STATUS], t=t)
        return self._shorts[SHORTS * at + RESOLVED]

    def reference(self, t: int) -> int:
        at = self._at(t)
        if at < 0:
            return self._elsewhere(t).reference(t)
        if self._words[WORDS * at + REFERENCE_STATUS]:
            self._slot.refuse("reference", self._words[WORDS * at + REFERENCE_STATUS], t=t)
        return self._shorts[SHORTS * at + REFERENCE]

    def length(self, t: int) -> int:
        """The number of members, enumerators or arguments."""
        at = self._at(t)
        return self._longs[LONGS * at + LENGTH] if at >= 0 else self._elsewhere(t).length(t)

    def spelled(self, t: int) -> str:
        return text.decoded(self._slot.text_answer("name", t))

    def tag(self, t: int) -> str:
        return KINDS[self._slot.number("tag", t)]

    def members(self, t: int) -> List[Tuple[str, int, int]]:
        """The name, type and offset in bits of each member."""
        if self._at(t) < 0:
            return self._elsewhere(t).members(t)
        rows = self._slot.read_rows("members", t, self.length(t), MEMBER_ROW.size)
        names = self._names
        return [("" if kept == NOWHERE else names[kept][at], held, offset)
                for offset, at, kept, held in MEMBER_ROW.iter_unpack(rows)]

    def enumerators(self, t: int) -> List[Tuple[str, int]]:
        """The name and value of each enumerator."""
        if self._at(t) < 0:
            return self._elsewhere(t).enumerators(t)
        rows = self._slot.read_rows("enumerators", t, self.length(t), ENUMERATOR_ROW.size)
        names = self._names
        return [("" if kept == NOWHERE else names[kept][at], value)
                for at, kept, value in ENUMERATOR_ROW.iter_unpack(rows)]

    def arguments(self, t: int) -> Tuple[int, List[int], bool]:
        """The return type and argument types of a function, and whether it is variadic."""
        if self._at(t) < 0:
            return self._elsewhere(t).arguments(t)
        returned = self._slot.number("return", t)
        rows = self._slot.read_rows("arguments", t, self.length(t), 2)
        taken = memoryview(rows).cast("H").tolist()
        varargs = taken[-1:] == [0]
        return returned, taken[:-1] if varargs else taken, varargs

    def array(self, t: int) -> Tuple[int, int, int]:
        """The types of an array's elements and index, and the number of elements."""
        found = Array()
        self._slot.made_of("array", t, ctypes.byref(found))
        return found.contents, found.index, found.count

    def encoding(self, t: int) -> Tuple[int, int, int]:
        """The flags, offset in bits and width in bits of an integer or float."""
        found = Encoding()
        self._slot.made_of("encoding", t, ctypes.byref(found))
        return found.encoding, found.offset, found.bits

    # Fetching, which only a service needs.

    def fetch(self, questions: Iterable[Tuple[str, int]]) -> None:
        """Does nothing: questions need no round trips."""

    def gather(self, numbers: Iterable[int], named: Iterable[int]) -> None:
        """Does nothing, as `fetch`."""

    def answer(self, op: str, t: int) -> Any:
        """The reply of a service to a word."""
        from . import words  # imported here: only sessions that are asked by words need it

        return words.answer(self._slot, op, {"t": t})

    def known(self, op: str, t: int) -> Optional[Any]:
        """As `answer`, but None if refused."""
        from .faults import Refused

        try:
            return self.answer(op, t)
        except Refused:
            return None
