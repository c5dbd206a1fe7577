"""The word `add`, as calls of the library in this process."""
from __future__ import annotations

import ctypes
from typing import Any, Callable, Dict, Tuple

from ..text import unescape
from .calls import KINDS, U16, U64
from .slot import BAD_REQUEST, Slot

Fields = Dict[str, Any]

REFERRING = ("pointer", "typedef", "volatile", "const", "restrict")
SIZED = {"struct": 0, "union": 0, "enum": 4}
NUMBERS = ("integer", "float")


class Additions:
    """One request to add something to the draft of a slot."""

    def __init__(self, slot: Slot, fields: Fields) -> None:
        self._slot = slot
        self._fields = fields
        name = unescape(fields.get("name", ""))
        self._name: Tuple[bytes, int] = (name, len(name))

    def answer(self) -> Dict[str, int]:
        """Adds it. Returns the fields of the reply: a type number, a member's offset, or
        nothing."""
        what = self._fields.get("what")
        parts: Dict[Any, Callable[[], Dict[str, int]]] = {
            "member": self._member, "enumerator": self._enumerator, "label": self._label}
        if what in parts:
            return parts[what]()
        if what not in KINDS:
            self._slot.refuse("add", BAD_REQUEST, **self._fields)
        number = U16()
        given = self._description(str(what))
        self._add(f"add_{what}", *self._name, bool(self._fields.get("root", True)), *given,
                  ctypes.byref(number))
        return {"t": int(number.value)}

    def _description(self, what: str) -> Tuple[Any, ...]:
        """The arguments for a kind, without the name."""
        field = self._fields.__getitem__
        if what in NUMBERS:
            return (self._number("encoding", 8), self._number("offset", 8),
                    self._number("bits", 16), self._number("size", 64))
        if what in REFERRING:
            return (self._number("type", 16),)
        if what == "array":
            return (self._number("contents", 16), self._number("index", 16),
                    self._number("count", 32))
        if what == "function":
            taken = list(field("args"))
            return (self._number("type", 16), (U16 * max(1, len(taken)))(*taken), len(taken))
        if what in SIZED:
            return (self._number("size", 64, SIZED[what]),)
        return (KINDS.index(field("tag")),) if what == "forward" else ()

    def _number(self, name: str, bits: int, usual: int = 0) -> int:
        """A numeric field. Refused as by a service if it does not fit into `bits` bits."""
        value = self._fields.get(name, usual)
        if not 0 <= value < 1 << bits:
            self._slot.refuse("add", BAD_REQUEST, **self._fields)
        return int(value)

    def _member(self) -> Dict[str, int]:
        at, offset = U64(), self._fields.get("offset")
        self._add("add_member", self._number("t", 16), *self._name, self._number("type", 16),
                  offset is not None, self._number("offset", 64), ctypes.byref(at))
        return {"offset": int(at.value)}

    def _enumerator(self) -> Dict[str, int]:
        value = self._fields["value"]
        if not -1 << 31 <= value < 1 << 31:
            self._slot.refuse("add", BAD_REQUEST, **self._fields)
        self._add("add_enumerator", self._number("t", 16), *self._name, value)
        return {}

    def _label(self) -> Dict[str, int]:
        self._add("add_label", *self._name, self._number("last", 32))
        return {}

    def _add(self, word: str, *given: Any) -> None:
        status = self._slot.call(word, *given)
        if status:
            self._slot.refuse("add", status, **self._fields)
        self._slot.note_addition(word not in ("add_member", "add_enumerator"))
