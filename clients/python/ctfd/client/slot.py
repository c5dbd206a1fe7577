"""A handle of the library in this process, which has a dictionary or a draft open."""
from __future__ import annotations

import ctypes
from typing import Any, Dict, List, Mapping, NoReturn, Optional, Tuple

from ..text import Name, raw
from .calls import LABEL_ROW, U16, U32, U64, Calls, Function, Handle, room
from .faults import ADVICE, Refused, exception_for
from .model import Model
from .rows import Names, Rows

CHILD, MOST = 0x8000, 0xFFFF
FAULTS = tuple(ADVICE)  # by their codes
BAD_REQUEST = FAULTS.index("BadRequest") + 1
MODELS: Tuple[Model, ...] = ("lp64", "ilp32")
TEXT = 512

# The C types of answers that are one number.
_NUMBERS: Dict[str, Any] = {"kind": U32, "tag": U32, "size": U64, "align": U64, "length": U64,
                            "reference": U16, "resolve": U16, "pointer": U16, "return": U16}


Lists = Tuple[bytes, Optional[bytes], Optional[bytes]]


def fault_of(name: str, word: str, fields: Mapping[str, Any], place: int = 0) -> Refused:
    """The exception for a fault of this name."""
    told = {"code": FAULTS.index(name), "name": name, "place": place}
    return exception_for(told, word, fields)


class Slot:
    """A handle, and the lists that it was opened with. Its methods raise Refused, with the faults
    that a service would give; `d` is its number in these."""

    def __init__(self, calls: Calls, d: int) -> None:
        self.calls, self.d = calls, d
        self.handle = Handle(False, None)
        self._it = ctypes.byref(self.handle)
        # The parent's rows, as they were at the import.
        self.parent: Optional[Rows] = None
        self.is_draft = False
        self._given: Lists = b"", None, None
        self._added = 0
        self._rows: Optional[Rows] = None

    # Opening and closing.

    def open(self, ctf: bytes, sym: Optional[bytes], strings: Optional[bytes], model: Model
             ) -> None:
        """Opens a dictionary. The library copies the lists; this object keeps them too, for the
        names."""
        place = U64()
        lists = [part for one in (ctf, sym, strings) for part in (one or b"", len(one or b""))]
        status = self.calls["open"](self._it, *lists, sym is not None, strings is not None,
                                    model == "ilp32", ctypes.byref(place))
        if status:
            self.refuse("open", status, place.value)
        self._given = ctf, sym, strings

    def create(self, over: Optional[Slot], parname: Name, parlabel: Name, model: Optional[Model]
               ) -> None:
        """Creates a draft."""
        place = U64()
        named = raw(parname), raw(parlabel)
        if over is None and named[0] or over is not None and not named[0]:
            self.refuse("create", BAD_REQUEST)
        if over is not None and model not in (None, over.model):
            raise fault_of("ModelDiffers", "create", {"parent": over.d, "model": model})
        if over is None:
            status = self.calls["create"](self._it, model == "ilp32", ctypes.byref(place))
        else:
            words = [word for one in named for word in (one, len(one))]
            status = self.calls["create_child"](self._it, over._it, *words, ctypes.byref(place))
        if status:
            self.refuse("create", status, place.value)
        self.parent, self.is_draft = None if over is None else over.rows, True

    def import_parent(self, parent: Slot) -> None:
        """Gives a child its parent, in the parent's present state."""
        place = U64()
        status = self.calls["import"](self._it, parent._it, ctypes.byref(place))
        if status:
            self.refuse("import", status, place.value, parent=parent.d)
        self.parent, self._rows = parent.rows, None

    def close(self) -> None:
        self.calls.close(self.handle)
        self._rows = None

    # Drafts.

    def note_addition(self, is_pending: bool) -> None:
        """Counts an addition, if it is a type or a label."""
        self._added += is_pending

    @property
    def pending(self) -> int:
        """The number of types and labels added since the last update."""
        return self._added

    def update(self) -> int:
        """Makes pending additions part of the dictionary. Returns the number of types."""
        types, place = U64(), U64()
        status = self.call("update", ctypes.byref(types), ctypes.byref(place))
        if status:
            self.refuse("update", status, place.value)
        self._added, self._rows = 0, None
        return int(types.value)

    def discard(self) -> int:
        """Drops pending additions. Returns the number of types."""
        types = U64()
        self.call_checked("discard", ctypes.byref(types))
        self._added, self._rows = 0, None
        return int(types.value)

    @property
    def handed_in(self) -> Lists:
        """The section, the symbol table and the strings."""
        return (self.read_bytes(), None, None) if self.is_draft else self._given

    @property
    def lists(self) -> Tuple[bytes, bytes]:
        """The section and the strings, which the name offsets in rows refer to."""
        ctf, _, strings = self.handed_in
        return ctf, strings or b""

    @property
    def rows(self) -> Rows:
        """The rows of the types, read once."""
        if self._rows is None:
            self._rows = Rows(self)
        return self._rows

    @property
    def count(self) -> int:
        return self._number_for("count", U64)

    @property
    def is_child(self) -> bool:
        return self._number_for("child", U32) != 0

    @property
    def model(self) -> Model:
        return MODELS[self._number_for("model", U32)]

    @property
    def first(self) -> int:
        """The number of the first type."""
        return CHILD + 1 if self.is_child else 1

    def _number_for(self, word: str, kind: Any) -> int:
        found = kind()
        self.call_checked(word, ctypes.byref(found))
        return int(found.value)

    def read_bytes(self, start: int = 0, count: Optional[int] = None) -> bytes:
        """Bytes of the section, from `start`; all of the rest if `count` is None."""
        whole = U64()
        self.call_checked("bytes", start, room(0), 0, ctypes.byref(whole))
        left = max(0, whole.value - start)
        into = room(left if count is None else min(left, count))
        self.call_checked("bytes", start, into, len(into), ctypes.byref(whole))
        return bytes(into[:left if count is None else min(left, count)])

    # Calls.

    def call(self, word: str, *given: Any) -> int:
        """Makes a call and returns its status."""
        return self.calls[word](self._it, *given)

    def call_checked(self, word: str, *given: Any) -> None:
        """Makes a call. Raises Refused."""
        status = self.calls[word](self._it, *given)
        if status:
            self.refuse(word, status)

    def made_of(self, word: str, t: int, *given: Any) -> None:
        """Makes a call for type `t`. Raises Refused."""
        if not 0 <= t <= MOST:
            self.refuse(word, BAD_REQUEST, t=t)
        status = self.calls[word](self._it, t, *given)
        if status:
            self.refuse(word, status, t=t)

    def refuse(self, word: str, status: int, place: int = 0, **fields: Any) -> NoReturn:
        """Raises the fault for a status of ctfd.h."""
        raise fault_of(FAULTS[status - 1], word, {"d": self.d, **fields}, place)

    def number(self, word: str, t: int) -> int:
        """The answer to a word for type `t`, if it is one number."""
        found = _NUMBERS[word]()
        self.made_of(word, t, ctypes.byref(found))
        return int(found.value)

    def text_answer(self, word: str, *given: Any) -> bytes:
        """The answer to a word, if it is text. Calls again with a larger buffer if needed."""
        into, length = room(TEXT), U64()
        while True:
            self.call_checked(word, *given, into, len(into), ctypes.byref(length))
            if length.value <= len(into):
                return bytes(into[:length.value])
            into = room(length.value)

    def read_rows(self, word: str, t: int, length: int, size: int) -> bytes:
        """The rows of a type's list: `length` rows of `size` bytes."""
        into, count = room(length * size), U64()
        self.made_of(word, t, 0, into, length, ctypes.byref(count))
        return bytes(into[:length * size])

    def labels(self) -> List[Tuple[str, int]]:
        """The labels, each with the number of the last type that it covers."""
        count = U64()
        self.call_checked("labels", 0, room(0), 0, ctypes.byref(count))
        into = room(count.value * LABEL_ROW.size)
        self.call_checked("labels", 0, into, count.value, ctypes.byref(count))
        names = [*map(Names, self.lists), {}]
        rows = LABEL_ROW.iter_unpack(bytes(into[:count.value * LABEL_ROW.size]))
        return [(names[kept][at] if kept < len(names) - 1 else "", last)
                for at, kept, last in rows]

    def look_up(self, word: str, data: bytes, kind: Any, **fields: Any) -> int:
        """The number that `find`, `symbol` or `label_last` answers for a name."""
        number = kind()
        status = self.calls[word](self._it, data, len(data), ctypes.byref(number))
        if status:
            self.refuse("label" if word == "label_last" else word, status, **fields)
        return int(number.value)

    def symbol_class(self, number: int) -> str:
        """Whether a symbol is an "object" or a "function"."""
        found = Function()
        status = self.calls["function"](self._it, number, ctypes.byref(found))
        return "object" if status and FAULTS[status - 1] == "NotFunction" else "function"

    def object(self, number: int) -> int:
        """The type of an object symbol."""
        found = U16()
        self._of_symbol("object", number, ctypes.byref(found))
        return int(found.value)

    def function(self, number: int) -> Tuple[int, List[int], bool]:
        """The return type and argument types of a function symbol, and whether it is variadic."""
        found, count = Function(), U64()
        self._of_symbol("function", number, ctypes.byref(found))
        into = room(2 * found.arguments)
        self._of_symbol("function_arguments", number, 0, into, found.arguments,
                        ctypes.byref(count))
        taken = memoryview(bytes(into[:2 * found.arguments])).cast("H").tolist()
        return int(found.ret), taken, bool(found.varargs)

    def _of_symbol(self, word: str, number: int, *given: Any) -> None:
        if not 0 <= number < 1 << 32:
            self.refuse(word, BAD_REQUEST, sym=number)
        status = self.calls[word](self._it, number, *given)
        if status:
            self.refuse(word, status, sym=number)
