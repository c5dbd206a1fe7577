"""The library in this process as a service, without lines to write or parse.

Its sessions answer the words of the protocol. They are separate from each other, except for
dictionaries that they publish.
"""
from __future__ import annotations

from typing import TYPE_CHECKING, Callable, Dict, List, Optional, Sequence, Tuple

from ..text import unescape
from . import words
from .additions import Additions
from .calls import Calls
from .faults import Gone, Refused
from .model import Model
from .session import Answer, Outcome, Request, Service, Session
from .slot import Slot, fault_of

if TYPE_CHECKING:
    from .. import replies
    from .dictionary import Dictionary
    from .told import Told

SLOTS = 1023


class Publication:
    """A copy of a dictionary at the time of `publish`."""

    def __init__(self, slot: Slot) -> None:
        self.ctf, self.sym, self.strings = slot.handed_in
        self.model = slot.model


class Inside(Service):
    """A service in this process, with sessions in one library."""

    def __init__(self, calls: Calls) -> None:
        self.calls = calls
        self.published: Dict[Tuple[int, bytes], Publication] = {}
        self._sessions: List[InsideSession] = []
        self.is_closed = False
        self.requests = self.rounds = 0

    @property
    def where(self) -> str:
        """Where the service is, as text."""
        return f"in this process, by {self.calls.path}"

    @property
    def pid(self) -> None:
        """None: there is no other process."""

    def session(self) -> InsideSession:
        """A new session."""
        if self.is_closed:
            raise Gone("the service in this process was closed")
        self._sessions.append(InsideSession(self, len(self._sessions) + 1))
        return self._sessions[-1]

    def close(self) -> None:
        """Closes all sessions."""
        self.is_closed = True
        for session in self._sessions:
            session.end()


class InsideSession(Session):
    """A session of the library in this process."""

    client: Inside

    def __init__(self, client: Inside, number: int) -> None:
        super().__init__(client, number)
        self.slots: Dict[int, Slot] = {}
        self._last = 0
        self._words: Dict[str, Callable[[Answer], Answer]] = {
            "create": self._create, "close": self._close, "import": self._import,
            "add": self._add, "update": self._update, "discard": self._discard,
            "publish": self._publish, "withdraw": self._withdraw, "take": self._take,
            "reset": self._reset}

    def ask_all(self, requests: Sequence[Request]) -> List[Outcome]:
        made: List[Outcome] = []
        self.client.requests += len(requests)
        self.client.rounds += 1
        for op, fields in requests:
            try:
                made.append(self.answer(op, fields))
            except Refused as fault:
                made.append(fault.with_traceback(None))
        return made

    def answer(self, op: str, fields: Answer) -> Answer:
        """The answer to a word. Raises Refused."""
        if self.client.is_closed:
            raise Gone("the client was closed")
        change = self._words.get(op)
        if change is not None:
            return change(fields)
        given = {name: value for name, value in fields.items() if name != "d"}
        return words.answer(self._slot(op, fields), op, given)

    def open(self, ctf: bytes, sym: Optional[bytes] = None, strings: Optional[bytes] = None,
             model: Optional[Model] = None) -> replies.Opened:
        slot = self._new("open")
        slot.open(ctf, sym, strings, model or "lp64")
        return {"d": self._keep(slot), "types": slot.count}

    def told(self, types: Dictionary) -> Told:
        return self.slots[types.slot].rows

    def end(self) -> None:
        """Closes all slots."""
        for slot in self.slots.values():
            slot.close()
        self.slots.clear()

    def _new(self, op: str) -> Slot:
        if len(self.slots) >= SLOTS:
            raise fault_of("SlotsFull", op, {})
        return Slot(self.client.calls, self._last + 1)

    def _keep(self, slot: Slot) -> int:
        """Registers a slot in which something was opened, and returns its number."""
        self._last = slot.d
        self.slots[slot.d] = slot
        return slot.d

    def _slot(self, op: str, fields: Answer, name: str = "d") -> Slot:
        found = self.slots.get(fields.get(name, 0))
        if found is None:
            raise fault_of("NoSlot", op, fields)
        return found

    # Words that change a slot.

    def _create(self, fields: Answer) -> Answer:
        over = self._slot("create", fields, "parent") if "parent" in fields else None
        slot = self._new("create")
        slot.create(over, unescape(fields.get("parname", "")),
                    unescape(fields.get("parlabel", "")), fields.get("model"))
        return {"d": self._keep(slot)}

    def _close(self, fields: Answer) -> Answer:
        self._slot("close", fields).close()
        del self.slots[fields["d"]]
        return {}

    def _import(self, fields: Answer) -> Answer:
        slot = self._slot("import", fields)
        slot.import_parent(self._slot("import", fields, "parent"))
        return {}

    def _add(self, fields: Answer) -> Answer:
        slot = self._slot("add", fields)
        return Additions(slot, {key: one for key, one in fields.items() if key != "d"}).answer()

    def _update(self, fields: Answer) -> Answer:
        return {"types": self._slot("update", fields).update()}

    def _discard(self, fields: Answer) -> Answer:
        return {"types": self._slot("discard", fields).discard()}

    def _reset(self, fields: Answer) -> Answer:
        self.end()
        self._last = 0
        return {}

    # Publications.

    def _publish(self, fields: Answer) -> Answer:
        slot, key = self._slot("publish", fields), (self.number, unescape(fields["name"]))
        if slot.pending:
            raise fault_of("NotUpdated", "publish", fields)
        if key in self.client.published:
            raise fault_of("NameTaken", "publish", fields)
        self.client.published[key] = Publication(slot)
        return {}

    def _withdraw(self, fields: Answer) -> Answer:
        key = self.number, unescape(fields["name"])
        if self.client.published.pop(key, None) is None:
            raise fault_of("NotPublished", "withdraw", fields)
        return {}

    def _take(self, fields: Answer) -> Answer:
        found = self.client.published.get((fields["owner"], unescape(fields["name"])))
        if found is None:
            raise fault_of("NotPublished", "take", fields)
        return dict(self.open(found.ctf, found.sym, found.strings, found.model))
