"""The answers of a service about types. Each question is asked once, and many share a round
trip."""
from __future__ import annotations

from typing import TYPE_CHECKING, Any, Dict, Iterable, List, Optional, Tuple

from .. import text
from .faults import NoMemory, Refused, exception_for
from .session import Answer, Outcome

if TYPE_CHECKING:
    from .dictionary import Dictionary

LONG_REPLY = 56
PAGE = 8
NOT_ASKED = {"code": 30, "name": "WrongKind", "place": 0}
REFERRING = ("pointer", "typedef", "volatile", "const", "restrict")
LISTS = {"members": "members", "enumerators": "enumerators"}


class AnswersByWord:
    """The answers for one dictionary. Those on types of its parent are in the parent's object."""

    def __init__(self, types: Dictionary) -> None:
        self._types = types
        self._answers: Dict[Tuple[str, int], Outcome] = {}

    def kind(self, t: int) -> str:
        return str(self.answer("record", t)["kind"])

    def name(self, t: int) -> str:
        return text.name(self.answer("record", t)["name"])

    def is_root(self, t: int) -> bool:
        return bool(self.answer("record", t)["root"])

    def spelled(self, t: int) -> str:
        return text.name(self.answer("name", t)["name"])

    def size(self, t: int) -> int:
        return int(self.answer("size", t)["size"])

    def align(self, t: int) -> int:
        return int(self.answer("align", t)["align"])

    def reference(self, t: int) -> int:
        said = self.answer("record", t)
        if said["kind"] in REFERRING:
            return int(said["type"])
        return int(self.answer("reference", t)["t"])  # raises the refusal

    def tag(self, t: int) -> str:
        said = self.answer("record", t)
        if "tag" not in said:
            raise exception_for(NOT_ASKED, "tag", {"d": self._types.slot, "t": t})
        return str(said["tag"])

    def members(self, t: int) -> List[Tuple[str, int, int]]:
        return [(text.name(one["name"]), one["type"], one["offset"])
                for one in self.answer("members", t)["members"]]

    def enumerators(self, t: int) -> List[Tuple[str, int]]:
        return [(text.name(one["name"]), one["value"])
                for one in self.answer("enumerators", t)["enumerators"]]

    def arguments(self, t: int) -> Tuple[int, List[int], bool]:
        said = self.answer("args", t)
        return said["return"], said["args"], said["varargs"]

    def array(self, t: int) -> Tuple[int, int, int]:
        said = self.answer("array", t)
        return said["contents"], said["index"], said["count"]

    def encoding(self, t: int) -> Tuple[int, int, int]:
        said = self.answer("encoding", t)
        return said["encoding"], said["offset"], said["bits"]

    def known(self, op: str, t: int) -> Optional[Any]:
        outcome = self._of(t)._answers.get((op, t))
        return None if isinstance(outcome, Refused) else outcome

    def fetch(self, questions: Iterable[Tuple[str, int]]) -> None:
        new = [(home, one) for home, one in ((self._of(one[1]), one)
                                             for one in dict.fromkeys(questions))
               if one not in home._answers]
        if not new:
            return
        session = self._types.session
        outcomes = session.ask_all([(op, {"d": home._types.slot, "t": t})
                                    for home, (op, t) in new])
        for (home, one), outcome in zip(new, outcomes):
            if isinstance(outcome, Refused):
                if outcome.code == LONG_REPLY and one[0] in LISTS:
                    outcome = home._by_pages(*one)
                if isinstance(outcome, NoMemory):  # another attempt may succeed
                    continue
            home._answers[one] = outcome

    def answer(self, op: str, t: int) -> Answer:
        home = self._of(t)
        if (op, t) not in home._answers:
            self.fetch([(op, t)])
        outcome = home._answers.get((op, t))
        if outcome is None:
            said: Answer = self._types.session.ask(op, d=home._types.slot, t=t)
            return said
        if isinstance(outcome, Refused):
            raise outcome.with_traceback(None)
        return outcome

    def gather(self, numbers: Iterable[int], named: Iterable[int]) -> None:
        from .gather import Gathering

        Gathering(self).run(numbers, named)

    def _of(self, t: int) -> AnswersByWord:
        """The object that keeps the answers on type `t`."""
        told = self._types.home(t).told
        assert isinstance(told, AnswersByWord)
        return told

    def _by_pages(self, op: str, t: int) -> Outcome:
        """A list that is too long for one reply, fetched in pages."""
        items: List[Any] = []
        total = 1
        while len(items) < total:
            asked = {"d": self._types.slot, "t": t, "from": len(items), "count": PAGE}
            page = self._types.session.ask_all([(op, asked)])[0]
            if isinstance(page, Refused):
                return page
            items += page[LISTS[op]]
            total = page["total"]
        return {LISTS[op]: items, "total": total}
