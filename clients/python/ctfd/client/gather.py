"""Breadth-first fetching of what declarations and layouts need: round trips cost more than
requests."""
from __future__ import annotations

from typing import TYPE_CHECKING, Iterable, List, Optional, Set, Tuple

from .types import QUALIFIERS

if TYPE_CHECKING:
    from .session import Answer
    from .told import Told

DETAIL = {
    "struct": "members", "union": "members", "enum": "enumerators", "function": "args",
    "array": "array", "integer": "encoding", "float": "encoding",
}
# The lists that layouts of all types need, and all lists.
LISTS = ("members", "array", "encoding")
ALL_LISTS = (*LISTS, "enumerators", "args")
ONLY_HELD = ("members", "enumerators", "encoding")


class Gathering:
    """A search by levels over two sets of types.

    For types that are contained by value, everything is fetched. For types that a declaration only
    names (behind a pointer, or as arguments), only what their spelling needs.
    """

    def __init__(self, told: Told) -> None:
        self.told = told
        self.held: Set[int] = set()
        self.named: Set[int] = set()

    def run(self, start: Iterable[int], names: Iterable[int] = ()) -> None:
        """Fetches what `start` and all types below it need, and the spelling of `names`.

        Each round has the records of the types that the last round led to, and the lists of the
        types whose records it fetched.
        """
        held: List[int] = list(start)
        named: List[int] = list(names)
        details: List[Tuple[str, int]] = []
        while held or named or details:
            held = [t for t in dict.fromkeys(held) if t and t not in self.held]
            self.held.update(held)
            named = [t for t in dict.fromkeys(named) if t and t not in self.held | self.named]
            self.named.update(named)
            records = [("record", t) for t in held + named]
            self.told.fetch(records + [("size", t) for t in held] + details)
            told = held + named + [t for _, t in details]
            details = self._details(held + named)
            held, named = self._next(told)

    def _details(self, told: List[int]) -> List[Tuple[str, int]]:
        """The lists to fetch for types whose records are known."""
        details: List[Tuple[str, int]] = []
        for t in told:
            record = self._known_answer("record", t)
            op = DETAIL.get(record["kind"]) if record else None
            if op and (t in self.held or op not in ONLY_HELD):
                details.append((op, t))
        return details

    def _next(self, told: List[int]) -> Tuple[List[int], List[int]]:
        more: Tuple[List[int], List[int]] = ([], [])
        for t in told:
            by_value, by_name = self._parts(t, t in self.held)
            more[0].extend(by_value)
            more[1].extend(by_name)
        return more

    def _parts(self, t: int, held: bool) -> Tuple[List[int], List[int]]:
        """The types that a type contains by value, and those that it only names."""
        record = self._known_answer("record", t)
        kind = record["kind"] if record else ""
        detail = self._known_answer(DETAIL[kind], t) if kind in DETAIL else None
        if record and kind == "pointer":
            return [], [record["type"]]
        if record and kind in (*QUALIFIERS, "typedef"):
            inner = [record["type"]]
            return (inner, []) if held else ([], inner if kind != "typedef" else [])
        if detail and kind == "array":
            return ([detail["contents"]], []) if held else ([], [detail["contents"]])
        if detail and kind == "function":
            return [], [detail["return"], *detail["args"]]
        if detail and held and "members" in detail:
            return [member["type"] for member in detail["members"]], []
        return [], []

    def _known_answer(self, op: str, t: int) -> Optional[Answer]:
        return self.told.known(op, t)
