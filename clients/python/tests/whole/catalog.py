"""All types of a dictionary and of its parent as records, fetched in a few round trips.

The output of commands is compared with data derived from these. A record is a tuple, and no
question is asked after it is read. The service has checked the dictionary, so chains of types end.
"""
from __future__ import annotations

from typing import Callable, Dict, Iterable, Iterator, List, NamedTuple, Optional, Set, Tuple

from ctfd import text
from ctfd.client.dictionary import Dictionary
from ctfd.client.gather import DETAIL, LISTS
from ctfd.client.types import Encoding, Enumerator, Member, QUALIFIERS, Type
from ctfd.client.session import Answer
from ctfd.layout.places import Layout, Span, laid
from ctfd.layout.records import AGGREGATES, Part, Record

AT_ONCE = 8192
RENAMES = (*QUALIFIERS, "typedef")


class ReachedType(NamedTuple):
    """The type of a member behind typedefs, qualifiers and arrays."""

    number: int
    elements: int
    through: Tuple[int, ...]


class Catalog:
    """The records of a dictionary; `own` lists the numbers of its own types, in order."""

    def __init__(self, dictionary: Dictionary, lists: Iterable[str] = LISTS) -> None:
        self.dictionary = dictionary
        self.own = list(dictionary.numbers)
        self.numbers = list(dictionary.parent.numbers) if dictionary.parent else []
        self.numbers += self.own
        self._records: Dict[int, Record] = {0: Record("void")}
        self._sizes: Dict[int, Optional[int]] = {0: None}
        self._ends: Dict[int, int] = {}
        self._spans: Dict[int, Span] = {}
        self._reached: Dict[int, ReachedType] = {}
        self._layouts: Dict[int, Layout] = {}
        self._has_sizes = False
        self._read(set(lists))
        self._visible = {_as_integer(self[number]) for number in self.numbers
                         if self[number].kind == "integer" and self[number].root}

    def __getitem__(self, number: int) -> Record:
        """The record of a number; `unknown` for a type of a missing parent."""
        return self._records.get(number) or Record("unknown")

    def __contains__(self, number: int) -> bool:
        return number in self._records

    def put(self, number: int, record: Record) -> None:
        """Replaces the record of a type."""
        self._records[number] = record

    def add(self, record: Record) -> int:
        """Adds a type that the dictionary does not have, and returns its number, the greatest so
        far."""
        number = max(self._records) + 1
        self._records[number] = record
        return number

    @property
    def is_orphan(self) -> bool:
        """Whether it is a child whose parent is missing."""
        return self.dictionary.is_child and self.dictionary.parent is None

    # Reading.

    def _read(self, lists: Set[str]) -> None:
        self._fetch([("record", number) for number in self.numbers])
        asked: List[Tuple[str, int]] = []
        told = {number: self._answer("record", number) for number in self.numbers}
        for number, said in told.items():
            word = DETAIL.get(said["kind"])
            if word in lists:
                asked.append((word, number))
        self._fetch(asked)
        for number, said in told.items():
            self._records[number] = self._record(number, said, lists)

    def _fetch(self, questions: List[Tuple[str, int]]) -> None:
        for start in range(0, len(questions), AT_ONCE):
            self.dictionary.fetch(questions[start:start + AT_ONCE])

    def _answer(self, word: str, number: int) -> Answer:
        return self.dictionary.answer(word, number)

    def _record(self, number: int, said: Answer, lists: Set[str]) -> Record:
        kind = said["kind"]
        size = 0 if kind == "array" else said.get("size", 0)  # an array's need not be given
        record = Record(kind, text.name(said["name"]), size, said.get("type", 0),
                        tag=said.get("tag", ""), root=said["root"])
        word = DETAIL.get(kind)
        if word not in lists:
            return record
        return _DETAILED[word](record, self._answer(word, number))

    # Following types.

    def resolve(self, number: int) -> int:
        """The type behind typedefs and qualifiers."""
        passed: List[int] = []
        while number not in self._ends and self[number].kind in RENAMES:
            passed.append(number)
            number = self[number].type
        end = self._ends.get(number, number)
        self._ends.update(dict.fromkeys(passed, end))
        return end

    def reach(self, number: int) -> ReachedType:
        """The type behind typedefs, qualifiers and arrays, and the types on the way."""
        known = self._reached.get(number)
        if known is None:
            known = self._reached[number] = self._reach(number)
        return known

    def _reach(self, number: int) -> ReachedType:
        elements, through = 1, []
        record = self[number]
        while record.kind in RENAMES or record.kind == "array":
            through.append(number)
            if record.kind == "array":
                elements *= record.elements
            number = record.type
            record = self[number]
        return ReachedType(number, elements, tuple(through))

    def size(self, number: int) -> Optional[int]:
        """The size in bytes, or None if there is none."""
        if number not in self._sizes:
            self._sizes[number] = self._size(number)
        return self._sizes[number]

    def _size(self, number: int) -> Optional[int]:
        end = self.resolve(number)
        record = self[end]
        if record.kind == "pointer":
            return self.dictionary.pointer_size
        if record.kind in ("forward", "unknown", "void"):
            return None
        if record.kind == "array":
            self._ask_sizes()
            return self.dictionary.type(end).size
        if record.kind == "enum":
            return record.size or 4
        return record.size

    def _ask_sizes(self) -> None:
        """Asks for the sizes of all arrays, which their records need not contain."""
        if not self._has_sizes:
            self._has_sizes = True
            self._fetch([("size", n) for n in self.numbers if self[n].kind == "array"])

    def layout(self, number: int) -> Layout:
        """The layout of a struct or union, without further questions."""
        if number not in self._layouts:
            record = self[number]
            spans = [(Member(part.name, self.type(part.type), part.offset), self._span(part))
                     for part in record.members]
            self._layouts[number] = laid(record.kind, record.size, spans)
        return self._layouts[number]

    def _span(self, part: Part) -> Span:
        """The offset and size of a member in bits, and its width if it is a bit-field."""
        lies, bits, width = self.span(part.type)
        return part.offset + lies, bits, width

    def span(self, number: int) -> Span:
        """The offset and width of a value in its storage, in bits, and the width again if it is a
        bit-field's type."""
        known = self._spans.get(number)
        if known is None:
            known = self._spans[number] = self._span_of_type(number)
        return known

    def _span_of_type(self, number: int) -> Span:
        record = self[self.resolve(number)]
        lies = record.encoding
        if record.kind == "integer" and lies.bits:
            if lies.offset or lies.bits != 8 * record.size or self._is_copy(record):
                return lies.offset, lies.bits, lies.bits
        return 0, 8 * (self.size(number) or 0), None

    def _is_copy(self, record: Record) -> bool:
        """Whether an integer is a hidden copy of a visible one. A bit-field that is as wide as its
        declared type has such a copy as its type."""
        return not record.root and _as_integer(record) in self._visible

    # Sets of types.

    def aggregates(self) -> Iterator[int]:
        """The dictionary's own structs and unions, in order."""
        return (number for number in self.own if self[number].kind in AGGREGATES)

    def type(self, number: int) -> Type:
        """The type as an object, for declarations."""
        return self.dictionary.type(number)


def _as_integer(record: Record) -> Tuple[str, int, Encoding]:
    """The name, size and encoding, by which C tells integers apart."""
    return record.name, record.size, record.encoding


def _members(record: Record, said: Answer) -> Record:
    name = text.name
    return record._replace(members=tuple(
        [Part(name(m["name"]), m["type"], m["offset"]) for m in said["members"]]))


def _enumerators(record: Record, said: Answer) -> Record:
    return record._replace(enumerators=tuple(
        Enumerator(text.name(e["name"]), e["value"]) for e in said["enumerators"]))


def _array(record: Record, said: Answer) -> Record:
    return record._replace(type=said["contents"], indexed_by=said["index"],
                           elements=said["count"])


def _encoding(record: Record, said: Answer) -> Record:
    return record._replace(encoding=Encoding(said["encoding"], said["offset"], said["bits"]))


def _arguments(record: Record, said: Answer) -> Record:
    return record._replace(type=said["return"], arguments=tuple(said["args"]),
                           varargs=said["varargs"])


_DETAILED: Dict[str, Callable[[Record, Answer], Record]] = {
    "members": _members, "enumerators": _enumerators, "array": _array, "encoding": _encoding,
    "args": _arguments,
}
