"""A table of C types: records that refer to each other by number, not yet a dictionary.

`ctfd.build` makes such a table. It can contain more than CTF of version 2 can represent; `held`
reduces it.
"""
from __future__ import annotations

from typing import Callable, Dict, Iterable, Iterator, List, NamedTuple, Optional, Tuple

from ..client.model import Model
from ..client.types import Encoding, Enumerator

SIGNED, CHARACTER, BOOLEAN = 1, 2, 4
AGGREGATES = ("struct", "union")
TAGGED = ("struct", "union", "enum", "forward")
REFERENCES = ("pointer", "typedef", "volatile", "const", "restrict", "atomic")
QUALIFIERS = ("volatile", "const", "restrict", "atomic")
NAMES = ("struct", "union", "enum", "typedef", "integer", "float")


class Part(NamedTuple):
    """A member. `offset` is in bits; `width` is set for a bit-field."""

    name: str
    type: int
    offset: int
    width: Optional[int] = None


class Record(NamedTuple):
    """A type. `kind` is the service's word, or `atomic`, which CTF does not have.

    `type` is the type that it points to, renames, qualifies, returns or contains; 0 is none. `tag`
    says what a forward declares. `root` is true if look-ups by name find the type.
    """

    kind: str
    name: str = ""
    size: int = 0
    type: int = 0
    encoding: Encoding = Encoding(0, 0, 0)
    indexed_by: int = 0
    elements: int = 0
    arguments: Tuple[int, ...] = ()
    varargs: bool = False
    members: Tuple[Part, ...] = ()
    enumerators: Tuple[Enumerator, ...] = ()
    tag: str = ""
    root: bool = True

    @property
    def references(self) -> List[int]:
        """The numbers of the types that it refers to, in the order of `renumber`."""
        return [self.type, self.indexed_by, *self.arguments, *[part[1] for part in self.members]]

    def renumber(self, number: Callable[[int], int]) -> Record:
        """A copy with each reference mapped by `number`."""
        (kind, name, size, held, encoding, indexed_by, elements, arguments, varargs, members,
         enumerators, tag, root) = self  # hundreds of thousands: no call more than it takes
        return Record(kind, name, size, number(held), encoding, number(indexed_by), elements,
                      tuple(map(number, arguments)), varargs,
                      tuple([Part(called, number(of), offset, width)
                             for called, of, offset, width in members]),
                      enumerators, tag, root)

    @property
    def name_with_tag(self) -> str:
        """The name with `struct`, `union` or `enum` in front if it has one of these."""
        word = self.tag if self.kind == "forward" else self.kind
        return f"{word} {self.name or '(anon)'}" if self.kind in TAGGED else self.name


UNKNOWN = Record("unknown")


class Table:
    """Records, numbered from 1. `losses` lists what they do not say of their source.

    `objects` and `functions` are the types of the considered symbols, in their order: the type of
    an object or 0, the record of a function or None. `labels` are the labels of a dictionary, each
    with the last number that it covers. A table may have a parent, whose types are the first
    `bases` (unknown if `lacks_parent`). `has_outer_names` is set if names are in the strings of the
    ELF file.
    """

    def __init__(self, model: Model = "lp64") -> None:
        self.model = model
        self.records: List[Record] = []
        self.objects: List[int] = []
        self.functions: List[Optional[Record]] = []
        self.losses: List[str] = []
        self.labels: List[Tuple[str, int]] = []
        self.bases = 0
        self.parent_name = self.parent_label = ""
        self.has_outer_names = self.lacks_parent = False
        self._known: Dict[Record, int] = {}

    def __getitem__(self, number: int) -> Record:
        return self.records[number - 1]

    def __len__(self) -> int:
        return len(self.records)

    def add(self, record: Record) -> int:
        """Adds a type, and returns its number."""
        self.records.append(record)
        return len(self.records)

    def once(self, record: Record) -> int:
        """The number of a record, which is added unless a call of `once` has added it before."""
        number = self._known.get(record)
        if number is None:
            number = self._known[record] = self.add(record)
        return number

    def put(self, number: int, record: Record) -> None:
        """Replaces a record."""
        self.records[number - 1] = record

    def numbers(self) -> range:
        return range(1, len(self.records) + 1)

    def signatures(self) -> Iterator[Record]:
        """The records of functions, where they are known."""
        return (one for one in self.functions if one is not None)

    def resolve(self, number: int) -> int:
        """Follows typedefs and qualifiers; 0 if they form a cycle."""
        for _ in range(len(self.records)):
            if not number or self[number].kind not in ("typedef", *QUALIFIERS):
                return number
            number = self[number].type
        return 0

    def reachable(self, roots: Iterable[int]) -> List[bool]:
        """For each number, 0 included, whether one of the roots leads to it."""
        seen = [False] * (len(self.records) + 1)
        todo = [root for root in roots if root]
        while todo:
            number = todo.pop()
            if not seen[number]:
                seen[number] = True
                todo += [n for n in self[number].references if n and not seen[n]]
        return seen

    def symbol_roots(self) -> List[int]:
        """The types that symbols refer to."""
        told = [n for one in self.signatures() for n in one.references]
        return [n for n in (*self.objects, *told) if n]

    def chosen(self, numbers: Iterable[int], to: Callable[[int], int]) -> Table:
        """A table of these types in this order, with each reference mapped by `to`, also those of
        symbols."""
        made = Table(self.model)
        made.records = [self[n].renumber(to) for n in numbers]
        made.objects = [to(n) for n in self.objects]
        made.functions = [_renumbered_function(one, to) for one in self.functions]
        made.losses = list(self.losses)
        return made

    def subset(self, numbers: Iterable[int]) -> Table:
        """A table of only these types; references to others become 0."""
        order = list(numbers)
        to = {number: place for place, number in enumerate(order, 1)}
        return self.chosen(order, lambda n: to.get(n, 0))


def _renumbered_function(function: Optional[Record], to: Callable[[int], int]) -> Optional[Record]:
    """The record of a function, or None if one of its types is left out."""
    if function is None or any(n and not to(n) for n in function.references):
        return None
    return function.renumber(to)
