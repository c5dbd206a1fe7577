"""The structs and unions that contain a type by value, and those that point to it."""
from __future__ import annotations

from functools import cached_property
from typing import Callable, Dict, Iterator, List, NamedTuple, Set, Tuple

from .catalog import Catalog, RENAMES
from .naming import Names
from ctfd.layout.records import AGGREGATES

DEEPEST, MOST = 64, 100_000
LEAST, EACH = 400_000, 64


class HeldMember(NamedTuple):
    """A member, or member of members, of a struct or union `owner`; `offset` is in bits.

    `elements` is the number of array elements that contain it; `offset` is that of the first.
    """

    owner: int
    path: Tuple[str, ...]
    type: int
    offset: int
    elements: int

    @property
    def name(self) -> str:
        """The path as in C, without unnamed members."""
        return ".".join(filter(None, self.path))


class Embeds:
    """Walks the members of a catalog's structs and unions.

    Structs without any name are walked through, since they cannot be named as owners; with
    `is_deep`, all are. `cut` lists those with too many members of members.
    """

    def __init__(self, catalog: Catalog, names: Names, is_deep: bool = False) -> None:
        self.catalog = catalog
        self.names = names
        self.is_deep = is_deep
        self.cut: List[int] = []
        # The total work is bounded by the number of members, each level of nesting counted.
        self._left = LEAST + EACH * sum(len(catalog[n].members) for n in catalog.aggregates())
        self._through: Dict[int, bool] = {}

    def containing(self, targets: Set[int]) -> Iterator[HeldMember]:
        """The members that contain these types by value."""
        return self._members_of_type(self._reaches(targets, pointers=False))

    def pointing(self, targets: Set[int]) -> Iterator[HeldMember]:
        """The members that point to these types."""
        return self._members_of_type(self._reaches(targets, pointers=True))

    def _members_of_type(self, wanted: Callable[[int], bool]) -> Iterator[HeldMember]:
        leading = {number for number in self._members
                   if wanted(number) or self.is_walked_through(number)}
        for owner in self._owners():
            if any(part.type in leading for part in self.catalog[owner].members):
                yield from (one for one in self.walk(owner) if wanted(one.type))

    @cached_property
    def _members(self) -> Set[int]:
        """The types of all members."""
        return {part.type for n in self.catalog.aggregates() for part in self.catalog[n].members}

    def _owners(self) -> List[int]:
        """The own structs and unions, except for those that are walked through in others."""
        inner = {self.catalog.reach(number).number for number in self._members}
        return [n for n in self.catalog.aggregates() if n not in inner or self.names.has_name(n)]

    def walk(self, owner: int) -> Iterator[HeldMember]:
        """Each member, and those of the structs that are walked through, in order of members."""
        todo = [HeldMember(owner, (), owner, 0, 1)]
        for _ in range(MOST):
            if not todo:
                return
            here = todo.pop()
            self._left -= 1 + len(here.path)
            if self._left < 0:
                break
            if here.path:
                yield here
            todo += reversed(self._inside(here))
        self.cut.append(owner)

    def is_walked_through(self, number: int) -> bool:
        """Whether the members of a member of this type are walked too."""
        known = self._through.get(number)
        if known is None:
            end = self.catalog.reach(number).number
            known = self._through[number] = self.catalog[end].kind in AGGREGATES and (
                self.is_deep or not self.names.has_name(end))
        return known

    def _inside(self, held: HeldMember) -> List[HeldMember]:
        """The members of a member that is walked through; otherwise none."""
        number, elements, _ = self.catalog.reach(held.type)
        record = self.catalog[number]
        if record.kind not in AGGREGATES:
            return []
        if held.path and not self.is_walked_through(held.type):
            return []
        if len(held.path) >= DEEPEST:
            self.cut += [held.owner] if self.cut[-1:] != [held.owner] else []
            return []
        return [HeldMember(held.owner, (*held.path, part.name), part.type,
                           held.offset + part.offset, held.elements * elements)
                for part in record.members]

    def _reaches(self, targets: Set[int], pointers: bool) -> Callable[[int], bool]:
        """A function that says whether a type leads to one of these, through pointers or
        without."""
        known: Dict[Tuple[int, bool], bool] = {}

        def reaches(number: int) -> bool:
            passed: List[Tuple[int, bool]] = []  # each with whether a pointer was followed
            here = number, False
            while here not in known:
                passed.append(here)
                record = self.catalog[here[0]]
                is_star = record.kind == "pointer" and pointers
                if here[0] in targets and here[1] == pointers:
                    known[here] = True
                elif is_star or record.kind in RENAMES or record.kind == "array":
                    here = record.type, here[1] or is_star
                else:
                    known[here] = False
            known.update(dict.fromkeys(passed, known[here]))
            return known[number, False]

        return reaches
