"""Numbers about structs and unions: bytes, members, holes, padding, and what another order
saves."""
from __future__ import annotations

from typing import Callable, Dict, List, NamedTuple, Set, Tuple, Union

from .catalog import Catalog
from .naming import Names
from ctfd.layout.places import Layout, Place
from ctfd.layout.records import AGGREGATES


class Figures(NamedTuple):
    """The numbers of one struct or union; all except counts are bytes.

    `saved` is by how much it would shrink without holes between members.
    """

    number: int
    label: str
    size: int
    members: int
    holes: int
    in_holes: int
    bit_holes: int
    padding: int
    saved: int


class Sizes:
    """The numbers of a catalog's types, and their alignments in C."""

    def __init__(self, catalog: Catalog, names: Names) -> None:
        self.catalog = catalog
        self.names = names
        self._alignments: Dict[int, int] = {}

    def figures(self, number: int) -> Figures:
        whole = self.catalog.layout(number)
        holes = whole.holes
        return Figures(number, self.names.label(number), whole.size, len(whole.places), len(holes),
                       sum(holes), len(whole.bit_holes), whole.padding // 8,
                       self._bytes_saved(number, whole))

    def alignment(self, number: int) -> int:
        """The greatest alignment of what a type contains by value, by C's rules for numbers."""
        todo = [self.catalog.reach(number).number]
        whole = todo[0]
        while todo:  # no recursion: types may be nested as deep as the service allows
            here = todo[-1]
            held = self._member_types(here)
            unknown = [one for one in held if one not in self._alignments]
            todo += unknown
            if not unknown:
                known = max((self._alignments[one] for one in held), default=1)
                self._alignments[here] = known if held else self._natural_alignment(here)
                todo.pop()
        return self._alignments[whole]

    def _member_types(self, number: int) -> Set[int]:
        """The types of the members of a struct or union, or of their elements."""
        return {self.catalog.reach(part.type).number for part in self.catalog[number].members}

    def _natural_alignment(self, number: int) -> int:
        """A number's alignment: its size, if that is a power of two up to 16, or its greatest such
        divisor."""
        if self.catalog[number].kind in AGGREGATES:
            return 1
        size = self.catalog.size(number) or 1
        return next((power for power in (16, 8, 4, 2) if size % power == 0), 1)

    def _bytes_saved(self, number: int, whole: Layout) -> int:
        """The bytes that remain when all members are close together, after the struct's
        alignment."""
        if self.catalog[number].kind != "struct" or not (whole.holes or whole.bit_holes):
            return 0
        align = self.alignment(number)
        least = -(-sum(close(whole.places)) // align) * align
        return max(0, whole.size - least)


def close(places: List[Place]) -> List[int]:
    """The sizes of members in bytes; adjacent bit-fields share theirs."""
    lengths: List[int] = []
    run = 0
    for place in places:
        if place.width is not None:
            run += place.bits
            continue
        lengths += [-(-run // 8), place.bits // 8]
        run = 0
    return [*lengths, -(-run // 8)]


SORTED: Dict[str, Callable[[Figures], Tuple[Union[int, str], ...]]] = {
    "size": lambda one: (-one.size, one.label),
    "holes": lambda one: (-one.in_holes, -one.holes, one.label),
    "name": lambda one: (one.label,),
}
