"""The offsets of a struct's or union's members, and the holes between them."""
from __future__ import annotations

from typing import Iterable, List, NamedTuple, Optional, Tuple

from ..client.types import Member, Type


Span = Tuple[int, int, Optional[int]]


class Place(NamedTuple):
    """The position of a member: `start` is its offset in bits in its struct, and `bits` its size.

    `gap` is the number of unused bits before it, and `width` its width if it is a bit-field. A
    member without a size, such as an array of a forward, has 0 bits.
    """

    member: Member
    start: int
    bits: int
    gap: int
    width: Optional[int]

    @property
    def hole(self) -> int:
        """The number of whole unused bytes before the member."""
        return (self.gap - self.bit_hole) // 8

    @property
    def bit_hole(self) -> int:
        """The number of unused bits before the member that do not fill a byte, next to a
        bit-field."""
        if self.width is not None and self.gap < 8:
            return self.gap
        return self.gap % 8


class Layout(NamedTuple):
    """The layout of a struct or union. `size` is in bytes, and `padding` is the number of unused
    bits after the last member."""

    size: int
    places: List[Place]
    padding: int

    @property
    def holes(self) -> List[int]:
        """The lengths of the holes between members, in bytes."""
        return [place.hole for place in self.places if place.hole]

    @property
    def bit_holes(self) -> List[int]:
        """The lengths of holes that do not fill a byte, in bits."""
        return [place.bit_hole for place in self.places if place.bit_hole]


def layout(aggregate: Type) -> Layout:
    """The layout of a struct or union, through typedefs and qualifiers."""
    return gathered_layout(aggregate.gather())


def gathered_layout(aggregate: Type) -> Layout:
    """The layout of a type that was gathered, or is contained in one that was."""
    whole = aggregate.resolved
    return laid(whole.kind, whole.size or 0, [(m, _span(m)) for m in whole.members])


def laid(kind: str, size: int, spans: Iterable[Tuple[Member, Span]]) -> Layout:
    """The layout of a struct or union of `size` bytes, from the spans of its members."""
    places: List[Place] = []
    end = 0
    for member, (start, bits, width) in spans:
        gap = start - end if kind == "struct" and start > end else 0
        places.append(Place(member, start, bits, gap, width))
        if start + bits > end:
            end = start + bits
    padding = max(0, 8 * size - end) if kind == "struct" and places else 0
    return Layout(size, places, padding)


def _span(member: Member) -> Span:
    """The offset and size of a member in bits, and its width if it is a bit-field."""
    lies = member.type.bit_field
    if lies is not None:
        return member.offset + lies.offset, lies.bits, lies.bits
    return member.offset, 8 * (member.type.size or 0), None
