"""Linked lists: first the links are followed one by one, then all nodes are read at once."""
from __future__ import annotations

from dataclasses import dataclass
from typing import Dict, Iterator, List, NamedTuple, Optional

from ..client.faults import Error
from ..client.types import Type
from .formats import Formatter
from .operands import BadExpression, Located, Operand, Steps
from .parse import Value
from .reading import AGGREGATES, Bounds, Wanted, values


class Node(NamedTuple):
    """A node of a list."""

    address: int
    value: Value


class ListNodes(NamedTuple):
    """The nodes of a list, and how it ended.

    `back` is the number of the node that the last one leads back to. `more` is set if the limit was
    reached. `lost` is the address of a link that cannot be read, in the node after the last.
    """

    type: Type
    nodes: List[Node]
    back: Optional[int]
    more: bool
    lost: Optional[int]


    def lines(self, printer: Formatter) -> Iterator[str]:
        """One line for each node, and one if the list did not end as usual."""
        for number, (address, value) in enumerate(self.nodes):
            yield f"[{number}] 0x{address:x} {printer.value(self.type, value, address)}"
        if self.back is not None:
            yield f"back to [{self.back}]"
        if self.lost is not None:
            yield f"the link at 0x{self.lost:x} can't be read"
        if self.more:
            yield "..."


@dataclass(frozen=True)
class Chain:
    """The layout of a list.

    A link is `link` bytes after the address in the last link, and a node begins `back` bytes before
    the address in a link. `end` is an address that ends the list, as 0 does.
    """

    type: Type
    first: int
    link: int
    back: int
    end: int


def follow(steps: Steps, head: Operand, member: str, inside: Optional[Type],
           bounds: Bounds) -> ListNodes:
    """Follows a list from `head`, a node or a pointer to one, by the pointer `member`.

    With a type `inside`, the member is a link within that type that points to the next link, as the
    kernel's list_head; `head` is then the list's own link, which is no node.
    """
    chain = (_embedded_chain(steps, head, member, inside) if inside else
             _plain_chain(steps, head, member))
    seen: Dict[int, int] = {}
    at, lost = chain.first, None
    while at and at != chain.end and at not in seen and len(seen) < bounds.elements:
        following = _pointer(steps, chain.type, at + chain.link)
        if following is None:
            lost = at + chain.link
            break
        seen[at] = len(seen)
        at = following
    addresses = [pointed - chain.back for pointed in seen]
    told = values([Wanted(chain.type, address) for address in addresses], steps.target.read, bounds)
    nodes = [Node(address, value) for address, value in zip(addresses, told)]
    ended = not at or at == chain.end or lost is not None
    return ListNodes(chain.type, nodes, None if ended else seen.get(at),
                     not ended and at not in seen, lost)


def _plain_chain(steps: Steps, head: Operand, member: str) -> Chain:
    """The chain of a list whose nodes point to each other."""
    if isinstance(head, Located) and head.type.resolved.kind in AGGREGATES:
        t, first = head.type, head.address
    else:
        place = steps.behind(head)
        t, first = place.type, place.address
    link = steps.member(Located(t, 0), member)
    if link.type.resolved.kind != "pointer" or link.bit:
        raise BadExpression(f"{member} is no pointer to the next node")
    return Chain(t, first, link.address, 0, 0)


def _embedded_chain(steps: Steps, head: Operand, member: str, inside: Type) -> Chain:
    """The chain of a list of links inside nodes, which returns to its head."""
    is_link = isinstance(head, Located) and head.type.resolved.kind in AGGREGATES
    end = head.address if is_link and isinstance(head, Located) else steps.number(head)
    link = steps.member(Located(inside.gather(), 0), member)
    following = link.address
    if link.type.resolved.kind in AGGREGATES:
        following = steps.member(link, "next").address
    first = _pointer(steps, inside, end + following - link.address)
    if first is None:
        raise BadExpression(f"the list's head at 0x{end:x} can't be read")
    return Chain(inside, first, following - link.address, link.address, end)


def _pointer(steps: Steps, node: Type, address: int) -> Optional[int]:
    """The pointer at an address, in the width of the node's program, or None if it cannot be
    read."""
    size = node.dictionary.pointer_size
    try:
        data = steps.target.read(address, size)
    except Error:
        return None
    return int.from_bytes(data, "little") if len(data) == size else None
