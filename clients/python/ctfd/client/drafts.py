"""Sends the types of a table to the service as a draft. Sizes and member offsets are given, since
those that the service would compute are not a compiler's."""
from __future__ import annotations

from typing import Any, Dict, List, Set

from ..layout.records import AGGREGATES, Record, Table
from .dictionary import Dictionary
from .faults import Error, Refused
from ..text import escape
from .session import Session

FIRST = (*AGGREGATES, "enum", "forward", "integer", "float", "unknown")


def open_table(session: Session, table: Table) -> Dictionary:
    """A dictionary with the types of a table. Raises Error if the service refuses one."""
    slot = session.create(model=table.model)["d"]
    numbers = _numbers(table)
    requests = [_adds(table[n], numbers) for n in numbers]
    requests += [part for n in numbers for part in _parts(table[n], numbers[n], numbers)]
    asked = [("add", {"d": slot, **fields}) for fields in requests]
    for outcome in session.ask_all([*asked, ("update", {"d": slot})]):
        if isinstance(outcome, Refused):
            session.ask("close", d=slot)
            raise Error(f"the service refused what was stated: {outcome}") from outcome
    return Dictionary(session, slot)


def _numbers(table: Table) -> Dict[int, int]:
    """The types in the order in which they are added, each with its new number. A type comes after
    those that it refers to. Structs and unions come first, with types that refer to none, since
    members are added later."""
    order: Dict[int, int] = {0: 0}
    for number in table.numbers():
        if table[number].kind in FIRST:
            order[number] = len(order)
    for number in table.numbers():
        _add_with_named(table, number, order)
    del order[0]
    return order


def _add_with_named(table: Table, root: int, order: Dict[int, int]) -> None:
    """Adds a type to the order, after those that it refers to. Raises Error if these form a
    cycle."""
    open_ones: Set[int] = set()
    todo = [root]
    while todo:
        number = todo[-1]
        missing = [n for n in table[number].references if n not in order] if number not in order \
            else []
        if missing and number in open_ones:
            record = table[number]
            raise Error(f"{record.name_with_tag or record.kind}: it is made of itself")
        open_ones.add(number)
        if missing:
            todo += missing
            continue
        order.setdefault(number, len(order))
        todo.pop()


def _adds(record: Record, numbers: Dict[int, int]) -> Dict[str, Any]:
    """The fields of the request that adds a type."""
    fields: Dict[str, Any] = {"what": record.kind, "name": escape(record.name),
                              "root": record.root}
    to = {**numbers, 0: 0}
    if record.kind in ("integer", "float"):
        lies = record.encoding
        fields.update(size=record.size, encoding=lies.flags, offset=lies.offset, bits=lies.bits)
    elif record.kind in (*AGGREGATES, "enum"):
        fields.update(size=record.size)
    elif record.kind == "array":
        fields.update(contents=to[record.type], index=to[record.indexed_by],
                      count=record.elements)
    elif record.kind == "function":
        listed = [*(to[n] for n in record.arguments), *([0] if record.varargs else [])]
        fields.update(type=to[record.type], args=listed)
    elif record.kind == "forward":
        fields.update(tag=record.tag)
    elif record.kind != "unknown":
        fields.update(type=to[record.type])
    return fields


def _parts(record: Record, number: int, numbers: Dict[int, int]) -> List[Dict[str, Any]]:
    """The fields of the requests that add the members or enumerators of a type."""
    members = [{"what": "member", "t": number, "name": escape(part.name),
                "type": numbers[part.type] if part.type else 0, "offset": part.offset}
               for part in record.members]
    return members + [{"what": "enumerator", "t": number, "name": escape(one.name),
                       "value": _as_signed(one.value)} for one in record.enumerators]


def _as_signed(value: int) -> int:
    """An enumerator's 32 bits as a signed number."""
    return value - (1 << 32) if value >> 31 and value > 0 else value


