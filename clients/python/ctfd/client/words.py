"""The words of the protocol, answered for a slot in this process as a service would.

The package's objects read rows instead; these are for sessions that are asked by words.
"""
from __future__ import annotations

import ctypes
from typing import Any, Callable, Dict, List, Tuple

from ..text import escape, unescape
from .calls import U16, U32, U64, room
from .slot import BAD_REQUEST, Slot

Answer = Dict[str, Any]
MOST_BYTES = 1_048_576
_SIZED = ("integer", "float", "struct", "union", "enum")


def _record(slot: Slot, fields: Answer) -> Answer:
    rows, t = slot.rows, fields["t"]
    kind = rows.kind(t)
    listed = kind in ("struct", "union", "enum", "function")
    said: Answer = {"kind": kind, "name": escape(rows.name(t)), "root": rows.is_root(t),
                    "vlen": rows.length(t) if listed else 0}
    if kind in _SIZED:
        said["size"] = rows.size(t)
    elif kind == "forward":
        said["tag"] = rows.tag(t)
    elif kind == "function":
        said["type"] = rows.arguments(t)[0]
    elif kind not in ("array", "unknown"):
        said["type"] = rows.reference(t)
    return said


def _some(items: List[Answer], word: str, fields: Answer) -> Answer:
    """The requested part of a list, and its total length."""
    start = fields.get("from", 0)
    return {word: items[start:start + fields.get("count", len(items))], "total": len(items)}


def _members(slot: Slot, fields: Answer) -> Answer:
    return _some([{"name": escape(name), "offset": offset, "type": t}
                  for name, t, offset in slot.rows.members(fields["t"])], "members", fields)


def _enumerators(slot: Slot, fields: Answer) -> Answer:
    return _some([{"name": escape(name), "value": value}
                  for name, value in slot.rows.enumerators(fields["t"])], "enumerators", fields)


def _arguments(said: Tuple[int, List[int], bool]) -> Answer:
    return {"return": said[0], "args": said[1], "varargs": said[2]}


def _array(slot: Slot, fields: Answer) -> Answer:
    contents, index, count = slot.rows.array(fields["t"])
    return {"contents": contents, "count": count, "index": index}


def _encoding(slot: Slot, fields: Answer) -> Answer:
    flags, offset, bits = slot.rows.encoding(fields["t"])
    return {"bits": bits, "encoding": flags, "offset": offset}


def _path(slot: Slot, fields: Answer) -> Answer:
    offset, to, place = U64(), U16(), U64()
    names = b"".join(unescape(name) + b"\0" for name in fields["names"])
    status = slot.call("path", fields["t"], names, len(names), ctypes.byref(offset),
                       ctypes.byref(to), ctypes.byref(place))
    if status:
        slot.refuse("path", status, place.value, t=fields["t"], names=fields["names"])
    return {"offset": offset.value, "t": to.value}


def _show(slot: Slot, fields: Answer) -> Answer:
    memory = bytes.fromhex(fields["bytes"])
    said = slot.text_answer("show", fields["t"], memory, len(memory), fields["offset"])
    return {"text": escape(said)}


def _find(slot: Slot, fields: Answer) -> Answer:
    return {"t": slot.look_up("find", unescape(fields["text"]), U16, text=fields["text"])}


def _symbol(slot: Slot, fields: Answer) -> Answer:
    number = slot.look_up("symbol", unescape(fields["name"]), U32, name=fields["name"])
    return {"class": slot.symbol_class(number), "sym": number}


def _labels(slot: Slot, fields: Answer) -> Answer:
    return _some([{"last": last, "name": escape(name)} for name, last in slot.labels()],
                 "labels", fields)


def _label(slot: Slot, fields: Answer) -> Answer:
    return {"last": slot.look_up("label_last", unescape(fields["name"]), U32,
                                 name=fields["name"])}


def _info(slot: Slot, fields: Answer) -> Answer:
    return {"child": slot.is_child, "draft": slot.is_draft, "imported": slot.parent is not None,
            "labels": len(slot.labels()), "parlabel": escape(slot.text_answer("parent_label")),
            "parname": escape(slot.text_answer("parent_name")), "pending": slot.pending,
            "types": slot.count}


def _bytes(slot: Slot, fields: Answer) -> Answer:
    whole = U64()
    slot.call_checked("bytes", 0, room(0), 0, ctypes.byref(whole))
    wanted = min(fields.get("count", MOST_BYTES), MOST_BYTES)
    return {"bytes": slot.read_bytes(fields["from"], wanted).hex(), "length": whole.value}


def _number(word: str, name: str) -> Callable[[Slot, Answer], Answer]:
    return lambda slot, fields: {name: slot.number(word, fields["t"])}


ANSWERS: Dict[str, Callable[[Slot, Answer], Answer]] = {
    "kind": lambda slot, fields: {"kind": slot.rows.kind(fields["t"])},
    "record": _record, "members": _members, "enumerators": _enumerators,
    "args": lambda slot, fields: _arguments(slot.rows.arguments(fields["t"])),
    "array": _array, "encoding": _encoding, "path": _path, "show": _show, "find": _find,
    "name": lambda slot, fields: {"name": escape(slot.rows.spelled(fields["t"]))},
    "reference": _number("reference", "t"), "resolve": _number("resolve", "t"),
    "pointer": _number("pointer", "t"), "size": _number("size", "size"),
    "align": _number("align", "align"), "symbol": _symbol,
    "object": lambda slot, fields: {"t": slot.object(fields["sym"])},
    "function": lambda slot, fields: _arguments(slot.function(fields["sym"])),
    "labels": _labels, "label": _label, "info": _info,
    "model": lambda slot, fields: {"model": slot.model}, "bytes": _bytes,
}


def answer(slot: Slot, word: str, fields: Answer) -> Answer:
    """The answer to a word for a slot. Raises Refused."""
    made = ANSWERS.get(word)
    if made is None:
        slot.refuse(word, BAD_REQUEST, **fields)
    try:
        return made(slot, fields)
    except KeyError:  # a missing field
        slot.refuse(word, BAD_REQUEST, **fields)
