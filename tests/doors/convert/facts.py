"""Compares the facts that a compiled program prints about its types with a dictionary."""
from __future__ import annotations

from typing import Callable, Dict, List, NamedTuple, Optional

import ctfd


class Count(NamedTuple):
    """The number of compared facts of each kind, and the wrong ones."""

    compared: Dict[str, int]
    wrong: List[str]


class Place(NamedTuple):
    """A member's type, its offset in bits, and its width if it is a bit-field."""

    type: ctfd.Type
    bit: int
    width: Optional[int]


def compare(types: ctfd.Dictionary, printed: str) -> Count:
    """Compares all facts of a program."""
    types.gather([t.number for t in types.types()])
    compared: Dict[str, int] = {}
    wrong: List[str] = []
    for line in printed.splitlines():
        kind, name, *said = line.split("|")
        try:
            told = TELL[kind](types.find(name).resolved, *said)
        except (ctfd.Error, KeyError) as error:
            told = f"{type(error).__name__} {error}"
        compared[kind] = compared.get(kind, 0) + 1
        if told != "|".join(said):
            wrong.append(f"{line}: told {told}")
    return Count(compared, wrong)


def place_of(whole: ctfd.Type, path: str) -> Place:
    """The member at the end of a path."""
    bit = 0
    t = whole
    width = None
    for name in path.split("."):
        member = t.member(name)
        lies = member.type.bit_field
        bit += member.offset + (lies.offset if lies else 0)
        width = lies.bits if lies else None
        t = member.type
    return Place(t, bit, width)


def size(t: ctfd.Type, _: str) -> str:
    return str(t.size)


def member(t: ctfd.Type, path: str, _: str, bits: str) -> str:
    place = place_of(t, path)
    told = "-" if bits == "-" else str(place.width or 8 * (place.type.size or 0))
    return f"{path}|{place.bit}|{told}"


def array(t: ctfd.Type, path: str, _: str) -> str:
    """The lengths of an array's dimensions, the outermost first."""
    held = place_of(t, path).type
    counts = []
    while held.resolved.kind == "array" and not (counts and held.kind == "typedef"):
        counts.append(held.count)
        held = held.contents
    return f"{path}|{','.join(map(str, counts))}"


def calls(t: ctfd.Type, path: str, *_: str) -> str:
    """The number of arguments of a function behind a pointer, and whether it is variadic."""
    function = place_of(t, path).type.reference
    return f"{path}|{len(function.signature.arguments)}|{int(function.signature.varargs)}"


def enumerator(t: ctfd.Type, name: str, printed: str) -> str:
    """An enumerator's value. For an enum of 4 bytes, the dictionary has the 32 bits without their
    sign."""
    value = next(one.value for one in t.enumerators if one.name == name)
    is_same = t.size == 4 and (value - int(printed)) % (1 << 32) == 0
    return f"{name}|{printed if is_same else value}"


TELL: Dict[str, Callable[..., str]] = {
    "size": size, "member": member, "array": array, "calls": calls, "enumerator": enumerator,
}
