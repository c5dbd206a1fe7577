"""Aliases for types that their own name does not find: `struct dict__17` is type 17, a `struct
dict`.

Source files may define different types of the same name. A look-up by name finds the first that is
not hidden, or none. The others have an alias: their name, two underscores and their number. Python,
gdb, lldb and drgn accept the same aliases.
"""
from __future__ import annotations

import re
from typing import TYPE_CHECKING, Dict, Iterable, List, NamedTuple, Optional, Tuple

if TYPE_CHECKING:
    from .dictionary import Dictionary
    from .types import Type

FORWARD, INTEGER = "forward", "integer"
TAGGED = ("struct", "union", "enum")
COPIED = (INTEGER, "typedef")
MOST_NAMES, MOST_OF_A_NAME = 40, 3

_ALIAS = re.compile(r"(.+?)__([1-9][0-9]{0,4})_*\Z", re.DOTALL)


class NamedType(NamedTuple):
    """A type with a name. `word` is struct, union, enum, or "" for other kinds. `is_narrow` is set
    for a bit-field's integer, and for a typedef of one."""

    number: int
    word: str
    name: str
    is_root: bool
    is_forward: bool = False
    is_narrow: bool = False

    @property
    def key(self) -> Tuple[str, str]:
        return self.word, self.name


class Names:
    """The types that the names of a dictionary find, and the aliases of the others."""

    def __init__(self, listed: Iterable[NamedType]) -> None:
        given = [one for one in listed if one.name]
        self._plain: Dict[Tuple[str, str], NamedType] = {}
        for one in given:
            known = self._plain.get(one.key)
            if one.is_root and (known is None or known.is_forward and not one.is_forward):
                self._plain[one.key] = one
        self._others = [one for one in given if self._is_other(one)]
        self.aliases = {one.number: self._alias(one) for one in self._others}

    def ambiguities(self) -> str:
        """One line that lists the names that several types have, or "" if there are none."""
        others: Dict[str, List[str]] = {}
        for one in self._others:
            name = f"{one.word} {one.name}".strip()
            others.setdefault(name, []).append(self.aliases[one.number])
        if not others:
            return ""
        listed = [f"{name} (also {_some_of(known, MOST_OF_A_NAME)})"
                  for name, known in others.items()]
        begin = ("1 name stands for several types; alone, it means its" if len(others) == 1 else
                 f"{len(others)} names stand for several types; alone, each means its")
        return f"{begin} first type that is not hidden: {_some_of(listed, MOST_NAMES)}"

    def _is_other(self, one: NamedType) -> bool:
        """Whether the name finds another type. A forward counts as the type that is found, and so
        does a narrow integer without one of full width."""
        plain = self._plain.get(one.key)
        if one.is_narrow and plain is None:
            return False
        return plain is not one and not (one.is_root and one.is_forward)

    def _alias(self, one: NamedType) -> str:
        """An alias that no type has as its name."""
        made = alias(one.name, one.number)
        while (one.word, made) in self._plain:
            made += "_"
        return made


def _some_of(names: List[str], most: int) -> str:
    """The first names of a list, and how many more there are."""
    more = [f"{len(names) - most} more"] if len(names) > most else []
    return ", ".join(names[:most] + more)


def alias(name: str, number: int) -> str:
    """The alias of a type."""
    return f"{name}__{number}"


def parse_alias(name: str) -> Optional[Tuple[str, int]]:
    """The name and the number in an alias, or None if `name` is not one."""
    found = _ALIAS.match(name)
    return (found[1], int(found[2])) if found else None


def of_dictionary(types: Dictionary) -> Names:
    """The names of a dictionary's own types, without the integers of bit-fields."""
    own = types.types()
    types.fetch([("record", t.number) for t in own])
    types.gather([t.number for t in own if t.kind == INTEGER
                  or t.kind == "typedef" and not t.is_root])
    seen = widest((t.number, t.name, t.encoding.bits) for t in own
                  if t.kind == INTEGER and t.is_root)
    return Names(_named_type(t) for t in own if t.name and not _is_copy(t, seen))


def widest(integers: Iterable[Tuple[int, str, int]]) -> Dict[str, Tuple[int, int]]:
    """For each name, the number and bits of the widest integer. The narrower ones belong to
    bit-fields. Takes numbers, names and bits; the first of the widest counts."""
    found: Dict[str, Tuple[int, int]] = {}
    for number, name, bits in integers:
        if name not in found or found[name][1] < bits:
            found[name] = number, bits
    return found


def _is_copy(t: Type, seen: Dict[str, Tuple[int, int]]) -> bool:
    """Whether a type belongs to bit-fields: an integer no wider than another one of its name, or a
    hidden typedef of such an integer."""
    if t.kind not in COPIED or t.is_root and t.kind != INTEGER or t.resolved.kind != INTEGER:
        return False
    end = t.resolved
    number, bits = seen.get(end.name, (end.number, 0))
    return number != end.number and end.encoding.bits <= bits


def name_of(t: Type) -> str:
    """A name that finds this type; for a hidden type, its alias."""
    if t.is_root or not t.name:
        return t.name
    end = t.resolved if t.kind in COPIED else t
    is_of_bits = end.kind == INTEGER and not end.is_root
    return t.name if is_of_bits else alias(t.name, t.number)


def _named_type(t: Type) -> NamedType:
    word = t.tag if t.kind == FORWARD else t.kind
    return NamedType(t.number, word if word in TAGGED else "", t.name, t.is_root, t.kind == FORWARD)
