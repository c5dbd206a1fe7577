"""The types of a dictionary in drgn, without debug information.

    program.add_type_finder(ctfd.drgn.type_finder(program, dictionary))

drgn then finds structs, unions, enums, typedefs and numbers by name. If several types have a name,
the name finds the first, and `struct dict__17` the `struct dict` that is type 17;
`names_of_several` lists such names. Members and arguments are created when drgn asks for them. CTF
has no addresses: drgn reads them from the symbols or from a debug file.
"""
from __future__ import annotations

from typing import Any, Callable, Dict, List, Optional

import drgn

from .client import aliases
from .client.dictionary import Dictionary
from .client.faults import NotFound
from .client.types import QUALIFIERS, Type

Finder = Callable[[Any, str, Optional[str]], Optional[Any]]

WORDS = {drgn.TypeKind.STRUCT: "struct", drgn.TypeKind.UNION: "union", drgn.TypeKind.ENUM: "enum"}
NUMBERS = {drgn.TypeKind.INT: "integer", drgn.TypeKind.BOOL: "integer",
           drgn.TypeKind.FLOAT: "float"}
SIGNED, BOOLEAN = 1, 4
COMPLEX = range(3, 6)
WRAPS = ("pointer", "array", "typedef", *QUALIFIERS)
QUALIFIED = {"const": drgn.Qualifiers.CONST, "volatile": drgn.Qualifiers.VOLATILE,
             "restrict": drgn.Qualifiers.RESTRICT}


def type_finder(program: Any, dictionary: Dictionary) -> Finder:
    """A finder for `program.add_type_finder`, which finds the types of a dictionary."""
    return Types(program, dictionary).find


def names_of_several(dictionary: Dictionary) -> str:
    """One line that lists the names that several types have, or "" if there are none."""
    return aliases.of_dictionary(dictionary).ambiguities()


class Types:
    """The types of a dictionary as types of a drgn program, each created once."""

    def __init__(self, program: Any, dictionary: Dictionary) -> None:
        self.program = program
        self.dictionary = dictionary
        self._made: Dict[int, Any] = {}

    def find(self, kind: Any, name: str, filename: Optional[str]) -> Optional[Any]:
        """The type of a kind and a name, or None. None too if `filename` is set: CTF records no
        files."""
        if filename or not name:
            return None
        word = WORDS.get(kind)
        try:
            found = self.dictionary.find(f"{word} {name}" if word else name)
        except NotFound:
            return None
        wanted = word or NUMBERS.get(kind) or "typedef"
        if found.kind == "forward":
            found = self._complete_type(f"{word} {name}", wanted) or found
        elif found.kind != wanted:
            return None
        made = self.of(found)
        return made if made.kind == kind else None

    def _complete_type(self, name: str, kind: str) -> Optional[Type]:
        """The definition that a forward of this name declares, or None."""
        return next((one for one in self.dictionary.find_all(name)
                     if one.kind == kind and one.is_root), None)

    def of(self, t: Type) -> Any:
        """A type as drgn's. Pointers, arrays, typedefs and qualifiers are created innermost
        first."""
        wraps: List[Type] = []
        while t.number not in self._made and t.kind in WRAPS:
            wraps.append(t)
            t = t.contents if t.kind == "array" else t.reference
        made = self._made.get(t.number) or self._inner(t)
        for one in reversed(wraps):
            made = self._made[one.number] = self._around(one, made)
        return made

    def _around(self, t: Type, inner: Any) -> Any:
        if t.kind == "pointer":
            return self.program.pointer_type(inner, self.dictionary.pointer_size)
        if t.kind == "typedef":
            return self.program.typedef_type(aliases.name_of(t), inner)
        if t.kind == "array":
            return self.program.array_type(inner, t.count or None)
        return inner.qualified(inner.qualifiers | QUALIFIED[t.kind])

    def _inner(self, t: Type) -> Any:
        made = self._made[t.number] = self._new(t, t.kind)
        return made

    def _new(self, t: Type, kind: str) -> Any:
        program = self.program
        if kind in ("struct", "union"):
            make = program.struct_type if kind == "struct" else program.union_type
            return make(aliases.name_of(t) or None, t.size or 0, [
                drgn.TypeMember(self._later(one.type, True), one.name or None, one.offset)
                for one in t.members])
        if kind == "enum":
            return self._enum(t)
        if kind == "forward":
            if t.tag == "enum":
                return program.enum_type(aliases.name_of(t) or None)
            make = program.union_type if t.tag == "union" else program.struct_type
            return make(aliases.name_of(t) or None)
        if kind == "function":
            told = t.signature
            return program.function_type(self.of(told.returns), [
                drgn.TypeParameter(self._later(one, False)) for one in told.arguments],
                told.varargs)
        return self._number(t, kind)

    def _later(self, t: Type, is_member: bool) -> Callable[[], Any]:
        """A function that creates the type when drgn calls it; for a bit-field, an object of its
        width."""
        def make() -> Any:
            lies = t.bit_field if is_member else None
            made = self.of(t)
            if lies is None:
                return made
            return drgn.Object(self.program, made, bit_field_size=lies.bits)
        return make

    def _enum(self, t: Type) -> Any:
        listed = t.enumerators
        is_signed = any(one.value < 0 for one in listed)
        name = {1: "char", 2: "short", 8: "long"}.get(t.size or 4, "int")
        number = self.program.int_type(name if is_signed else f"unsigned {name}", t.size or 4,
                                       is_signed)
        return self.program.enum_type(aliases.name_of(t) or None, number, [
            drgn.TypeEnumerator(one.name, one.value) for one in listed])

    def _number(self, t: Type, kind: str) -> Any:
        name = aliases.name_of(t)
        if kind == "float" and t.encoding.flags not in COMPLEX:
            return self.program.float_type(name, t.size or 0)
        if kind == "integer" and t.size:
            flags = t.encoding.flags
            if flags & BOOLEAN:
                return self.program.bool_type(name, t.size)
            return self.program.int_type(name, t.size, bool(flags & SIGNED))
        return self.program.void_type()
