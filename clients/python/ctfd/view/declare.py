"""C declarations of types and of names.

The declarator is written from the inside out, along the type. Its depth and the number of steps are
limited: a function may take a pointer to itself, and a hostile one may take many.
"""
from __future__ import annotations

from typing import Callable, List, NamedTuple

from ..text import printable
from ..client.types import QUALIFIERS, Signature, Type

DEEPEST = 4
STEPS = 4096
CUT = "/* .. */"


def base(named: Type) -> str:
    """A type that is neither pointer, array, function nor qualifier, by its name."""
    if named.kind == "void":
        return "void"
    word = named.tag if named.kind == "forward" else named.kind
    name = printable(named.name)
    if word in ("struct", "union", "enum"):
        return f"{word} {name}" if name else f"{word} {{...}}"
    return name or "(anon)"


class Declarator(NamedTuple):
    """The parts of a declaration, `qualifiers base left name right`: `const int (* f )(void)`.

    `named` gives the name of a base.
    """

    qualifiers: List[str]
    base: Type
    left: str
    right: str
    named: Callable[[Type], str]

    @property
    def spelled(self) -> str:
        """The base with its qualifiers."""
        return " ".join([*self.qualifiers, self.named(self.base)])

    def around(self, name: str) -> str:
        """The declaration of a name; with "" that of the type alone."""
        closed = not name and self.right.startswith(")")  # as in "(*const)()"
        inner = (self.left.rstrip() if closed else self.left) + name + self.right
        return f"{self.spelled} {inner}".rstrip()


def declaration(declared: Type, name: str = "") -> str:
    """The C declaration of `name` with this type, including arguments; with "", of the type
    alone."""
    return declarator(declared).around(printable(name))


def object_of(declared: Type, name: str) -> str:
    """The C declaration of an object, which may be an array of unknown length."""
    return declarator(declared, is_open=True).around(printable(name))


def function(signature: Signature, name: str) -> str:
    """The C declaration of a function, by a symbol's signature."""
    arguments = _arguments(signature, 0, [STEPS])
    return declarator(signature.returns).around(f"{printable(name)}({arguments})")


def declarator(declared: Type, named: Callable[[Type], str] = base,
               is_open: bool = False) -> Declarator:
    """The parts of a declaration. With `is_open`, an array of no elements has an unknown length,
    where C allows that."""
    return _declarator(declared, 0, [STEPS], named, is_open)


def _declarator(declared: Type, depth: int, budget: List[int],
                named: Callable[[Type], str] = base, is_open: bool = False) -> Declarator:
    """The parts of a declaration. `budget` has the remaining steps for all its declarators."""
    left, right = "", ""
    qualifiers: List[str] = []
    of_pointer: List[str] = []  # qualifiers of the next pointer
    while True:
        budget[0] -= 1
        kind = declared.kind
        if kind == "pointer":
            declared = declared.reference
            left = "*" + left
            of_pointer = []
            if declared.stripped.kind in ("array", "function"):
                left, right = "(" + left, right + ")"
        elif kind == "array":
            is_unknown = is_open and not declared.count and not right.endswith("]")
            right += "[]" if is_unknown else f"[{declared.count}]"
            declared = declared.contents
        elif kind == "function":
            signature = declared.signature
            right += f"({_arguments(signature, depth, budget, named)})"
            declared = signature.returns
        elif kind in QUALIFIERS:
            declared = declared.reference
            if _element(declared).kind == "pointer":
                left = left if kind in of_pointer else f"{kind} {left}"
                of_pointer.append(kind)
            elif kind not in qualifiers:
                qualifiers.append(kind)
        else:
            return Declarator(qualifiers, declared, left, right, named)


def _element(declared: Type) -> Type:
    """The type that a qualifier applies to: for an array, its elements."""
    for _ in range(STEPS):
        declared = declared.stripped
        if declared.kind != "array":
            break
        declared = declared.contents
    return declared


def _arguments(signature: Signature, depth: int, budget: List[int],
               named: Callable[[Type], str] = base) -> str:
    if depth >= DEEPEST or budget[0] <= 0:
        return CUT
    if signature.varargs and not signature.arguments:
        return ""  # unknown arguments, as in `int f()`
    listed: List[str] = []
    for argument in signature.arguments:
        if budget[0] <= 0:
            return ", ".join([*listed, CUT])
        listed.append(_declarator(argument, depth + 1, budget, named).around(""))
    if signature.varargs:
        listed.append("...")
    return ", ".join(listed) or "void"
