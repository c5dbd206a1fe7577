"""Types of `ctfd.build` from C declarations, parsed by pycparser."""
from __future__ import annotations

import sys
from typing import Any, Callable, Dict, List, Optional, Sequence, Tuple

from ..client.faults import Error
from ..client.startup import AbsoluteFolders
from . import abi
from .attributes import Attributes, MARK, PlainText, without_attributes
from .types import CType, Member, Types, VOID

FLOATS = ("_Float16", "_Float32", "_Float64", "_Float32x", "_Float64x", "_Float128", "__float128",
          "_Decimal32", "_Decimal64", "_Decimal128")
FILE = "the declarations"
BINARY: Dict[str, Callable[[int, int], int]] = {
    "+": lambda a, b: a + b, "-": lambda a, b: a - b, "*": lambda a, b: a * b,
    "/": lambda a, b: int(a / b) if abs(a) < 1 << 52 else a // b,
    "%": lambda a, b: a - b * int(a / b), "<<": lambda a, b: a << min(b, 128),
    ">>": lambda a, b: a >> b, "&": lambda a, b: a & b, "|": lambda a, b: a | b,
    "^": lambda a, b: a ^ b, "==": lambda a, b: int(a == b), "!=": lambda a, b: int(a != b),
    "<": lambda a, b: int(a < b), ">": lambda a, b: int(a > b), "<=": lambda a, b: int(a <= b),
    ">=": lambda a, b: int(a >= b), "&&": lambda a, b: int(bool(a and b)),
    "||": lambda a, b: int(bool(a or b)),
}
UNARY: Dict[str, Callable[[int], int]] = {
    "+": lambda a: a, "-": lambda a: -a, "~": lambda a: ~a, "!": lambda a: int(not a),
}
ESCAPES = {"n": 10, "t": 9, "r": 13, "0": 0, "\\": 92, "'": 39, '"': 34, "a": 7, "b": 8, "f": 12,
           "v": 11}


def read(text: str, into: Types) -> Types:
    """Adds the types of some declarations to `into`, and returns it. Raises Error."""
    try:
        with AbsoluteFolders():
            from pycparser import CParser
    except ImportError as error:
        raise Error(f"reading declarations needs pycparser, which {sys.executable} has not: install"
                    " Debian's python3-pycparser, or by pip pycparser") from error
    written = without_attributes(text)
    before = _before(into)
    try:
        parsed = CParser().parse(f"{before} {written.text}", FILE)
        _Walker(into, written).run(parsed.ext[before.count(";"):])
    except Error:
        raise
    except RecursionError as error:
        raise Error(f"{FILE}: they are nested too deep") from error
    except Exception as error:  # the parser's own; its class depends on the version
        raise Error(f"{FILE}: {' '.join(str(error).split())}") from error
    return into


def _before(types: Types) -> str:
    """Declarations that tell the parser which names are types."""
    known = [*FLOATS, *(name for name in types.names() if " " not in name)]
    return "".join(f"typedef int {name};" for name in dict.fromkeys(known))


class _Walker:
    """Creates types from the parser's nodes, which it tells apart by class name."""

    def __init__(self, types: Types, written: PlainText) -> None:
        self.types = types
        self.marks = written.marks
        self.typedefs = written.typedefs
        self.constants = types.constants

    def run(self, nodes: Sequence[Any]) -> None:
        for node in nodes:
            kind = type(node).__name__
            if kind == "Typedef":
                said = self.typedefs.get(node.name, Attributes())
                self.types.typedef(node.name, self.type(node.type), self._last_aligned(said))
            elif kind == "Decl":
                self.type(node.type)

    # Types.

    def type(self, node: Any) -> CType:
        """The type of a declarator or a specifier."""
        kind = type(node).__name__
        if kind in ("TypeDecl", "Typename"):
            return self._with_qualifiers(self.type(node.type), node.quals)
        if kind == "PtrDecl":
            return self._with_qualifiers(self.types.pointer(self.type(node.type)), node.quals)
        if kind == "ArrayDecl":
            count = self.number(node.dim) if node.dim is not None else 0
            return self.types.array(self.type(node.type), count)
        if kind == "FuncDecl":
            return self._function(node)
        if kind in ("Struct", "Union"):
            return self._aggregate(node, kind.lower())
        if kind == "Enum":
            return self._enum(node)
        return self._type_of_words(list(node.names))

    def _with_qualifiers(self, made: CType, qualifiers: Optional[Sequence[str]]) -> CType:
        makers = {"const": self.types.const, "volatile": self.types.volatile,
                  "restrict": self.types.restrict, "_Atomic": self.types.atomic}
        for word in ("_Atomic", "restrict", "volatile", "const"):
            made = makers[word](made) if word in (qualifiers or ()) else made
        return made

    def _type_of_words(self, words: List[str]) -> CType:
        """The type that the words of a specifier name."""
        if words == ["void"]:
            return VOID
        if len(words) == 1 and words[0] in self.types and words[0] not in FLOATS:
            return self.types[words[0]]
        return self.types.basic(_canonical(words))

    def _function(self, node: Any) -> CType:
        listed = list(node.args.params) if node.args else []
        varargs = not listed or type(listed[-1]).__name__ == "EllipsisParam"
        arguments = [self._argument(one) for one in listed
                     if type(one).__name__ != "EllipsisParam"]
        if len(arguments) == 1 and arguments[0] is VOID:
            arguments, varargs = [], False
        return self.types.function(self.type(node.type), arguments, varargs)

    def _argument(self, node: Any) -> CType:
        """The type of an argument: arrays and functions become pointers, and qualifiers are
        dropped."""
        held = node.type
        kind = type(held).__name__
        if kind == "ArrayDecl":
            return self.types.pointer(self.type(held.type))
        if kind == "FuncDecl":
            return self.types.pointer(self.type(held))
        if kind == "TypeDecl":
            return self.type(held.type)
        return self.types.pointer(self.type(held.type)) if kind == "PtrDecl" else self.type(held)

    # Structs, unions and enums.

    def _aggregate(self, node: Any, word: str) -> CType:
        made = (self.types.struct if word == "struct" else self.types.union)(node.name or "")
        if node.decls is None:
            return made
        members: List[Member] = []
        said = Attributes()
        for one in node.decls:
            if (getattr(one, "name", None) or "").startswith(MARK):
                said = said.join(self.marks[one.name])
            elif type(one).__name__ == "Decl":
                members.append(self._member(one))
        return self.types.define(made, members, said.packed, self._last_aligned(said))

    def _member(self, node: Any) -> Member:
        said = Attributes()
        width = node.bitsize
        if type(width).__name__ == "FuncCall" and width.name.name.startswith(MARK):
            said = self.marks[width.name.name]
            width = width.args.exprs[0] if width.args else None
        bits = self.number(width) if width is not None else None
        return Member(node.name or "", self.type(node.type), bits, said.packed,
                      self._greatest_alignment(said))

    def _greatest_alignment(self, said: Attributes) -> Optional[int]:
        """The greatest alignment given for a member; None if there is none or it is 0."""
        return max(map(self._alignment, said.aligned), default=0) or None

    def _last_aligned(self, said: Attributes) -> Optional[int]:
        """The last alignment given for a type, which gcc uses."""
        return self._alignment(said.aligned[-1]) if said.aligned else None

    def _alignment(self, text: str) -> int:
        """The number of bytes of an alignment."""
        if not text:
            return abi.BIGGEST
        from pycparser import CParser

        parsed = CParser().parse(f"{_before(self.types)} enum {{ wanted = {text} }};", FILE)
        value = self.number(parsed.ext[-1].type.values.enumerators[0].value)
        if value < 0 or value & value - 1:
            raise Error(f"aligned({text}): it must be a power of two")
        return value

    def _enum(self, node: Any) -> CType:
        if node.values is None:
            return self.types.forward("enum", node.name or "")
        values: List[Tuple[str, Optional[int]]] = []
        said = Attributes()
        follows = 0
        for one in node.values.enumerators:
            if one.name.startswith(MARK):
                said = said.join(self.marks[one.name])
                continue
            value = self.number(one.value) if one.value is not None else follows
            self.constants[one.name] = value
            values.append((one.name, value))
            follows = value + 1
        return self.types.enum(node.name or "", values, said.packed)

    # Numbers.

    def number(self, node: Any) -> int:
        """The value of a constant expression. Raises Error."""
        kind = type(node).__name__
        if kind == "Constant":
            return _constant(node.value)
        if kind == "ID" and node.name in self.constants:
            return self.constants[node.name]
        if kind == "UnaryOp" and node.op in ("sizeof", "_Alignof"):
            return self._size_or_alignment(node)
        if kind == "UnaryOp" and node.op in UNARY:
            return UNARY[node.op](self.number(node.expr))
        if kind == "BinaryOp" and node.op in BINARY:
            return BINARY[node.op](self.number(node.left), self.number(node.right))
        if kind == "TernaryOp":
            return self.number(node.iftrue if self.number(node.cond) else node.iffalse)
        if kind == "Cast":
            return self.number(node.expr)
        raise Error(f"{FILE}: {getattr(node, 'name', None) or kind} is no constant"
                    " that can be computed here")

    def _size_or_alignment(self, node: Any) -> int:
        if type(node.expr).__name__ != "Typename":
            raise Error(f"{FILE}: {node.op} takes a type here, no expression")
        made = self.type(node.expr.type)
        return self.types.shape(made, node.op).size if node.op == "sizeof" else made.align


def _canonical(words: List[str]) -> str:
    """The compiler's name of a type written in several words."""
    left = [word for word in words if word not in ("signed", "unsigned", "int", "_Complex")]
    is_unsigned = "unsigned" in words
    if left == ["char"]:
        return " ".join([*(word for word in words if word != "char"), "char"])
    if "_Complex" in words:
        return " ".join(["complex", *left]) if left else "complex double"
    if left == ["__int128"]:
        return "__int128 unsigned" if is_unsigned else "__int128"
    if left and left[-1] not in ("long", "short"):
        return " ".join(sorted(left, key=("long", "float", "double").index)
                        if set(left) <= {"long", "float", "double"} else left)
    sized = " ".join([*left, "unsigned" if is_unsigned else "", "int"]).split()
    return " ".join(sized)


def _constant(text: str) -> int:
    """The value of an integer or character constant."""
    if text.startswith("'"):
        return _character(text[1:-1])
    digits = text.rstrip("uUlL")
    try:
        if digits.startswith("0") and digits.isdigit():
            return int(digits, 8)
        return int(digits, 0)
    except ValueError as error:
        raise Error(f"{FILE}: {text} is no whole number") from error


def _character(text: str) -> int:
    if not text.startswith("\\"):
        return ord(text[0])
    if text[1] == "x":
        return int(text[2:], 16)
    return int(text[1:], 8) if text[1:].isdigit() else ESCAPES.get(text[1], ord(text[1]))
