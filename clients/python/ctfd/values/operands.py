"""The operands of expressions (values in memory, numbers, functions), and C's operations on
them."""
from __future__ import annotations

from dataclasses import dataclass
from typing import List, NamedTuple, Optional, Protocol, Union

from ..client.faults import Error
from ..client.types import FunctionOf, PointerTo, Signature, Type
from ..view.declare import declaration
from .parse import Leaf, Value
from .reading import AGGREGATES, Bounds, Wanted, value, values


class BadExpression(Error):
    """An expression that is not C, or an operation that its types do not allow."""


class Located(NamedTuple):
    """A value in memory, `bit` bits after the start of a byte."""

    type: Type
    address: int
    bit: int = 0


class Number(NamedTuple):
    """A value that is not in memory. Without a type it is a plain number."""

    type: Optional[Type]
    number: int


class Code(NamedTuple):
    """A function. `signature` is None if the types do not have it."""

    signature: Optional[Signature]
    address: int


class Untold(NamedTuple):
    """A symbol with an address but no type; `why` is the reason."""

    name: str
    address: int
    why: str


Operand = Union[Located, Number, Code, Untold]


class Target(Protocol):
    """A stopped program: its memory, registers, symbols and types."""

    def read(self, address: int, length: int) -> bytes:
        """As many of the bytes as can be read. Raises Error if there are none."""

    def register(self, name: str) -> int:
        """The number in a register. Raises Error if there is no such register."""

    def symbol(self, name: str) -> Operand:
        """The operand that a name stands for. Raises Error if there is none."""

    def find(self, name: str) -> Type:
        """The type of a name. Raises Error if there is none."""


@dataclass(frozen=True)
class Steps:
    """C's operations on operands, for one target."""

    target: Target

    def read(self, operand: Operand, bounds: Optional[Bounds] = None) -> Value:
        """The value of an operand that has a type."""
        if isinstance(operand, Located):
            wanted = Wanted(operand.type, operand.address, operand.bit)
            return values([wanted], self.target.read, bounds)[0]
        if isinstance(operand, (Code, Untold)) or operand.type is None:
            return Leaf(str(self.number(operand)))
        size = operand.type.size or 8
        memory = (operand.number & (1 << 8 * size) - 1).to_bytes(size, "little")
        return value(operand.type, memory, bounds)

    def load(self, operand: Operand) -> Number:
        """A pointer or number, read from memory; for an array or function, a pointer to it."""
        if isinstance(operand, Number):
            return operand
        if isinstance(operand, (Code, Untold)):
            return self.address(operand)
        kind = operand.type.resolved.kind
        if kind == "array":
            return Number(PointerTo(operand.type.resolved.contents), operand.address)
        if kind not in ("integer", "enum", "pointer"):
            raise BadExpression(f"{declaration(operand.type)} is no number and no pointer")
        return Number(operand.type, _number(operand.type, self.read(operand)))

    def number(self, operand: Operand) -> int:
        return self.load(operand).number

    def behind(self, operand: Operand) -> Located:
        """The operand that a pointer points to."""
        pointer = self.load(operand)
        target = pointer.type.resolved if pointer.type else None
        if target is None or target.kind != "pointer":
            raise BadExpression("only a pointer can be followed: cast it, as (TYPE *) EXPR")
        return Located(target.reference.gather(), target.dictionary.address(pointer.number))

    def address(self, operand: Operand) -> Number:
        """A pointer to an operand in memory."""
        if isinstance(operand, Code):
            told = operand.signature
            return Number(PointerTo(FunctionOf(told)) if told else None, operand.address)
        if isinstance(operand, Untold):
            return Number(None, operand.address)
        if isinstance(operand, Number):
            raise BadExpression("only what lies in memory has an address")
        if operand.bit or operand.type.bit_field:
            raise BadExpression("a bit-field has no address")
        return Number(PointerTo(operand.type), operand.address)

    def member(self, operand: Operand, name: str) -> Located:
        """A member of a struct or union, or of the one that a pointer points to."""
        whole = operand if isinstance(operand, Located) else self.behind(operand)
        if whole.type.resolved.kind in ("pointer", "array"):
            whole = self.behind(whole)
        if whole.type.resolved.kind not in AGGREGATES:
            raise BadExpression(f"{declaration(whole.type)} is no struct and no union")
        try:
            found = whole.type.gather().member(name)
        except KeyError:
            raise BadExpression(f"there is no member named {name}") from None
        bits = whole.bit + found.offset
        address = whole.type.dictionary.address(whole.address + bits // 8)
        return Located(found.type, address, bits % 8)

    def move(self, operand: Operand, steps: int) -> Number:
        """A pointer moved by `steps` elements, or a number increased by `steps`."""
        start = self.load(operand)
        pointer = start.type.resolved if start.type else None
        if pointer is None or pointer.kind != "pointer":
            return start._replace(number=start.number + steps)
        size = 1 if pointer.reference.resolved.kind == "void" else pointer.reference.size
        if not size:
            raise BadExpression(f"{declaration(pointer.reference)} has no size")
        address = pointer.dictionary.address(start.number + steps * size)
        return start._replace(number=address)

    def element(self, operand: Operand, number: int) -> Located:
        """An element of an array, or of the array that a pointer points to."""
        return self.behind(self.move(operand, number))

    def cast(self, t: Type, operand: Operand) -> Number:
        """A pointer or number, converted to another type."""
        resolved = t.gather().resolved
        if resolved.kind not in ("integer", "enum", "pointer"):
            raise BadExpression(f"there is no cast to {declaration(t)}: cast to a pointer to it")
        number = self.number(operand)
        size = resolved.size or 8
        return Number(t, number & (1 << 8 * size) - 1)


def _number(t: Type, read: Value) -> int:
    """The number that was read for an integer, an enum or a pointer."""
    if not isinstance(read, Leaf):
        raise BadExpression("its memory can't be read")
    enumerators: List[int] = []
    if t.resolved.kind == "enum":
        enumerators = [number for name, number in t.resolved.enumerators if name == read.text]
    try:
        return enumerators[0] if enumerators else int(read.text, 0)
    except ValueError:
        raise BadExpression(f"{read.text} is no number") from None
