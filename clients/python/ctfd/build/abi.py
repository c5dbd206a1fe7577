"""gcc's layout of C types on x86: the rules of the System V ABI, and gcc's attributes.

For the layout, a type has a size, an alignment, and flags, because on i386 the alignment within a
struct may differ from the alignment of the type. Units are bytes, except where bits are named.
"""
from __future__ import annotations

from dataclasses import dataclass
from typing import Dict, List, NamedTuple, Optional, Sequence, Tuple

from ..client.model import Model, POINTER_SIZES
from ..layout.records import BOOLEAN, CHARACTER, SIGNED

BIGGEST = 16  # the alignment of `aligned` without a number
EASED = 32  # bits: i386 aligns numbers within structs to no more
WHOLE = (1, 2, 4, 8)


class Shape(NamedTuple):
    """The size and alignment of a type. `by_user` is set if an attribute gave the alignment,
    `is_number` if the machine handles the type as an integer or a double."""

    size: int
    align: int
    by_user: bool = False
    is_number: bool = False
    is_integer: bool = False
    is_atomic: bool = False


class Basic(NamedTuple):
    """A type without parts, and the flags of its encoding; None for a float."""

    shape: Shape
    flags: Optional[int]


def _integers(model: Model) -> Dict[str, Tuple[int, int]]:
    long = POINTER_SIZES[model]
    known = {
        "char": (1, SIGNED | CHARACTER), "signed char": (1, SIGNED | CHARACTER),
        "unsigned char": (1, CHARACTER), "short int": (2, SIGNED), "short unsigned int": (2, 0),
        "int": (4, SIGNED), "unsigned int": (4, 0), "long int": (long, SIGNED),
        "long unsigned int": (long, 0), "long long int": (8, SIGNED),
        "long long unsigned int": (8, 0), "_Bool": (1, BOOLEAN),
    }
    if model == "lp64":
        known.update({"__int128": (16, SIGNED), "__int128 unsigned": (16, 0)})
    return known


def _floats(model: Model) -> Dict[str, Shape]:
    """The float types. On i386, a double is placed as an integer of its size is."""
    longest = (16, 16) if model == "lp64" else (12, 4)
    plain = {"float": (4, 4), "double": (8, 8), "long double": longest}
    known = {name: Shape(*sizes, is_number=name == "double") for name, sizes in plain.items()}
    for name, shape in list(known.items()):
        known[f"complex {name}"] = shape._replace(size=2 * shape.size)
    same = {"_Float32": "float", "_Float64": "double", "_Float32x": "double",
            "_Float64x": "long double"}
    known.update({name: known[other] for name, other in same.items()})
    known.update({name: Shape(16, 16) for name in ("_Float128", "__float128")})
    known.update({f"_Decimal{8 * size}": Shape(size, size) for size in (4, 8, 16)})
    if model == "lp64":  # on i386 gcc has it only with an option
        known["_Float16"] = Shape(2, 2)
    return known


def basics(model: Model) -> Dict[str, Basic]:
    """The types without parts, by the compiler's names."""
    made = {name: Basic(Shape(size, size, is_number=True, is_integer=True), flags)
            for name, (size, flags) in _integers(model).items()}
    made.update({name: Basic(shape, None) for name, shape in _floats(model).items()})
    return made


def pointer(model: Model) -> Shape:
    size = POINTER_SIZES[model]
    return Shape(size, size, is_number=True, is_integer=True)


def atomic(shape: Shape) -> Shape:
    """The shape of an `_Atomic` type: aligned to its size, if the machine has an access of that
    size."""
    align = shape.size if shape.size in (*WHOLE, 16) else 1
    return shape._replace(align=max(shape.align, align), is_atomic=True)


def array(element: Shape, count: int) -> Shape:
    """The shape of an array, which has the alignment and flags of its elements."""
    return element._replace(size=element.size * count)


def enum(values: Sequence[int], packed: bool, model: Model) -> Shape:
    """The shape of an enum: as large as an int, larger if a value needs it, and as small as
    possible if packed."""
    sizes = (1, 2, 4, 8) if packed else (4, 8)
    low, high = min(values, default=0), max(values, default=0)
    for size in sizes:
        bits = 8 * size
        if -(1 << bits - 1) <= low and (high < 1 << (bits - 1 if low < 0 else bits)):
            return Shape(size, size, is_number=True, is_integer=True)
    return Shape(16, 16, is_number=True, is_integer=True)


@dataclass
class Field:
    """A member to place. With a width it is a bit-field; a bit-field of width 0 has no name."""

    name: str
    shape: Shape
    width: Optional[int] = None
    packed: bool = False
    aligned: Optional[int] = None
    is_block: bool = False


class Laid(NamedTuple):
    """The offsets of members in bits, and the shape of the whole. `is_block` is set if the machine
    has no number of this size for it."""

    places: List[int]
    shape: Shape
    is_block: bool


class _Layout:
    """The layout of a struct or union while members are added. All numbers are bits."""

    def __init__(self, model: Model, is_union: bool, packed: bool, aligned: Optional[int]) -> None:
        self.model = model
        self.is_union = is_union
        self.packed = packed
        self.align = 8 * (aligned or 1)
        self.known = max(self.align, 8 * BIGGEST)
        self.by_user = aligned is not None
        self.at = 0
        self.end = 0

    def place(self, field: Field) -> int:
        """Places a member, and returns its offset."""
        self.at = 0 if self.is_union else self.at
        packed = field.packed or self.packed
        align, by_user, is_bits = self._alignment(field, packed)
        self.by_user = self.by_user or by_user
        self._round(align)
        if is_bits and not packed and field.width:
            unit = self._member_alignment(field.shape, field.shape.by_user)
            if _spans(self.at, field.width, unit) > 8 * field.shape.size // unit:
                self._round_within(unit)
        placed = self.at
        self.at += 8 * field.shape.size if field.width is None else field.width
        self.end = max(self.end, self.at)
        self._raise(field, align, packed)
        return placed

    def _round(self, align: int) -> None:
        self.at = (self.at + align - 1) // align * align

    def _round_within(self, align: int) -> None:
        """Advances to the next unit of a bit-field. gcc counts units from the last multiple of the
        greatest alignment that it knows for offsets; this matters if a type has a greater one."""
        begins = self.at - self.at % self.known
        self.at = begins + (self.at - begins + align - 1) // align * align

    def _alignment(self, field: Field, packed: bool) -> Tuple[int, bool, bool]:
        """A member's alignment, whether an attribute gave it, and whether the member is placed as
        bits. A bit-field that has the size of an integer, at an offset aligned for it, is placed as
        that integer."""
        shape = field.shape
        said = field.aligned is not None
        align, by_user, is_bits = 8 * (field.aligned or 0) or 1, said, False
        if field.width is None:
            if not (packed and said) and 8 * shape.align > align:
                align, by_user = 8 * shape.align, shape.by_user
        elif field.width == 0:
            packed = False
            if 8 * shape.align > align:
                align, by_user = 8 * shape.align, shape.by_user
        else:
            whole = field.width if field.width in (8, 16, 32, 64, 128) else 0
            is_bits = not whole or (whole > 8 and packed) or bool(self.at % whole)
            align = align if is_bits else max(align, whole)
        if packed and not said:
            align = min(align, 8)
        if not packed and not by_user:
            align = self._ease(shape, align)
        return align, by_user, is_bits

    def _raise(self, field: Field, align: int, packed: bool) -> None:
        """Raises the alignment of the whole to a member's. A bit-field counts only if it has a
        name, and then with the alignment of its type."""
        if field.width is None:
            self.align = max(self.align, align)
        elif field.name:
            unit = self._member_alignment(field.shape, field.shape.by_user)
            self.align = max(self.align, align, min(unit, 8) if packed else unit)
            self.by_user = self.by_user or field.shape.by_user

    def _member_alignment(self, shape: Shape, by_user: bool) -> int:
        align = 8 * shape.align
        return align if by_user else self._ease(shape, align)

    def _ease(self, shape: Shape, align: int) -> int:
        """The alignment within a struct: on i386 at most 4 bytes for numbers, except atomic
        ones."""
        eases = self.model == "ilp32" and shape.is_number and not shape.is_atomic
        return min(align, EASED) if eases else align

    def finish(self, fields: Sequence[Field]) -> Shape:
        align = self.align // 8
        size = (self.end + 7) // 8
        size = (size + align - 1) // align * align
        limit = 16 if self.model == "lp64" else 8
        blocks = any(field.is_block for field in fields)
        is_number = not blocks and size in (*WHOLE, 16) and size <= limit
        return Shape(size, align, self.by_user, is_number)


def _spans(at: int, width: int, unit: int) -> int:
    """The number of units that a bit range touches."""
    return (at % unit + width + unit - 1) // unit


def lay(fields: Sequence[Field], model: Model, is_union: bool = False, packed: bool = False,
        aligned: Optional[int] = None) -> Laid:
    """Lays out a struct or union; `aligned` is the value of its attribute."""
    layout = _Layout(model, is_union, packed, aligned)
    places = [layout.place(field) for field in fields]
    shape = layout.finish(fields)
    return Laid(places, shape, not shape.is_number)
