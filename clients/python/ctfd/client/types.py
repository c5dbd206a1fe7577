"""Types as objects. The dictionary caches the answers about each type."""
from __future__ import annotations

from typing import TYPE_CHECKING, Any, List, NamedTuple, Optional, Tuple

from .. import text
from .faults import Error, Incomplete, NoSuchType, Refused
from .nearest import suggestion

if TYPE_CHECKING:
    from .dictionary import Dictionary
    from .told import Told

QUALIFIERS = ("const", "volatile", "restrict")


class Member(NamedTuple):
    """A member of a struct or union. `offset` is in bits, without the offset in a bit-field's
    type."""

    name: str
    type: Type
    offset: int


class Enumerator(NamedTuple):
    name: str
    value: int


class Signature(NamedTuple):
    """The return type and the arguments of a function. `varargs` is true for a variadic one."""

    returns: Type
    arguments: List[Type]
    varargs: bool


class Encoding(NamedTuple):
    """How an integer or float is stored: `bits` bits, `offset` bits from the start of its storage.

    `flags` of an integer is a sum of 1 (signed), 2 (character) and 4 (boolean). For a float it is
    the number of the format: 1 single, 2 double, 6 long double.
    """

    flags: int
    offset: int
    bits: int


class Type:
    """A type of a dictionary, by its number; type 0 is `void`.

    A question that does not suit the kind, such as for the members of an int, raises Refused. Call
    `gather` first if you need much of a type: it asks for all of it in a few round trips.
    """

    __slots__ = ("dictionary", "number", "__weakref__")

    def __init__(self, dictionary: Dictionary, number: int) -> None:
        self.dictionary = dictionary
        self.number = number

    def __repr__(self) -> str:
        return f"<{type(self).__name__} {self.number} {self.spelled}>"

    def __eq__(self, other: object) -> bool:
        return (isinstance(other, Type) and type(self) is type(other)
                and self._identity() == other._identity())

    def __hash__(self) -> int:
        return hash(self.number)

    def _identity(self) -> Tuple[Any, ...]:
        return id(self.dictionary), self.number

    def _teller(self, op: str) -> Told:
        """The object that answers `op` for this type."""
        return self.dictionary.told

    def gather(self) -> Type:
        """Fetches all that the declaration and the layout of this type need, in a few round
        trips."""
        self.dictionary.gather([self.number])
        return self

    @property
    def kind(self) -> str:
        """The kind of the type, in the service's words (`integer`, `struct`, ..), or `void`."""
        return self.dictionary.told.kind(self.number) if self.number else "void"

    @property
    def name(self) -> str:
        """The name of the type, without `struct`, `union` or `enum`; "" if it has none."""
        return self.dictionary.told.name(self.number) if self.number else ""

    @property
    def raw_name(self) -> bytes:
        """The name as bytes."""
        return text.raw(self.name)

    @property
    def spelled(self) -> str:
        """The type as C writes it in a cast, but without the arguments of functions."""
        return self.dictionary.told.spelled(self.number) if self.number else "void"

    @property
    def is_root(self) -> bool:
        """Whether look-ups by name find this type."""
        return bool(self.number) and self.dictionary.told.is_root(self.number)

    @property
    def size(self) -> Optional[int]:
        """The size of a value in bytes, or None if the type has no size, such as a forward."""
        try:
            return self.dictionary.told.size(self.number) if self.number else None
        except Incomplete:
            return None

    @property
    def sizeof(self) -> int:
        """The size of a value in bytes, as C's sizeof. Raises Error if the type has none."""
        size = self.size
        if size is None:
            raise Error(f"{self.spelled} has no size: it is only declared, or is void")
        return size

    def offsetof(self, path: str) -> int:
        """The offset in bytes of a member, as C's offsetof; `a.b` is a member of a member. Raises
        NoSuchType if there is no such member, and Error for a bit-field."""
        here, bits = self, 0
        for name in path.split("."):
            whole = here.resolved
            try:
                found = whole.member(name)
            except Refused as fault:
                raise Error(f"{here.spelled} has no members") from fault
            except KeyError:
                named = [member.name for member in whole.members if member.name]
                raise NoSuchType(f"{here.spelled} has no member {text.printable(name)}"
                                 f"{suggestion(name, named)}") from None
            here, bits = found.type, bits + found.offset
        if here.bit_field is not None or bits % 8:
            raise Error(f"{text.printable(path)} of {self.spelled} is a bit-field, which has no"
                        " offset in bytes")
        return bits // 8

    @property
    def align(self) -> Optional[int]:
        """The alignment in bytes, or None if the type has no size. By the rule of the format, a
        struct has that of its first member."""
        try:
            return self.dictionary.told.align(self.number) if self.number else None
        except Incomplete:
            return None

    @property
    def reference(self) -> Type:
        """The type that a pointer points to, or that a typedef or qualifier applies to."""
        return self.dictionary.type(self._teller("reference").reference(self.number))

    @property
    def tag(self) -> str:
        """What a forward declares: `struct`, `union` or `enum`."""
        return self._teller("tag").tag(self.number)

    @property
    def members(self) -> List[Member]:
        type_of = self.dictionary.type
        return [Member(name, type_of(t), offset)
                for name, t, offset in self._teller("members").members(self.number)]

    @property
    def enumerators(self) -> List[Enumerator]:
        return [Enumerator(name, value)
                for name, value in self._teller("enumerators").enumerators(self.number)]

    @property
    def signature(self) -> Signature:
        """The return type and arguments of a function."""
        return self.dictionary.signed(*self._teller("args").arguments(self.number))

    @property
    def contents(self) -> Type:
        """The type of an array's elements."""
        return self.dictionary.type(self._teller("array").array(self.number)[0])

    @property
    def count(self) -> int:
        """The number of elements of an array."""
        return self._teller("array").array(self.number)[2]

    @property
    def encoding(self) -> Encoding:
        return Encoding(*self._teller("encoding").encoding(self.number))

    @property
    def stripped(self) -> Type:
        """This type without its qualifiers."""
        stripped = self
        while stripped.kind in QUALIFIERS:
            stripped = stripped.reference
        return stripped

    @property
    def resolved(self) -> Type:
        """This type without its qualifiers and typedefs."""
        resolved = self
        while resolved.kind in QUALIFIERS or resolved.kind == "typedef":
            resolved = resolved.reference
        return resolved

    @property
    def bit_field(self) -> Optional[Encoding]:
        """The encoding of a bit-field's type, or None for any other type. An integer is a
        bit-field's if it is narrower than its storage, or if it is a hidden copy of another
        integer, as for a bit-field as wide as its declared type."""
        integer = self.resolved
        if integer.kind != "integer":
            return None
        lies = integer.encoding
        whole = lies.offset == 0 and lies.bits == 8 * (integer.size or 0)
        if lies.bits == 0 or whole and not self.dictionary.is_copy(integer):
            return None
        return lies

    def member(self, name: str) -> Member:
        """The member of a name, also if it is in an unnamed struct or union, as in C.

        Its offset is from the start of this type. Raises KeyError if there is none.
        """
        todo = [(m, m.offset) for m in self.resolved.members]
        searched = {self.resolved}
        while todo:
            inner: List[Tuple[Member, int]] = []
            for member, offset in todo:
                if member.name == name:
                    return Member(name, member.type, offset)
                part = member.type.resolved
                is_open = not member.name and part.kind in ("struct", "union")
                if is_open and part not in searched:  # a hostile type would double at each level
                    searched.add(part)
                    inner += [(m, offset + m.offset) for m in part.members]
            todo = inner
        raise KeyError(name)


class PointerTo(Type):
    """A pointer type that the dictionary does not have, created here."""

    kind, name, tag = "pointer", "", ""
    is_root = False

    def __init__(self, target: Type) -> None:
        super().__init__(target.dictionary, 0)
        self.target = target

    def _identity(self) -> Tuple[Any, ...]:
        return ("*", *self.target._identity(), type(self.target))

    @property
    def size(self) -> int:
        return self.dictionary.pointer_size

    @property
    def align(self) -> int:
        return self.dictionary.pointer_size

    def _teller(self, op: str) -> Told:
        fault = {"code": 30, "name": "WrongKind", "place": 0}  # the service's fault for a pointer
        raise Refused(fault, op, {"type": self.spelled})

    def gather(self) -> Type:
        self.target.gather()
        return self

    @property
    def reference(self) -> Type:
        return self.target

    @property
    def spelled(self) -> str:
        from ..view.declare import declaration

        return declaration(self)


class FunctionOf(Type):
    """The type of a function, created here from the signature of a symbol."""

    kind, name, tag = "function", "", ""
    size = 0
    is_root = False

    def __init__(self, signature: Signature) -> None:
        super().__init__(signature.returns.dictionary, 0)
        self.told = signature

    def _identity(self) -> Tuple[Any, ...]:
        return "()", id(self.told)

    @property
    def align(self) -> int:
        """The size of a pointer, which the service answers for any function."""
        return self.dictionary.pointer_size

    def gather(self) -> Type:
        return self

    @property
    def signature(self) -> Signature:
        return self.told
