"""Makes types of C as a compiler would: structs laid out as gcc lays them out for the model.

    types = build.Types("lp64")
    node = types.struct("node")
    types.define(node, [("next", types.pointer(node)), ("flags", types.basic("unsigned int"), 3)])
    print(ctfd.listing(types.dictionary(session).find("struct node")))

`declare` creates them from C declarations. The service is given each offset and size, since the
offsets that it chooses by itself are not gcc's.
"""
from __future__ import annotations

from typing import Dict, Iterable, List, NamedTuple, Optional, Sequence, Tuple, Union

from ..client.dictionary import Dictionary, WORDS
from ..client.drafts import open_table
from ..client.faults import Error
from ..client.model import Model
from ..client.types import Encoding, Enumerator
from ..client.session import Session
from ..layout.held import fit_to_ctf
from ..layout.records import Part, Record, Table
from . import abi
from .abi import Shape

Values = Union[Sequence[str], Sequence[Tuple[str, Optional[int]]]]


class CType:
    """A created type. `size` and `align` are in bytes; a type without a size has None and 1.

    A type that is `like` another, such as a typedef, has its shape, even if that is defined later.
    """

    def __init__(self, number: int, shape: Optional[Shape] = None, is_block: bool = False,
                 like: Optional[CType] = None) -> None:
        self.number = number
        self._shape = shape
        self._is_block = is_block
        self._like = like

    @property
    def shape(self) -> Optional[Shape]:
        return self._shape if self._like is None else self._like.shape

    @property
    def is_block(self) -> bool:
        return self._is_block if self._like is None else self._like.is_block

    def define(self, shape: Shape, is_block: bool = False) -> CType:
        """Sets the shape of the type, and returns the type."""
        self._shape, self._is_block = shape, is_block
        return self

    @property
    def size(self) -> Optional[int]:
        return self.shape.size if self.shape else None

    @property
    def align(self) -> int:
        return self.shape.align if self.shape else 1


VOID = CType(0)


class Member(NamedTuple):
    """A member of a struct or union. With a width it is a bit-field. `packed` and `aligned` are its
    attributes."""

    name: str
    type: CType
    width: Optional[int] = None
    packed: bool = False
    aligned: Optional[int] = None


Members = Iterable[Union[Member, Tuple[str, CType], Tuple[str, CType, Optional[int]]]]


class Types:
    """The types of a program for one data model; each is created once. `constants` has the
    enumerators that `declare` has read."""

    def __init__(self, model: Model = "lp64") -> None:
        self.model: Model = model
        self.table = Table(model)
        self._basics = abi.basics(model)
        self.constants: Dict[str, int] = {}
        self._named: Dict[str, CType] = {}
        self._made: Dict[Record, CType] = {}

    def __getitem__(self, name: str) -> CType:
        """The type of a name, such as "struct node" or "size_t". Raises KeyError."""
        return self._named[name]

    def __contains__(self, name: str) -> bool:
        return name in self._named

    def names(self) -> List[str]:
        """The names of all named types."""
        return list(self._named)

    # Types without parts, and types that refer to one other type.

    def basic(self, name: str) -> CType:
        """An integer or float type, by any of its names in C. Raises Error."""
        name = WORDS.get(name, name)
        found = self._basics.get(name)
        if found is None:
            raise Error(f"{name}: {self.model} has no integer or float of this name")
        bits = 8 * found.shape.size
        kind = "float" if found.flags is None else "integer"
        record = Record(kind, name, found.shape.size, encoding=Encoding(found.flags or 0, 0, bits))
        return self._once(record, found.shape)

    def pointer(self, to: CType = VOID) -> CType:
        return self._once(Record("pointer", type=to.number), abi.pointer(self.model))

    def const(self, of: CType) -> CType:
        return self._with_shape_of(Record("const", type=of.number), of)

    def volatile(self, of: CType) -> CType:
        return self._with_shape_of(Record("volatile", type=of.number), of)

    def restrict(self, of: CType) -> CType:
        return self._with_shape_of(Record("restrict", type=of.number), of)

    def atomic(self, of: CType) -> CType:
        shape = self.shape(of, "_Atomic")
        return self._once(Record("atomic", type=of.number), abi.atomic(shape), of.is_block)

    def array(self, of: CType, count: int = 0) -> CType:
        """An array type. With no elements it can be the flexible array at the end of a struct."""
        shape = abi.array(self.shape(of, "an array"), count)
        index = self.basic("unsigned long" if self.model == "lp64" else "unsigned int")
        record = Record("array", type=of.number, indexed_by=index.number, elements=count)
        is_block = of.is_block if count == 1 else shape.size not in abi.WHOLE
        return self._once(record, shape, is_block)

    def function(self, returns: CType = VOID, arguments: Sequence[CType] = (),
                 varargs: bool = False) -> CType:
        record = Record("function", type=returns.number, varargs=varargs,
                        arguments=tuple(one.number for one in arguments))
        return self._once(record, None)

    def typedef(self, name: str, of: CType, aligned: Optional[int] = None) -> CType:
        """A name for a type. A given alignment may be less than the type's own."""
        record = Record("typedef", name, type=of.number)
        if aligned is None:
            return self._name(name, self._with_shape_of(record, of))
        shape = self.shape(of, name)._replace(align=aligned, by_user=True)
        return self._name(name, self._once(record, shape, of.is_block))

    def enum(self, name: str, values: Values, packed: bool = False) -> CType:
        """An enum of names, or of pairs of a name and a value; None stands for the next value."""
        listed: List[Enumerator] = []
        follows = 0
        for one in values:
            word, value = (one, None) if isinstance(one, str) else one
            listed.append(Enumerator(word, follows if value is None else value))
            follows = listed[-1].value + 1
        shape = abi.enum([one.value for one in listed], packed, self.model)
        record = Record("enum", name, shape.size, enumerators=tuple(listed))
        made = self._declaration("enum", name)
        self.table.put(made.number, record)
        return made.define(shape)

    # Structs and unions.

    def forward(self, word: str, name: str) -> CType:
        """A struct, union or enum that may be defined later. `word` is one of these three words."""
        return self._declaration(word, name)

    def struct(self, name: str = "", members: Optional[Members] = None, packed: bool = False,
               aligned: Optional[int] = None) -> CType:
        """A struct. Without members it is a forward, which may be defined later."""
        made = self._declaration("struct", name)
        return made if members is None else self.define(made, members, packed, aligned)

    def union(self, name: str = "", members: Optional[Members] = None, packed: bool = False,
              aligned: Optional[int] = None) -> CType:
        made = self._declaration("union", name)
        return made if members is None else self.define(made, members, packed, aligned)

    def define(self, made: CType, members: Members, packed: bool = False,
               aligned: Optional[int] = None) -> CType:
        """Defines a struct or union that was a forward. Raises Error if it is defined already."""
        record = self.table[made.number]
        if record.kind != "forward":
            raise Error(f"{record.name_with_tag}: it is defined already")
        listed = [one if isinstance(one, Member) else Member(*one) for one in members]
        fields = [self._field(record, one) for one in listed]
        laid = abi.lay(fields, self.model, record.tag == "union", packed, aligned)
        parts = tuple(Part(one.name, one.type.number, place, one.width)
                      for one, place in zip(listed, laid.places)
                      if one.name or one.width is None)
        self.table.put(made.number, Record(record.tag, record.name, laid.shape.size,
                                           members=parts))
        return made.define(laid.shape, laid.is_block)

    def _field(self, whole: Record, member: Member) -> abi.Field:
        what = f"{whole.name_with_tag}: its member {member.name or '(anon)'}"
        shape = self.shape(member.type, what)
        width = member.width
        if width is not None and not (shape.is_integer and 0 <= width <= 8 * shape.size):
            raise Error(f"{what} is no bit-field of an integer of that width")
        # gcc packs bit-fields of any type, but other members only if they have an alignment
        packed = member.packed and (shape.align > 1 or width is not None)
        return abi.Field(member.name, shape, width, packed, member.aligned, member.type.is_block)

    def shape(self, of: CType, what: str) -> Shape:
        """The shape of a type. Raises Error if it has no size."""
        if of.shape is None:
            named = self.table[of.number].name_with_tag if of.number else "void"
            raise Error(f"{what}: its type {named or 'of a function'} has no size; define it first")
        return of.shape

    def _declaration(self, word: str, name: str) -> CType:
        """The struct, union or enum of a name; a new forward if there is none."""
        if name and f"{word} {name}" in self._named:
            return self._named[f"{word} {name}"]
        made = CType(self.table.add(Record("forward", name, tag=word)))
        return self._name(f"{word} {name}", made) if name else made

    def _name(self, name: str, made: CType) -> CType:
        self._named[name] = made
        return made

    def _with_shape_of(self, record: Record, of: CType) -> CType:
        """The type of a record, with the shape of another type."""
        known = self._made.get(record)
        if known is None:
            known = self._made[record] = CType(self.table.add(record), like=of)
        return known

    def _once(self, record: Record, shape: Optional[Shape], is_block: bool = False) -> CType:
        """The type of a record, created once."""
        known = self._made.get(record)
        if known is None:
            known = self._made[record] = CType(self.table.add(record), shape, is_block)
        return known

    # Results.

    @property
    def losses(self) -> List[str]:
        """One line for each construct that CTF cannot represent, with what replaces it."""
        return fit_to_ctf(self.table).losses

    def dictionary(self, session: Session) -> Dictionary:
        """All types as a dictionary of the service, with these offsets and sizes."""
        return open_table(session, fit_to_ctf(self.table))


def declare(text: str, model: Model = "lp64", into: Optional[Types] = None) -> Types:
    """The types that C declarations define, added to `into` if given.

    The text must be preprocessed: no macros and no #include. Needs pycparser.
    """
    from .declarations import read

    return read(text, into or Types(model))
