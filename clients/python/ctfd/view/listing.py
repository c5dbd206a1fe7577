"""Definitions of types in C, with offsets, sizes and holes as pahole prints them."""
from __future__ import annotations

from typing import List, Optional

from ..text import printable
from ..client.types import Type
from ..layout.places import Layout, Place, gathered_layout, layout
from .declare import Declarator, base, declaration, declarator

LINE = 64
TYPE, NAME, TAB = 26, 22, 8
DEEPEST, LONGEST = 64, 20_000
AGGREGATES = ("struct", "union")


def definition(listed: Type, is_expanded: bool = False) -> str:
    """The C definition of a type, without offsets."""
    return "\n".join(Listing(False, LINE, is_expanded).definition(listed))


def listing(listed: Type, cache_line: int = LINE, is_expanded: bool = False,
            is_hexadecimal: bool = False) -> str:
    """The C definition of a type, with the offset and size of each member in bytes, as pahole
    prints it.

    With `is_expanded`, structs and unions that it contains by value are written in place.
    """
    return "\n".join(Listing(True, cache_line, is_expanded, is_hexadecimal).definition(listed))


class Listing:
    """The lines of one type, from top to bottom. `line` is the number of the last cache line noted.

    Structs and unions without a name are written at the member that has them. Depth and the number
    of lines are limited: a hostile type doubles at each level.
    """

    def __init__(self, places: bool, cache_line: int = LINE, is_expanded: bool = False,
                 is_hexadecimal: bool = False) -> None:
        self.places = places
        self.is_hexadecimal = is_hexadecimal
        self.cache_line = cache_line
        self.is_expanded = is_expanded
        self.line = 0
        self.lines: List[str] = []

    def definition(self, listed: Type) -> List[str]:
        """All lines of a type."""
        if listed.kind in AGGREGATES:
            whole = layout(listed)
            self.lines.append(f"{base(listed) if listed.name else listed.kind} {{")
            self._members(whole, 1, 0)
            if self.places and listed.kind == "struct":
                self._summary(whole)
            self.lines.append("};")
        elif listed.kind == "enum":
            self._enumerators(listed)
        elif listed.kind == "typedef":
            self.lines.append(f"typedef {declaration(listed.reference, listed.name)};")
        else:
            self.lines.append(f"{declaration(listed)};")
        return self.lines

    def lines_in_order(self, places: List[Place]) -> List[str]:
        """The lines of some members, in this order."""
        self._members(Layout(0, places, 0), 1, 0)
        return self.lines

    def _enumerators(self, listed: Type) -> None:
        self.lines.append(f"{base(listed) if listed.name else 'enum'} {{")
        listed_width = max((len(printable(e.name)) for e in listed.enumerators), default=0)
        for name, value in listed.enumerators:
            self.lines.append(f"\t{printable(name):<{listed_width}} = {self._number(value, 0)},")
        self.lines.append("};")

    def _members(self, whole: Layout, depth: int, start: int) -> None:
        """The members of a struct or union that begins at byte `start`."""
        for place in whole.places:
            if self.places:
                self._gap(place, depth)
                self._boundary(start + place.start // 8, depth)
            said = declarator(place.member.type)
            inner = self._expanded_type(said)
            if inner is not None and depth < DEEPEST and len(self.lines) < LONGEST:
                self._inner(place, said, inner, depth, start)
            else:
                self._member(place, said, depth, start)

    def _expanded_type(self, said: Declarator) -> Optional[Type]:
        """The struct or union that is written in place: an unnamed one, or with `is_expanded` any
        that is contained by value; else None."""
        if said.base.kind in AGGREGATES and not said.base.name:
            return said.base
        if self.is_expanded and "*" not in said.left:
            held = said.base.resolved
            return held if held.kind in AGGREGATES else None
        return None

    def _inner(self, place: Place, said: Declarator, inner: Type, depth: int, start: int) -> None:
        """A member whose struct or union is written in place."""
        renamed = [] if inner == said.base else [f"/* typedef {base(said.base)} */"]
        head = [*renamed, *said.qualifiers, base(inner) if inner.name else inner.kind, "{"]
        self.lines.append("\t" * depth + " ".join(head))
        begins = 0 if "*" in said.left else start + place.member.offset // 8  # or elsewhere
        whole = gathered_layout(inner) if "*" not in said.left else layout(inner)
        self._members(whole, depth + 1, begins)
        name = said.left + printable(place.member.name) + said.right
        self._line(f"}} {name};" if name else "};", place, depth, start)

    def _member(self, place: Place, said: Declarator, depth: int, start: int) -> None:
        """One member: its type in a column, its name, and its offset and size."""
        cut = said.left.find("(")
        outer, declared = (said.left, "") if cut < 0 else (said.left[:cut], said.left[cut:])
        declared += printable(place.member.name) + said.right
        if place.width is not None:
            declared += f":{place.width}"
        spelled = f"{said.spelled} {outer}".rstrip()
        if not self.places:
            glue = "" if outer.endswith("*") else " "
            self.lines.append("\t" * depth + f"{spelled}{glue}{declared}".rstrip() + ";")
            return
        column = max(0, TYPE - TAB * (depth - 1))
        self._line(f"{spelled:<{column}} {declared}".rstrip() + ";", place, depth, start)

    def _line(self, written: str, place: Place, depth: int, start: int) -> None:
        if not self.places:
            self.lines.append("\t" * depth + written)
            return
        column = max(0, TYPE - TAB * (depth - 1)) + 1 + NAME
        size = place.member.type.size
        byte = start + place.start // 8
        if place.width is None:
            bytes_of = "    ?" if size is None else self._number(size, 5)
            lies = f"/* {self._number(byte, 5)} {bytes_of} */"
        else:
            unit = 8 * (size or 1)
            first, bit = divmod(place.start, unit)
            begins = start + first * unit // 8
            lies = (f"/* {self._number(begins, 5)}:{self._number(bit, 2)}"
                    f" {self._number(size or 0, 2)} */")
        self.lines.append("\t" * depth + f"{written:<{column - 1}} {lies}")

    def _number(self, number: int, width: int) -> str:
        """An offset, a size or a value, as pahole writes it: 0 is "0" also in hexadecimal."""
        written = f"{number:#x}" if self.is_hexadecimal and number else str(number)
        return written.rjust(width)

    def _gap(self, place: Place, depth: int) -> None:
        told = [(place.bit_hole, "bit"), (place.hole, "byte")]
        for length, unit in told:
            if length:
                plural = "s" if length > 1 else ""
                hole = "\t" * depth + f"/* XXX {length} {unit}{plural} hole, try to pack */"
                self.lines += ["", hole, ""]

    def _boundary(self, byte: int, depth: int) -> None:
        """A note if a cache line begins at a member, or began within the last one."""
        line, past = divmod(byte, self.cache_line)
        if line > self.line:
            ago = f" was {past} byte{'s' * (past != 1)} ago" if past else ""
            told = f"/* --- cacheline {line} boundary ({byte - past} bytes){ago} --- */"
            self.lines.append("\t" * depth + told)
            self.line = line

    def _summary(self, whole: Layout) -> None:
        self.lines.append("")
        lines = -(-whole.size // self.cache_line)
        self._note(f"size: {whole.size}, cachelines: {lines}, members: {len(whole.places)}")
        holes, bit_holes = whole.holes, whole.bit_holes
        if holes:
            total = sum(place.bits for place in whole.places if place.width is None) // 8
            self._note(f"sum members: {total}, holes: {len(holes)}, sum holes: {sum(holes)}")
        if bit_holes:
            total = sum(place.width or 0 for place in whole.places)
            self._note(f"sum bitfield members: {total} bits, bit holes: {len(bit_holes)},"
                       f" sum bit holes: {sum(bit_holes)} bits")
        if whole.padding >= 8:
            self._note(f"padding: {whole.padding // 8}")
        if whole.padding % 8:
            self._note(f"bit_padding: {whole.padding % 8} bits")
        if whole.size % self.cache_line:
            self._note(f"last cacheline: {whole.size % self.cache_line} bytes")

    def _note(self, said: str) -> None:
        self.lines.append(f"\t/* {said} */")
