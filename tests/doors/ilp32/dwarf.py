"""The structs, unions and enums in a program's debug information.

It is read with readelf, so it shares nothing with tests/doors/gdb/make_ctf.py, which uses gdb.
"""
import re
import subprocess
from dataclasses import dataclass, field
from typing import Dict, List, NamedTuple, Optional, Set, Tuple

KINDS = {"structure_type": "struct", "union_type": "union", "enumeration_type": "enum"}
ALIASES = ("typedef", "const_type", "volatile_type", "restrict_type", "atomic_type")
FUNCTIONS = ("subprogram", "lexical_block", "inlined_subroutine")
ENUMERATOR = 0xFFFFFFFF  # CTF has 32 bits for an enumerator

_ENTRY = re.compile(r" <(\d+)><(\w+)>: Abbrev Number: \d+ \(DW_TAG_(\w+)\)")
_ATTRIBUTE = re.compile(
    r" +<\w+> +DW_AT_(\w+) *: (?:\(indirect (?:line )?string, offset: \w+\): )?(.*)")


class Part(NamedTuple):
    """A member with its offset and width in bits, or an enumerator with its value."""

    name: str
    at: int
    bits: Optional[int]


class Description(NamedTuple):
    """A struct, union or enum: its tag, its size in bytes, and its members or enumerators."""

    kind: str
    tag: str
    size: Optional[int]
    parts: Tuple[Part, ...]

    def __str__(self) -> str:
        listed = [f"{name} {at}" + ("" if bits is None else f" :{bits}")
                  for name, at, bits in self.parts]
        return f"{self.kind} {self.tag or '(anon)'}, {self.size} bytes: {', '.join(listed)}"


@dataclass
class Entry:
    """An entry of the debug information, with its attributes and children."""

    tag: str
    is_local: bool
    says: Dict[str, str] = field(default_factory=dict)
    inner: List["Entry"] = field(default_factory=list)

    def number(self, name: str) -> Optional[int]:
        """A numeric attribute, or None."""
        return int(self.says[name].split()[0], 0) if name in self.says else None

    @property
    def is_named(self) -> bool:
        """Whether the entry, or an enumerator in it, has a name."""
        return "name" in self.says or self.tag == "enumeration_type"

    @property
    def type(self) -> Optional[int]:
        """The offset of the entry of its type, or None."""
        return int(self.says["type"].strip("<>"), 16) if "type" in self.says else None


class Dwarf:
    """The entries of a file, by offset."""

    def __init__(self, path: str) -> None:
        self.entries: Dict[int, Entry] = {}
        command = ["readelf", "--debug-dump=info", path]
        told = subprocess.run(command, check=True, capture_output=True, text=True).stdout
        open_ones: List[Entry] = []
        for line in told.splitlines():
            begins = _ENTRY.match(line)
            if begins:
                del open_ones[int(begins[1]):]
                entry = self._entry(begins[3], open_ones)
                self.entries[int(begins[2], 16)] = entry
                open_ones.append(entry)
                continue
            says = _ATTRIBUTE.match(line)
            if says and open_ones:
                open_ones[-1].says[says[1]] = says[2].strip()

    def _entry(self, tag: str, open_ones: List[Entry]) -> Entry:
        """A new entry, inside the innermost open one."""
        outer = open_ones[-1] if open_ones else None
        entry = Entry(tag, outer is not None and (outer.is_local or outer.tag in FUNCTIONS))
        if outer:
            outer.inner.append(entry)
        return entry

    def descriptions(self) -> Tuple[Set[Description], int]:
        """All defined structs, unions and enums, and the number of those left out.

        These are the ones within functions, and those without a name that nothing refers to: gcc
        writes one beside a copy without members, to which the name of a transparent union refers.
        """
        referred = {entry.type for entry in self.entries.values()}
        full = {number: entry for number, entry in self.entries.items()
                if entry.tag in KINDS and "declaration" not in entry.says}
        kept = {self._description(entry) for number, entry in full.items()
                if not entry.is_local and (entry.is_named or number in referred)}
        left_out = {self._description(entry) for entry in full.values()} - kept
        return kept, len(left_out)

    def _description(self, entry: Entry) -> Description:
        parts = [self._enumerator(part) for part in entry.inner if part.tag == "enumerator"]
        parts += [self._member(part) for part in entry.inner if part.tag == "member"]
        tag = entry.says.get("name", "")
        return Description(KINDS[entry.tag], tag, entry.number("byte_size"), tuple(parts))

    def _enumerator(self, entry: Entry) -> Part:
        return Part(entry.says["name"], (entry.number("const_value") or 0) & ENUMERATOR, None)

    def _member(self, entry: Entry) -> Part:
        name = entry.says.get("name", "")
        width = entry.number("bit_size")
        if width is not None:
            return Part(name, entry.number("data_bit_offset") or 0, width)
        size = self._size(entry.type)
        at = 8 * (entry.number("data_member_location") or 0)
        return Part(name, at, None if size is None else 8 * size)

    def _size(self, number: Optional[int]) -> Optional[int]:
        """The size of a type in bytes, or None if it has none."""
        if number is None:
            return None
        entry = self.entries[number]
        if entry.tag in ALIASES:
            return self._size(entry.type)
        if entry.tag == "array_type" and "byte_size" not in entry.says:
            size = self._size(entry.type)
            return None if size is None else size * _count(entry)
        return entry.number("byte_size")


def _count(array: Entry) -> int:
    """The number of elements of an array, over all dimensions; 0 if unknown."""
    count = 1
    for one in array.inner:
        if one.tag == "subrange_type":
            last = one.number("upper_bound")
            count *= one.number("count") or (0 if last is None else last + 1)
    return count
