"""Values as gdb prints them: text in quotes, flags of enums by name, symbols after pointers."""
from __future__ import annotations

from dataclasses import dataclass
from typing import Callable, List, Optional, Protocol, Sequence

from ..text import printable
from ..client.types import Enumerator, Type
from . import floats, spelling
from .parse import CHARACTER, Characters, Leaf, Lost, Parts, Value, is_character
from .quoting import DOTS, one, prefix, quote

SIGNED, BOOLEAN = 1, 4
EXTENDED_BITS = 80
LOST = {"Incomplete": "incomplete type", "ShortMemory": "not read", "cut": "cut"}


class Texts(Protocol):
    """Symbols and text at addresses, which a formatter asks for."""

    def label(self, address: int, is_code: bool = False) -> str:
        """The symbol at an address as `<main+4>`, or "". An implementation may omit data
        symbols."""

    def string(self, address: int, limit: int, size: int = 1, before: str = "") -> str:
        """The text at an address in quotes, or an error text.

        Its characters have `size` bytes, and `before` is put in front of the quotes.
        """


@dataclass(frozen=True)
class Style:
    """gdb's settings: `print elements`, `print repeats`, `print max-depth` and the format /x.

    With `repeats` 0, no repetitions are counted.
    """

    elements: int = 200
    repeats: int = 10
    deepest: int = 20
    hexadecimal: bool = False


@dataclass(frozen=True)
class Formatter:
    """Formats values in one style."""

    texts: Texts
    style: Style = Style()

    def top(self, t: Type, value: Value, at: Optional[int] = None) -> str:
        """A value by itself, at address `at`; a pointer has its type in front."""
        pointer = t.stripped
        plain = pointer.kind == "pointer" and is_text(pointer.reference)
        if t.resolved.kind == "pointer" and not plain and not self.style.hexadecimal:
            return f"({spelling.of_type(t)}) {self.value(t, value, at)}"
        return self.value(t, value, at)

    def value(self, t: Type, value: Value, at: Optional[int] = None, depth: int = 0) -> str:
        """A value of type `t`, inside `depth` other values."""
        resolved = t.resolved
        if isinstance(value, Lost):
            return f"<{LOST.get(value.why, value.why)}>"
        if isinstance(value, Leaf):
            return self._leaf(t, resolved, value)
        if depth >= self.style.deepest and not self._is_string(resolved, value):
            return "{...}"
        if isinstance(value, Characters):
            return self._characters(value, at)
        aggregate = resolved.kind in ("struct", "union")
        return (self._aggregate if aggregate else self._array)(resolved, value, at, depth)

    def _is_string(self, t: Type, value: Value) -> bool:
        """Whether a value is printed as text, which the depth does not limit."""
        if isinstance(value, Characters):
            return value.total > 0
        return t.kind == "array" and prefix(t.contents) is not None and t.count > 0

    def _aggregate(self, t: Type, value: Parts, at: Optional[int], depth: int) -> str:
        """All members. Those of an unnamed member have the same depth."""
        told: List[str] = []
        for member, held in zip(t.members, value.items):
            place = None if at is None else at + member.offset // 8
            if member.name:
                inner = self.value(member.type, held, place, depth + 1)
                told.append(f"{printable(member.name)} = {inner}")
            elif isinstance(held, Parts):
                told.append(self._aggregate(member.type.resolved, held, place, depth))
            else:
                told.append(self.value(member.type, held, place, depth + 1))
        return "{" + (", ".join(told) or "<No data fields>") + "}"

    def _array(self, t: Type, value: Parts, at: Optional[int], depth: int) -> str:
        wide = prefix(t.contents)
        size = t.contents.size or 0
        if not value.total:
            return "{}" if at is None else self._address(at)
        if wide is not None and not self.style.hexadecimal:
            codes = [_code(item, size) for item in value.items]
            return self._quote(codes, value.total, wide)

        def text_of(number: int) -> str:
            place = None if at is None else at + number * size
            return self.value(t.contents, value.items[number], place, depth + 1)

        return self._elements(value.items, value.total, text_of)

    def _elements(self, items: Sequence[object], total: int, told: Callable[[int], str]) -> str:
        """The elements up to the limit; repeated ones once, with a count."""
        repeats = self.style.repeats
        listed: List[str] = []
        at = printed = 0
        while at < len(items) and printed < self.style.elements:
            end = at + 1
            while repeats and end < len(items) and items[end] == items[at]:
                end += 1
            many = bool(repeats) and end - at > repeats
            listed.append(told(at) + (f" <repeats {end - at} times>" if many else ""))
            printed += repeats if many else 1
            at = end if many else at + 1
        return "{" + ", ".join(listed) + (DOTS if at < total else "") + "}"

    def _characters(self, value: Characters, at: Optional[int]) -> str:
        if not value.total and at is not None:
            return self._address(at) if self.style.hexadecimal else self._text(at)
        if self.style.hexadecimal:
            return self._elements(value.data, value.total, lambda n: f"0x{value.data[n]:x}")
        return self._quote(value.data, value.total, "")

    def _quote(self, codes: Sequence[int], total: int, before: str) -> str:
        """A text; if it is complete, without the zero at its end."""
        whole = len(codes) == total
        if whole and codes and codes[-1] == 0:
            codes = codes[:-1]
        return quote(codes, self.style.elements, self.style.repeats, not whole, before)

    def _leaf(self, t: Type, resolved: Type, value: Leaf) -> str:
        kind = resolved.kind
        if kind == "pointer":
            return self._pointer(resolved, int(value.text, 16))
        if kind == "integer":
            return self._integer(t, resolved, value.text)
        if kind == "enum":
            return self._enum(resolved, value.text)
        if kind == "float" and value.text.startswith("0x"):
            return self._float(resolved, value.text)
        return value.text

    def _float(self, t: Type, shown: str) -> str:
        if self.style.hexadecimal:
            kept = EXTENDED_BITS if t.encoding.flags == floats.EXTENDED else 8 * (t.size or 0)
            return hex(int(shown, 16) & (1 << kept) - 1)
        return floats.number(bytes.fromhex(shown[2:])[::-1], t.encoding)

    def _pointer(self, t: Type, address: int) -> str:
        if not address or self.style.hexadecimal:
            return f"0x{address:x}"
        wide = prefix(t.reference)
        if wide is not None:
            return self._text(address, t.reference.size or 1, wide)
        target = t.reference.resolved
        if is_character(target):
            return self._text(address)
        return self._address(address, target.kind == "function")

    def _text(self, address: int, size: int = 1, before: str = "") -> str:
        """An address, and the text there."""
        text = self.texts.string(address, self.style.elements, size, before)
        return f"{self._address(address)} {text}"

    def _address(self, address: int, is_code: bool = False) -> str:
        """An address, with the symbol that it is in."""
        return f"0x{address:x} {self.texts.label(address, is_code)}".rstrip()

    def _integer(self, t: Type, resolved: Type, shown: str) -> str:
        if shown == "void":
            return shown
        flags, _, bits = resolved.encoding
        number = int(shown, 0)
        if shown.startswith("0x") and flags & SIGNED and number >> bits - 1:
            number -= 1 << bits
        if self.style.hexadecimal:
            return hex(number & (1 << 8 * (resolved.size or 0)) - 1)
        if flags & BOOLEAN and number in (0, 1):
            return "true" if number else "false"
        wide = prefix(t)
        if wide is not None:
            return f"{number} {one(number & (1 << 8 * (resolved.size or 0)) - 1, wide)}"
        if flags & CHARACTER and resolved.size == 1:
            return f"{number} {one(number & 255)}"
        return str(number)

    def _enum(self, t: Type, shown: str) -> str:
        if self.style.hexadecimal:
            named = {name: number for name, number in t.enumerators}
            number = named[shown] if shown in named else int(shown, 0)
            return hex(number & (1 << 8 * (t.size or 4)) - 1)
        if shown.lstrip("-").isdigit():
            return flags_of(t.enumerators, int(shown))
        return printable(shown)


def _code(value: Value, size: int) -> int:
    """The bits of a wide character as a number; 0 if it cannot be read."""
    shown = value.text if isinstance(value, Leaf) else "0"
    return int(shown) & (1 << 8 * size) - 1 if shown != "void" else 0


def is_text(t: Type) -> bool:
    """Whether a pointer to this type is printed as text, without its type."""
    return t.stripped.name == "char" or prefix(t) is not None


def flags_of(enumerators: List[Enumerator], number: int) -> str:
    """A number that is no enumerator, as the flags that it consists of.

    Only for an enum whose values are single bits or 0; otherwise, the number.
    """
    told: List[str] = []
    left = number
    for name, bits in enumerators:
        if bits < 0 or bits & bits - 1:
            return str(number)
        if bits & left:
            told.append(printable(name))
            left &= ~bits
    if left < 0 or number == 0:
        return str(number)
    if left:
        told.append(f"unknown: 0x{left:x}")
    return f"({' | '.join(told)})"

