"""Characters and text in quotes, as gdb prints them if its charset is ASCII."""
from __future__ import annotations

from itertools import groupby
from string import hexdigits
from typing import Optional, Sequence

from ..client.types import QUALIFIERS, Type

PREFIXES = {"wchar_t": "L", "char16_t": "u", "char32_t": "U"}
WIDTHS = (1, 2, 4)
DOTS = "..."

_NAMED = {7: "\\a", 8: "\\b", 9: "\\t", 10: "\\n", 11: "\\v", 12: "\\f", 13: "\\r"}


def prefix(t: Type) -> Optional[str]:
    """The letter in front of text of a wide character type, which the typedef's name decides, or
    None."""
    if t.resolved.kind != "integer" or (t.resolved.size or 0) not in WIDTHS:
        return None
    while t.kind == "typedef" or t.kind in QUALIFIERS:
        if t.kind == "typedef" and t.name in PREFIXES:
            return PREFIXES[t.name]
        t = t.reference
    return None


def character(code: int, quote: str) -> str:
    """One character, by its code, escaped if needed."""
    if code in _NAMED:
        return _NAMED[code]
    if not 0x20 <= code < 0x7F:
        return _escape(code)
    return ("\\" if chr(code) in ("\\", quote) else "") + chr(code)


def _characters(codes: Sequence[int], is_behind_number: bool) -> str:
    """The characters of a text. A digit after a numeric escape is escaped too."""
    made = ""
    for code in codes:
        is_digit = code < 0x7F and chr(code) in hexdigits
        # gdb escapes the quote of texts everywhere
        made += f"\\{code:03o}" if is_digit and is_behind_number else character(code, '"')
        is_behind_number = code > 0o777
    return made


def _escape(code: int) -> str:
    return f"\\{code:03o}" if code <= 0o777 else f"\\x{code:x}"


def one(code: int, before: str = "") -> str:
    """A character in quotes."""
    return f"{before}'{character(code, chr(39))}'"


def quote(codes: Sequence[int], limit: int, repeats: int, more: bool = False,
          before: str = "") -> str:
    """Text in quotes. Characters that repeat more than `repeats` times are written once, with a
    count.

    It ends at the character that reaches the limit, and its repetitions. `more` says that the text
    continues after `codes`.
    """
    printed, segments, plain, is_behind_number = 0, [], "", False
    for code, group in groupby(codes):
        if printed >= limit:
            more = True
            break
        length = sum(1 for _ in group)
        printed += length
        if repeats and length > repeats:
            segments += [_quote_plain(plain, before)] if plain else []
            told = _characters([code], is_behind_number)
            segments.append(f"{before}'{told}' <repeats {length} times>")
            plain = ""
        else:
            plain += _characters([code] * length, is_behind_number)
        is_behind_number = code > 0o777
    if plain or not segments:
        segments.append(_quote_plain(plain, before))
    return ", ".join(segments) + (DOTS if more else "")


def _quote_plain(escaped: str, before: str) -> str:
    return f'{before}"{escaped}"'
