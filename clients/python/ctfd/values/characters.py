"""Text in a program's memory, as gdb prints it."""
from __future__ import annotations

from typing import Callable, List, NamedTuple, Optional, Tuple

from .quoting import quote

STEP = 64

# The bytes at an address, or None if one of them cannot be read.
ReadAll = Callable[[int, int], Optional[bytes]]


class TextStyle(NamedTuple):
    """How a text is printed: at most `limit` characters of `size` bytes, with more than `repeats`
    equal ones counted, and `before` in front of the quotes."""

    limit: int
    repeats: int
    size: int = 1
    before: str = ""


def string(read: ReadAll, address: int, wanted: TextStyle) -> str:
    """The text at an address in quotes, or an error text as gdb's."""
    codes, lost = _codes(read, address, wanted)
    if lost is not None and not codes:
        return f"<error: Cannot access memory at address 0x{lost:x}>"
    limit = wanted.limit
    ends = 0 in codes
    text = codes[:codes.index(0)] if ends else codes
    more = len(text) > limit or (not ends and lost is None)
    told = quote(text[:limit], limit, wanted.repeats, more, wanted.before)
    if lost is None or ends or len(text) >= limit:
        return told
    return f"{told}<error: Cannot access memory at address 0x{lost:x}>"


def _codes(read: ReadAll, address: int, wanted: TextStyle) -> Tuple[List[int], Optional[int]]:
    """Characters up to a zero or one past the limit, and the first address that cannot be read."""
    data = b""
    codes: List[int] = []
    size = wanted.size
    while len(codes) <= wanted.limit and 0 not in codes:
        at = address + len(data)
        piece = read(at, STEP - at % STEP)
        if piece is None:
            return codes, at
        data += piece
        whole = len(data) // size * size
        codes = [int.from_bytes(data[n:n + size], "little") for n in range(0, whole, size)]
    return codes, None
