"""Names in their three forms: bytes in a dictionary, escaped text in the protocol, `str` in Python.

A `str` keeps every byte of a name: valid UTF-8 is decoded, and each other byte becomes a lone
surrogate, as in Python's file names. `raw` gives the bytes back. `printable` escapes a name for a
terminal: names come from files that may be hostile.
"""
from __future__ import annotations

import re
from typing import Union

Name = Union[str, bytes]

_ESCAPE = re.compile(r"\\x([0-9a-f]{2})")
_PLAIN = re.compile(rb"[ -!#-\[\]-~]*\Z")


def unescape(text: str) -> bytes:
    """The bytes of a name, unescaped from a reply."""
    if "\\" not in text:
        return text.encode("ascii")
    return _ESCAPE.sub(lambda found: chr(int(found[1], 16)), text).encode("latin-1")


def escape(name: Name) -> str:
    """A name escaped for a request: each byte that is not plain becomes `\\x` and two digits."""
    data = raw(name)
    if _PLAIN.match(data):
        return data.decode("ascii")
    return "".join(chr(byte) if _is_plain(byte) else f"\\x{byte:02x}" for byte in data)


def _is_plain(byte: int) -> bool:
    return 0x20 <= byte <= 0x7E and byte not in b'"\\'


def name(text: str) -> str:
    """A name from a reply as a `str`; no byte is lost."""
    if "\\" not in text:
        return text
    return decoded(unescape(text))


def decoded(data: bytes) -> str:
    """The bytes of a name as a `str`; no byte is lost."""
    return data.decode("utf-8", "surrogateescape")


def raw(name: Name) -> bytes:
    """The bytes of a name."""
    return name if isinstance(name, bytes) else name.encode("utf-8", "surrogateescape")


def printable(name: str) -> str:
    """A name that is safe to print on a terminal: other characters become escapes of their
    bytes."""
    if name.isprintable():
        return name
    return "".join(c if c.isprintable() else _escape(c) for c in name)


def _escape(character: str) -> str:
    return "".join(f"\\x{byte:02x}" for byte in raw(character))
