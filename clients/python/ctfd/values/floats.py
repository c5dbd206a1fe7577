"""Floating-point numbers from their bits, with as many digits as gdb prints."""
from __future__ import annotations

import decimal
import struct
from typing import Dict, NamedTuple

from ..client.types import Encoding

LONG_DOUBLE = (10, 12, 16)


class Format(NamedTuple):
    """A binary format of IEEE 754: its bits, and the number of digits that distinguish its
    numbers."""

    packed: str
    fraction: int
    exponent: int
    digits: int


SINGLE = Format("<f", 23, 8, 9)
DOUBLE = Format("<d", 52, 11, 17)
BY_ENCODING: Dict[int, Format] = {1: SINGLE, 2: DOUBLE}
COMPLEX: Dict[int, Format] = {3: SINGLE, 4: DOUBLE}
EXTENDED = 6


def number(raw: bytes, lies: Encoding) -> str:
    """The number in some bytes, lowest byte first; in hexadecimal if the format is unknown."""
    kind = BY_ENCODING.get(lies.flags)
    if kind and len(raw) == struct.calcsize(kind.packed):
        return _ieee(raw, kind)
    parts = COMPLEX.get(lies.flags)
    if parts and len(raw) == 2 * struct.calcsize(parts.packed):
        half = len(raw) // 2
        return f"{_ieee(raw[:half], parts)} + {_ieee(raw[half:], parts)}i"
    if lies.flags == EXTENDED and len(raw) in LONG_DOUBLE:
        return _of_x87(raw)
    return f"0x{raw[::-1].hex()}"


def _ieee(raw: bytes, kind: Format) -> str:
    bits = int.from_bytes(raw, "little")
    fraction = bits & (1 << kind.fraction) - 1
    exponent = bits >> kind.fraction & (1 << kind.exponent) - 1
    if exponent == (1 << kind.exponent) - 1 and fraction:
        return f"{_sign(bits >> 8 * len(raw) - 1)}nan(0x{fraction:x})"
    return format(struct.unpack(kind.packed, raw)[0], f".{kind.digits}g")


def _of_x87(raw: bytes) -> str:
    """A number of the x87's 80 bits, which has an explicit first bit and does not fit a Python
    float."""
    significand = int.from_bytes(raw[:8], "little")
    high = int.from_bytes(raw[8:10], "little")
    sign, exponent = _sign(high >> 15), high & 0x7FFF
    if exponent == 0x7FFF:
        fraction = significand & (1 << 63) - 1
        return f"{sign}nan(0x{significand:x})" if fraction else f"{sign}inf"
    with decimal.localcontext() as context:
        context.prec, context.Emin, context.Emax = 60, -100_000, 100_000
        power = decimal.Decimal(2) ** (max(exponent, 1) - 16383 - 63)
        return sign + _general(decimal.Decimal(significand) * power, 21)


def _general(value: decimal.Decimal, digits: int) -> str:
    """A number as C's `%.*g` prints it."""
    if not value:
        return "0"
    mantissa, _, exponent = f"{value:.{digits - 1}e}".partition("e")
    power = int(exponent)
    if power < -4 or power >= digits:
        return f"{_without_zeros(mantissa)}e{'-' if power < 0 else '+'}{abs(power):02}"
    return _without_zeros(f"{value:.{digits - 1 - power}f}")


def _without_zeros(written: str) -> str:
    return written.rstrip("0").rstrip(".") if "." in written else written


def _sign(bit: int) -> str:
    return "-" if bit else ""
