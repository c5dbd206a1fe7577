"""The memory, registers and names of the program that gdb debugs."""
from __future__ import annotations

import contextlib
from typing import Optional, Sequence

import gdb

import ctfd
from ..client.model import Model, of_pointers
from ..files import source
from ..values import characters
from ..values.characters import TextStyle
from ..values.operands import BadExpression, Operand, Untold

from .loaded import LoadedFile

NO_TYPES = "No types are loaded.  Use the \"ctf load\" command."
PAGE = 4096


def pointer_size() -> int:
    """The size of a pointer in bytes, in the program or else in gdb's current architecture."""
    return int(gdb.lookup_type("void").pointer().sizeof)


def has_program() -> bool:
    """Whether gdb's architecture is that of a program, or one that the user has set. Otherwise it
    is gdb's default, which has 32 bits on some machines of 64."""
    return bool(gdb.current_progspace().filename or gdb.selected_inferior().pid
                or gdb.parameter("architecture") != "auto")


def model_of_program() -> Model:
    """The data model of the program, or lp64 without one."""
    if not has_program():
        return "lp64"
    size = pointer_size()
    found = of_pointers(size)
    if found is None:
        raise BadExpression(f"the program has pointers of {size} bytes, and only 8 and 4 are known")
    return found


class Inferior:
    """gdb's selected inferior. Look-ups search the loaded files in order."""

    def __init__(self, loaded: Sequence[LoadedFile]) -> None:
        self.loaded = loaded

    def read(self, address: int, length: int) -> bytes:
        """The bytes at an address, as many as can be read."""
        if not length:
            return b""
        data = _memory(address, length)
        if data is None:
            data = _pages(address, length)
        if not data:
            raise BadExpression(f"Cannot access memory at address 0x{address:x}")
        return data

    def register(self, name: str) -> int:
        """The value of a register or another of gdb's variables, as a number."""
        try:
            value = gdb.parse_and_eval(f"${name}")
            if value.type.code == gdb.TYPE_CODE_VOID:
                raise BadExpression(f"Invalid register or convenience variable \"${name}\".")
            return int(value) & (1 << 8 * pointer_size()) - 1
        except gdb.error as error:
            raise BadExpression(str(error)) from None

    def symbol(self, name: str) -> Operand:
        """The operand that a name stands for; if no file has its type, with gdb's address."""
        for one in self.loaded:
            if name in one.program.symbols:
                with contextlib.suppress(ctfd.NotFound):
                    return one.symbol(name)
        try:
            address = int(gdb.parse_and_eval(f"(unsigned long) &'{name}'"))
        except gdb.error:
            raise BadExpression(f"No symbol \"{name}\" in current context, and none whose type the"
                                " loaded files tell.") from None
        return Untold(name, address, self._why_untold())

    def _why_untold(self) -> str:
        """Why a name that gdb knows has no type."""
        for one in self.loaded:
            how, path = one.program.types.how, one.program.path
            if how == "unread":
                return f"the symbol table of {path} is one of 32 bits, which is not read"
            if how in ("differs", "stripped"):
                return f"{path}: {source.WARNINGS[how]}"
        return "no dictionary has its type"

    def find(self, name: str) -> ctfd.Type:
        """The type of a name, from the first file that has it."""
        refused: Optional[ctfd.Refused] = None
        for one in self.loaded:
            try:
                return one.program.types.find(name)
            except ctfd.Refused as fault:
                refused = refused or fault
        raise refused or BadExpression(NO_TYPES)

    def label(self, address: int, is_code: bool = False) -> str:
        """The symbol at an address as `<main+4>`, or ""; also "" for data if `print symbol` is
        off."""
        if not is_code and not gdb.parameter("print symbol"):
            return ""
        return gdb.format_address(address).partition(" ")[2]

    def string(self, address: int, limit: int, size: int = 1, before: str = "") -> str:
        """The text at an address, as gdb prints it. Its characters have `size` bytes."""
        wanted = TextStyle(limit, gdb.parameter("print repeats") or 0, size, before)
        return characters.string(_memory, address, wanted)


def _memory(address: int, length: int) -> Optional[bytes]:
    """The bytes at an address, or None if one of them cannot be read."""
    try:
        return bytes(gdb.selected_inferior().read_memory(address, length))
    except (gdb.MemoryError, OverflowError):
        return None
    except gdb.error as error:
        raise BadExpression(str(error)) from None


def _pages(address: int, length: int) -> bytes:
    """The bytes before the first page that cannot be read."""
    data = b""
    while len(data) < length:
        at = address + len(data)
        piece = _memory(at, min(length - len(data), PAGE - at % PAGE))
        if piece is None:
            break
        data += piece
    return data
