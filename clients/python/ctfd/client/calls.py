"""The functions of libctfd.so, as ctfd.h declares them, called through ctypes.

A call holds the interpreter lock, so threads take turns, and an exception such as Ctrl-C comes
before or after a call.
"""
from __future__ import annotations

import ctypes
import struct
from typing import Any, Callable, Dict, List

from .faults import Gone

U8, U16, U32, U64 = ctypes.c_uint8, ctypes.c_uint16, ctypes.c_uint32, ctypes.c_uint64
I32, SIZE, FLAG, TEXT = ctypes.c_int32, ctypes.c_size_t, ctypes.c_bool, ctypes.c_char_p
Call = Callable[..., int]


class Handle(ctypes.Structure):
    """struct ctfd: a handle."""

    _fields_ = [("full", FLAG), ("at", ctypes.c_void_p)]


class Encoding(ctypes.Structure):
    """struct ctfd_encoding."""

    _fields_ = [("encoding", U32), ("offset", U32), ("bits", U32)]


class Array(ctypes.Structure):
    """struct ctfd_array."""

    _fields_ = [("count", U32), ("contents", U16), ("index", U16)]


class Function(ctypes.Structure):
    """struct ctfd_function."""

    _fields_ = [("arguments", U64), ("varargs", U32), ("ret", U16)]


# The kinds, by number.
KINDS = ("unknown", "integer", "float", "pointer", "array", "function", "struct", "union", "enum",
         "forward", "typedef", "volatile", "const", "restrict")

# Layouts of rows in memory.
TYPE_ROW = 72
MEMBER_ROW = struct.Struct("<QQIH2x")  # offset, name offset, name's list, type
ENUMERATOR_ROW = struct.Struct("<QIi")  # name offset, name's list, value
LABEL_ROW = struct.Struct("<QII")  # name offset, name's list, last type

_HANDLE = ctypes.POINTER(Handle)
_ROWS = ctypes.POINTER(ctypes.c_char)
_LIST = [ctypes.c_void_p, SIZE]
_SAID = [_ROWS, SIZE, ctypes.POINTER(U64)]
_NAME = [TEXT, SIZE]
_ADDED = [_HANDLE, *_NAME, FLAG]

# The parameters of each function. The last ones are pointers to results.
_DECLARED: Dict[str, List[Any]] = {
    "open": [_HANDLE, *_LIST, *_LIST, *_LIST, FLAG, FLAG, FLAG, ctypes.POINTER(U64)],
    "import": [_HANDLE, _HANDLE, ctypes.POINTER(U64)],
    "count": [_HANDLE, ctypes.POINTER(U64)],
    "child": [_HANDLE, ctypes.POINTER(U32)],
    "parent_count": [_HANDLE, ctypes.POINTER(U64)],
    "model": [_HANDLE, ctypes.POINTER(U32)],
    "parent_name": [_HANDLE, *_SAID],
    "parent_label": [_HANDLE, *_SAID],
    "labels": [_HANDLE, SIZE, _ROWS, SIZE, ctypes.POINTER(U64)],
    "label_last": [_HANDLE, *_NAME, ctypes.POINTER(U32)],
    "kind": [_HANDLE, U16, ctypes.POINTER(U32)],
    "tag": [_HANDLE, U16, ctypes.POINTER(U32)],
    "encoding": [_HANDLE, U16, ctypes.POINTER(Encoding)],
    "array": [_HANDLE, U16, ctypes.POINTER(Array)],
    "length": [_HANDLE, U16, ctypes.POINTER(U64)],
    "return": [_HANDLE, U16, ctypes.POINTER(U16)],
    "arguments": [_HANDLE, U16, SIZE, _ROWS, SIZE, ctypes.POINTER(U64)],
    "reference": [_HANDLE, U16, ctypes.POINTER(U16)],
    "resolve": [_HANDLE, U16, ctypes.POINTER(U16)],
    "size": [_HANDLE, U16, ctypes.POINTER(U64)],
    "align": [_HANDLE, U16, ctypes.POINTER(U64)],
    "pointer": [_HANDLE, U16, ctypes.POINTER(U16)],
    "find": [_HANDLE, *_NAME, ctypes.POINTER(U16)],
    "path": [_HANDLE, U16, *_NAME, ctypes.POINTER(U64), ctypes.POINTER(U16), ctypes.POINTER(U64)],
    "name": [_HANDLE, U16, *_SAID],
    "show": [_HANDLE, U16, TEXT, SIZE, U64, *_SAID],
    "symbol": [_HANDLE, *_NAME, ctypes.POINTER(U32)],
    "object": [_HANDLE, U32, ctypes.POINTER(U16)],
    "function": [_HANDLE, U32, ctypes.POINTER(Function)],
    "function_arguments": [_HANDLE, U32, SIZE, _ROWS, SIZE, ctypes.POINTER(U64)],
    "types": [_HANDLE, SIZE, _ROWS, SIZE, ctypes.POINTER(U64)],
    "members": [_HANDLE, U16, SIZE, _ROWS, SIZE, ctypes.POINTER(U64)],
    "enumerators": [_HANDLE, U16, SIZE, _ROWS, SIZE, ctypes.POINTER(U64)],
    "create": [_HANDLE, FLAG, ctypes.POINTER(U64)],
    "create_child": [_HANDLE, _HANDLE, *_NAME, *_NAME, ctypes.POINTER(U64)],
    "add_integer": [*_ADDED, U8, U8, U16, U64, ctypes.POINTER(U16)],
    "add_float": [*_ADDED, U8, U8, U16, U64, ctypes.POINTER(U16)],
    **dict.fromkeys(("add_pointer", "add_typedef", "add_volatile", "add_const", "add_restrict"),
                    [*_ADDED, U16, ctypes.POINTER(U16)]),
    "add_array": [*_ADDED, U16, U16, U32, ctypes.POINTER(U16)],
    "add_function": [*_ADDED, U16, ctypes.POINTER(U16), SIZE, ctypes.POINTER(U16)],
    **dict.fromkeys(("add_struct", "add_union", "add_enum"),
                    [*_ADDED, U64, ctypes.POINTER(U16)]),
    "add_forward": [*_ADDED, U32, ctypes.POINTER(U16)],
    "add_unknown": [*_ADDED, ctypes.POINTER(U16)],
    "add_member": [_HANDLE, U16, *_NAME, U16, FLAG, U64, ctypes.POINTER(U64)],
    "add_enumerator": [_HANDLE, U16, *_NAME, I32],
    "add_label": [_HANDLE, *_NAME, U32],
    "update": [_HANDLE, ctypes.POINTER(U64), ctypes.POINTER(U64)],
    "discard": [_HANDLE, ctypes.POINTER(U64)],
    "bytes": [_HANDLE, U64, *_SAID],
}


class Calls:
    """A loaded library: `calls["size"]` is its `ctfd_size`. Raises Gone if the file is not a
    library of this version."""

    def __init__(self, path: str) -> None:
        self.path = path
        try:
            self._library = ctypes.PyDLL(path)
            self._close: Any = self._library.ctfd_close
            self._calls = {word: self._declare(word, takes)
                           for word, takes in _DECLARED.items()}
        except (OSError, AttributeError) as error:
            raise Gone(f"{path} is no libctfd of this client: name the libctfd.so that `make`"
                       " builds, or none") from error
        self._close.argtypes, self._close.restype = [_HANDLE], None

    def _declare(self, word: str, takes: List[Any]) -> Call:
        call = getattr(self._library, f"ctfd_{word}")
        call.argtypes, call.restype = takes, ctypes.c_uint
        found: Call = call
        return found

    def __getitem__(self, word: str) -> Call:
        return self._calls[word]

    def close(self, handle: Handle) -> None:
        """Closes a handle."""
        self._close(handle)


def room(length: int) -> Any:
    """A buffer of at least one byte, for a call to write to."""
    return (ctypes.c_char * max(1, length))()
