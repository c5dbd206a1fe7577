"""Writes the types of an open dictionary with GNU libctf.

With this, bench/c_library.py asks both libraries about the same types. What GNU libctf refuses,
such as a second struct of the same name that look-ups find, is left out and counted.
"""
from __future__ import annotations

import ctypes
import sys
from typing import Any, Dict, List, Tuple

import ctfd
from ctfd.client.wire import Session

LIBRARY = "libctf-nobfd.so.0"
ERROR = -1
PLAIN = 1 << 40  # no dictionary is as large, so none is compressed
FORWARDED = {"struct": 6, "union": 7, "enum": 8}
Answer = Dict[str, Any]


class Encoding(ctypes.Structure):
    _fields_ = [("format", ctypes.c_uint32), ("offset", ctypes.c_uint32), ("bits", ctypes.c_uint32)]


class Array(ctypes.Structure):
    _fields_ = [("contents", ctypes.c_long), ("index", ctypes.c_long), ("count", ctypes.c_uint32)]


class Function(ctypes.Structure):
    _fields_ = [("returns", ctypes.c_long), ("count", ctypes.c_uint32), ("flags", ctypes.c_uint32)]


class Writer:
    """A dictionary of GNU libctf, made from one of ours."""

    def __init__(self, session: Session, slot: int, count: int) -> None:
        self.gnu = ctypes.CDLL(LIBRARY)
        self.gnu.ctf_create.restype = ctypes.c_void_p
        self.file = ctypes.c_void_p(self.gnu.ctf_create(ctypes.byref(ctypes.c_int())))
        self.session, self.slot, self.refused = session, slot, 0
        self.records = {t: self.ask("record", t) for t in range(1, count + 1)}
        self.made: Dict[int, int] = {0: 0}
        self.later: List[Tuple[int, int]] = []

    def ask(self, op: str, t: int) -> Answer:
        return dict(self.session.ask(op, d=self.slot, t=t))

    def call(self, name: str, record: Answer, *words: object) -> int:
        """Adds a type by a call, and returns its number, or 0 if it was refused."""
        add = getattr(self.gnu, name)
        add.restype = ctypes.c_long
        made = int(add(self.file, ctypes.c_uint32(bool(record["root"])), *words))
        self.refused += made == ERROR
        return 0 if made == ERROR else made

    def number(self, t: int) -> int:
        """The number of a type in GNU's dictionary, to which it is added if needed."""
        if t not in self.made:
            self.made[t] = self.add(t, self.records[t])
        return self.made[t]

    def add(self, t: int, record: Answer) -> int:
        kind, name = record["kind"], record.get("name", "").encode() or None
        if kind in ("integer", "float"):
            lies = self.ask("encoding", t)
            encoding = Encoding(lies["encoding"], lies["offset"], lies["bits"])
            return self.call(f"ctf_add_{kind}", record, name, ctypes.byref(encoding))
        if kind in FORWARDED:
            return self.add_tagged(t, record, name)
        if kind == "forward":
            tag = FORWARDED[record["tag"]]
            return self.call("ctf_add_forward", record, name, ctypes.c_uint32(tag))
        if kind == "array":
            parts = self.ask("array", t)
            array = Array(self.number(parts["contents"]), self.number(parts["index"]),
                          parts["count"])
            return self.call("ctf_add_array", record, ctypes.byref(array))
        if kind == "function":
            return self.add_function(t, record)
        if kind == "unknown":
            return 0
        to = ctypes.c_long(self.number(record["type"]))
        words = (name, to) if kind == "typedef" else (to,)
        return self.call(f"ctf_add_{kind}", record, *words)

    def add_tagged(self, t: int, record: Answer, name: object) -> int:
        """Adds a struct or union, whose members are added after all types, or an enum with its
        enumerators."""
        if record["kind"] != "enum":
            made = self.call(f"ctf_add_{record['kind']}_sized", record, name,
                             ctypes.c_size_t(record["size"]))
            self.later.append((t, made))
            return made
        made = self.call("ctf_add_enum", record, name)
        for one in self.items_of("enumerators", t):
            self.gnu.ctf_add_enumerator(self.file, ctypes.c_long(made), one["name"].encode(),
                                        one["value"])
        return made

    def add_function(self, t: int, record: Answer) -> int:
        arguments = [self.number(one) for one in self.items_of("args", t)]
        varargs = bool(arguments) and arguments[-1] == 0
        count = len(arguments) - varargs
        told = Function(self.number(record["type"]), count, int(varargs))
        numbers = (ctypes.c_long * max(count, 1))(*arguments[:count])
        return self.call("ctf_add_function", record, ctypes.byref(told), numbers)

    def items_of(self, what: str, t: int) -> List[Any]:
        return list(self.ask(what, t)[what])

    def bytes(self) -> bytes:
        """The whole dictionary, as GNU libctf writes it."""
        for t in self.records:
            self.number(t)
        for t, made in self.later:
            for member in self.items_of("members", t):
                self.gnu.ctf_add_member_offset(
                    self.file, ctypes.c_long(made), member["name"].encode(),
                    ctypes.c_long(self.number(member["type"])), ctypes.c_ulong(member["offset"]))
        self.gnu.ctf_write_mem.restype = ctypes.c_void_p
        size = ctypes.c_size_t()
        at = self.gnu.ctf_write_mem(self.file, ctypes.byref(size), ctypes.c_size_t(PLAIN))
        if not at:
            raise ctfd.Error("GNU libctf writes nothing")
        return ctypes.string_at(at, size.value)


def gnu_bytes(client: ctfd.Client, ctf: bytes) -> Tuple[bytes, int]:
    """A dictionary's types as GNU libctf writes them, and the number of those that it refused."""
    sys.setrecursionlimit(10_000)
    session = client.session()
    opened = session.open(ctf)
    writer = Writer(session, opened["d"], opened["types"])
    return writer.bytes(), writer.refused
