"""The output of `ctfd-convert --bundle`: a line of JSON, followed by the lists whose lengths it
gives. The manual page describes it."""
from __future__ import annotations

import json
from itertools import accumulate
from typing import List, NamedTuple, Optional, Sequence

from ..client.model import Model
from .source import Source


# The first bytes of CTF version 2, the flags of an uncompressed section, and the beginnings of
# labels that name a data model or a symbol table.
PLAIN, UNCOMPRESSED = b"\xf1\xcf\2", (b"\0",)
NAMED = (b"ctfd.model=", b"ctfd.symbols=names,")


class Symbol(NamedTuple):
    """A function or an object: its number in the symbol table, and its address in the file."""

    name: str
    number: int
    address: int
    is_function: bool


class Bundle(NamedTuple):
    """The dictionaries of a file, the parent first if there are several, and the symbols of the
    first.

    `is_made` is true if they were converted. `losses` lists what CTF cannot represent, and
    `is_alone` is true if no other file contributed.
    """

    sources: Sequence[Source]
    symbols: Sequence[Symbol] = ()
    is_made: bool = False
    losses: Sequence[str] = ()
    is_alone: bool = True


class Description(NamedTuple):
    """An ELF file. `kind` is object, program, library, core or other. `entry` is the entry point,
    and `text` the address of the code."""

    kind: str
    model: Model
    entry: int
    text: Optional[int]
    build_id: str
    has_ctf: bool
    has_debug: bool

    @property
    def is_fixed(self) -> bool:
        """Whether the file is a program that runs at the addresses in the file."""
        return self.kind == "program"


def parse_bundle(data: bytes) -> Bundle:
    """The bundle in the command's output."""
    end = data.index(b"\n") + 1
    head = json.loads(data[:end])
    places = list(accumulate(head["lists"], initial=end))

    def list_at(place: Optional[int]) -> Optional[bytes]:
        return None if place is None else data[places[place]:places[place + 1]]

    sources: List[Source] = []
    symbols: List[Symbol] = []
    for one in head["dictionaries"]:
        sources.append(Source(list_at(one["ctf"]) or b"", list_at(one["symbols"]),
                              list_at(one["strings"]), one["how"], one["model"], one["label"]))
        addresses = list_at(one.get("addresses"))
        if addresses is not None and len(sources) == 1:
            symbols = [Symbol(*symbol) for symbol in json.loads(addresses)]
    return Bundle(sources, symbols, head["made"], head["losses"], head["alone"])


def plain_bundle(path: str) -> Optional[Bundle]:
    """A dictionary that can be opened without the command: not compressed, and no label names a
    data model or a symbol table. None for any other file."""
    try:
        with open(path, "rb") as file:
            data = file.read()
    except (OSError, ValueError):
        return None
    if data[:3] != PLAIN or data[3:4] not in UNCOMPRESSED or any(word in data for word in NAMED):
        return None
    return Bundle([Source(data)])


def parse_description(data: bytes) -> Optional[Description]:
    """The description of an ELF file, or None for other files."""
    found = json.loads(data)
    return found and Description(**found)
