"""The state between commands: the service, and the files whose types were loaded."""
from __future__ import annotations

import atexit
import os
from typing import List, Optional, Tuple

import gdb

import ctfd
from ..client.model import Model
from ..text import printable
from ..files import anyfile
from ..files.anyfile import FileOptions
from ..files.bundles import Bundle, Description
from ..files.cache import user_cache
from ..values import formats, program, reading
from ..values.operands import BadExpression
from ..values.program import Program

from .debug_files import is_elsewhere
from .inferior import Inferior, NO_TYPES, model_of_program
from .loaded import LoadedFile

REMOTE = "target:"
MOST = 65_536
DEEPEST = 64


class State:
    """The service, started with the first file, and the files in the order of look-ups."""

    def __init__(self) -> None:
        self.service: Optional[Tuple[ctfd.Service, ctfd.Session]] = None
        self.loaded: List[LoadedFile] = []
        self.follows = False
        self.is_hinted = False

    def client(self) -> ctfd.Service:
        """The service, started if needed."""
        if self.service is None:
            client = ctfd.connect()
            self.service = client, client.session()
        return self.service[0]

    def open(self, path: str, model: Optional[Model] = None) -> Program:
        """Opens the dictionary of a file. A section by itself has this model, else that of gdb's
        program.

        The service is found as by `ctfd.connect`. Without CTF, the program's debug information is
        used.
        """
        if path.startswith(REMOTE):
            local = os.path.basename(path)
            raise BadExpression(f"{path} is a file of the remote system.  Use \"remote get"
                                f" {path[len(REMOTE):]} {local}\", then \"ctf load {local}\".")
        self.client()
        assert self.service
        path = os.path.expanduser(path)
        return program.open_program(self.service[1], path, model or model_of_program(), _read)

    def close(self) -> None:
        """Ends the service, and forgets all loaded files."""
        if self.service is not None:
            self.service[0].close()
        self.service = None
        self.loaded = []

    def forget(self, gone: List[LoadedFile]) -> None:
        """Closes some files."""
        for one in gone:
            self.loaded.remove(one)
            one.close()

    def target(self) -> Inferior:
        """The program that gdb debugs, with the loaded types."""
        if not self.loaded:
            raise BadExpression(NO_TYPES)
        return Inferior(self.loaded)


def _read(path: str, image: Optional[Description]) -> Bundle:
    """The dictionaries of a file; prints a line if its debug information is used."""
    if image is not None and not image.has_ctf:
        place = " or from CTFD_STORE" if is_elsewhere(image) else ""
        print(f"Reading types from the debug information of {printable(path)}{place}...")
        gdb.flush()
    options = FileOptions(cache=user_cache, tells_losses=False, with_addresses=True)
    found = anyfile.read(path, options)
    if found.losses:
        print(f"(CTF cannot represent all of them: \"ctfd-convert {printable(path)} OUT\" lists the"
              f" {len(found.losses)} that are lost)")
    return found


STATE = State()
atexit.register(STATE.close)


def style(hexadecimal: bool = False) -> formats.Style:
    """gdb's print settings, within bounds."""
    deepest = gdb.parameter("print max-depth")
    return formats.Style(
        elements=min(gdb.parameter("print elements") or MOST, MOST),
        repeats=gdb.parameter("print repeats") or 0,
        deepest=DEEPEST if deepest is None or not 0 <= deepest <= DEEPEST else deepest,
        hexadecimal=hexadecimal)


def bounds() -> reading.Bounds:
    """The limits for reading a value."""
    return reading.Bounds(elements=style().elements)
