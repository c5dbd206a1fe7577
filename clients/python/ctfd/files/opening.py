"""Opens the dictionaries of files, with their parents."""
from __future__ import annotations

import contextlib
from typing import Dict, Iterator, List, Optional

from ..client.dictionary import Dictionary, open_file, open_source
from ..client.faults import BadSymbols, Error, Refused, Unreadable
from ..client.session import Session
from . import anyfile
from .anyfile import FileOptions
from .bundles import Bundle
from .source import Source

ALONE = ("a parent goes with a dictionary, and this file's types are converted first: leave the"
         " parent out, or make the dictionary by ctfd-convert (--parent makes a child)")


class Opener:
    """Opens files in one session with the user's options. A parent of several files is opened
    once."""

    def __init__(self, session: Session, asked: FileOptions = FileOptions()) -> None:
        self.session = session
        self.asked = asked
        self._parents: Dict[str, Dictionary] = {}

    def open(self, path: str, parent: Optional[str] = None) -> Dictionary:
        """The dictionary of a file, with its parent if one is named."""
        with told_of(path):
            found = anyfile.read(path, self.asked)
            if found.is_made and parent is not None:
                raise Unreadable(f"{path}: {ALONE}")
            types = self._open_bundle(found, found.sources[0], path)
        if parent is not None:
            if parent not in self._parents:
                with told_of(parent):
                    self._parents[parent] = open_file(self.session, parent, model=self.asked.model)
            with told_of(f"{parent}, as the parent of {path}"):
                types.import_parent(self._parents[parent])
        return types

    def open_all(self, path: str) -> List[Dictionary]:
        """The dictionaries of a file: one, or a parent and its children."""
        with told_of(path):
            found = anyfile.read(path, self.asked)
            made: List[Dictionary] = []
            for one in found.sources:
                part = self._open_bundle(found, one, path)
                if made:
                    part.import_parent(made[0])
                made.append(part)
            return made

    def _open_bundle(self, found: Bundle, one: Source, path: str) -> Dictionary:
        """Opens a dictionary of a file. A converted one whose symbols do not fit is opened without
        them."""
        try:
            return open_source(self.session, one)
        except BadSymbols:
            if not found.is_made:
                raise
            self.asked.warn(f"{path}: the types of its symbols do not fit its symbol table:"
                            " symbols are left out")
            return open_source(self.session, one._replace(sym=None, strings=None, how="none"))


@contextlib.contextmanager
def told_of(what: str) -> Iterator[None]:
    """A context that raises refusals of a file again, with the file's name and without the
    request."""
    try:
        yield
    except Unreadable as error:
        said = str(error)
        is_told = said.startswith(what) or f", as the parent of {what}: " in said
        raise error if is_told else Unreadable(f"{what}: {said}") from error
    except Refused as fault:
        place = f" at {fault.place}" if fault.place else ""
        raise Error(f"{what}: {fault.name}{place}: {fault.advice}") from fault
