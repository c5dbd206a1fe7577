"""Debug files for a running debugger: cached ones, and new ones from the compiled
`ctfd-debuginfo`."""
from __future__ import annotations

import os
import subprocess
import tempfile
from pathlib import Path
from typing import Callable, List, Optional

from ..client.faults import Error, Unreadable
from ..files import compiled
from ..files.bundles import Description
from ..text import printable
from . import debug_cache

NAME = "ctfd-debuginfo"
STORES = "CTFD_STORE"  # the variable that names the stores to ask


class Writer:
    """Writes debug files into the user's cache, or into a temporary folder until the debugger
    exits. `say` prints a line."""

    def __init__(self, say: Callable[[str], None]) -> None:
        self.say = say
        self._folder: Optional[tempfile.TemporaryDirectory[str]] = None

    def debug_file(self, path: str, parent: Optional[str] = None) -> Path:
        """The debug file of a program. Notes on a new one are printed. For a file whose types come
        from a store the cache is skipped, since the store may have others by now. Raises Error."""
        image = compiled.description(path)
        name = debug_cache.key(image.build_id if image else "",
                               [one for one in (path, parent) if one])
        place = self._place()
        if not (image and is_elsewhere(image)) and debug_cache.is_known(place, name):
            return place / name
        data = self._new(path, parent)
        try:
            return debug_cache.keep(place, name, data)
        except Error as error:  # as for a full disk
            return debug_cache.keep(self._temporary(error), name, data)

    def _new(self, path: str, parent: Optional[str]) -> bytes:
        """The output of the command for a program; prints its notes. Raises Unreadable."""
        command = compiled.find(NAME)
        if command is None:
            raise Unreadable(f"{path}: {compiled.missing(NAME, 'its debug file is written')}")
        words = [NAME, *([f"--parent={parent}"] if parent else []), "--", path, "-"]
        try:
            done = subprocess.run(words, executable=command, stdin=subprocess.DEVNULL,
                                  capture_output=True, check=False)
        except OSError as error:
            raise Unreadable(f"{path}: {command}: {error.strerror}") from error
        if done.returncode != 0:
            raise Unreadable(compiled.reason(path, done, NAME))
        for note in _notes(done.stderr):
            self.say(printable(note))
        return done.stdout

    def _place(self) -> Path:
        try:
            return debug_cache.folder()
        except Error as error:
            return self._temporary(error)

    def _temporary(self, why: Error) -> Path:
        """A temporary folder, which lasts until the debugger exits. Prints why it is used."""
        if self._folder is None:
            self.say(printable(str(why)))
            self._folder = tempfile.TemporaryDirectory(prefix="ctfd-")
        return Path(self._folder.name)


def _notes(errors: bytes) -> List[str]:
    """The lines on the command's standard error, without its name in front."""
    front = f"{NAME}: "
    lines = errors.decode("utf-8", "replace").splitlines()
    return [line[len(front):] if line.startswith(front) else line for line in lines]


def description_of(path: str) -> Optional[Description]:
    """The description of an ELF file; None for other files and unreadable ones."""
    try:
        return compiled.description(path)
    except Unreadable:
        return None


def is_elsewhere(image: Description) -> bool:
    """Whether a store is to be asked for a file's types: it has none, but a build-id, and a store
    is named."""
    has_stores = bool(os.environ.get(STORES, "").strip())
    return has_stores and bool(image.build_id) and not image.has_ctf and not image.has_debug
