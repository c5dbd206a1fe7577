"""Reads any file that `ctfd-convert` can read.

The results of conversions are kept in the user's cache, so the file is converted once.
"""
from __future__ import annotations

import os
import stat
from typing import Callable, NamedTuple, Optional, Sequence

from ..client.faults import Unreadable
from ..client.model import Model
from . import bundles, compiled
from .bundles import Bundle
from .cache import Cache, key

FEW = 3


class FileOptions(NamedTuple):
    """The user's choices for reading files, as `ctfd-convert` has them.

    `warn` is called with each loss. `cache` gives the cache, or is None. With `takes_parts`, a
    program with more types than one dictionary can have becomes several. `with_addresses` asks for
    the addresses of functions and variables.
    """

    model: Optional[Model] = None
    form: Optional[str] = None
    base: Optional[str] = None
    folders: Sequence[str] = ()
    number: Optional[int] = None
    cache: Optional[Callable[[], Optional[Cache]]] = None
    warn: Callable[[str], None] = lambda said: None
    tells_losses: bool = True
    takes_parts: bool = False
    with_addresses: bool = False


def read(path: str, asked: FileOptions) -> Bundle:
    """The dictionaries of a file. Raises Unreadable."""
    named = _key(path, asked)
    cache = asked.cache() if asked.cache and named else None
    data = cache.get(named) if cache else None
    if data is not None:
        found = bundles.parse_bundle(data)
    else:
        try:
            data = compiled.bundle(path, asked)
        except compiled.Missing:
            is_plain = (asked.number, asked.form, asked.base) == (None, None, None)
            plain = bundles.plain_bundle(path) if is_plain else None
            if plain is None:
                raise
            return plain
        found = bundles.parse_bundle(data)
        if cache and found.is_made and found.is_alone:
            cache.put(named, data)
    if asked.tells_losses:
        _tell(path, found.losses, asked)
    return found


def _key(path: str, asked: FileOptions) -> str:
    """The key of a file's bundle in the cache; "" without a cache, and for a pipe, which can be
    read only once."""
    try:
        if asked.cache is None or not stat.S_ISREG(os.stat(path).st_mode):
            return ""
        base = key(asked.base) if asked.base else ""
        return key(path, (asked.model, asked.form, list(asked.folders), asked.number,
                          asked.takes_parts, asked.with_addresses, base))
    except (OSError, ValueError) as error:  # ValueError: a zero byte in the name
        why = error.strerror if isinstance(error, OSError) else error
        raise Unreadable(f"{path}: {why}") from error


def _tell(path: str, losses: Sequence[str], asked: FileOptions) -> None:
    """Warns of what CTF cannot represent of a file: each construct, if there are few."""
    if not losses:
        return
    from .losses import notice

    for line in notice(losses, FEW, f"`ctfd-convert --report - {path} /dev/null` lists them all"):
        asked.warn(f"{path}: {line}")
