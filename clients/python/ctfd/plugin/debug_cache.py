"""A cache of debug files, in a folder of the user.

The folder is `ctfd` in the user's cache (XDG_CACHE_HOME, else ~/.cache). Whoever can write there
could give a debugger any symbols, so a folder that others may write to, or that another user owns,
is not used. The files used last are kept. Each ends with a checksum, which readers of ELF files
ignore; a file with a wrong one is written again.
"""
from __future__ import annotations

import contextlib
import hashlib
import os
import stat
import tempfile
import time
from pathlib import Path
from typing import Iterable

from ..client.faults import Error
from ..version import VERSION

MOST_FILES, MOST_BYTES = 64, 1 << 30
SUFFIX, UNFINISHED = ".debug", ".new-"
FORMAT = 3  # of the cached files; a new number changes all names
MARK, SUM = b"\nctfd sum", 32
PIECE = 1 << 20
SECONDS = 3600  # the age at which an unfinished file is removed


def folder() -> Path:
    """The folder, created if needed. Raises Error if it cannot be used."""
    base = os.environ.get("XDG_CACHE_HOME") or os.path.expanduser("~/.cache")
    place = Path(base, "ctfd")
    try:
        place.mkdir(mode=0o700, parents=True, exist_ok=True)
        found = os.lstat(place)
    except OSError as error:
        raise Error(f"{place}: {error.strerror}") from error
    is_ours = stat.S_ISDIR(found.st_mode) and found.st_uid == os.geteuid()
    if not is_ours or found.st_mode & (stat.S_IWGRP | stat.S_IWOTH):
        raise Error(f"{place} is not a folder that its owner alone may write to, and that is yours:"
                    " debug files are not kept there")
    return place


def key(build_id: str, paths: Iterable[str]) -> str:
    """The name of the debug file for some files: the build-id, if there is one, and a hash. Raises
    Error."""
    found = hashlib.sha256(f"{FORMAT} {VERSION}".encode())
    for path in paths:
        try:
            with open(path, "rb") as file:
                found.update(os.fstat(file.fileno()).st_size.to_bytes(8, "little"))
                for piece in iter(lambda: file.read(PIECE), b""):
                    found.update(piece)
        except OSError as error:
            raise Error(f"{path}: {error.strerror}") from error
    return f"{build_id or 'none'}-{found.hexdigest()[:32]}{SUFFIX}"


def keep(place: Path, name: str, data: bytes) -> Path:
    """Writes a file as a whole, and removes the files used longest ago until there is room. Raises
    Error, and then leaves no file behind."""
    kept = place / name
    try:
        handle, made = tempfile.mkstemp(dir=place, prefix=UNFINISHED)
        try:
            with os.fdopen(handle, "wb") as file:
                file.write(data)
                file.write(MARK + hashlib.blake2b(data, digest_size=SUM).digest())
            os.replace(made, kept)
        except BaseException:
            with contextlib.suppress(OSError):
                os.unlink(made)
            raise
        _shrink(place, kept)
    except OSError as error:
        raise Error(f"{kept}: {error.strerror}") from error
    return kept


def is_known(place: Path, name: str) -> bool:
    """Whether an intact file is there; it then counts as used last."""
    try:
        is_whole = _is_whole(place / name)
        if is_whole:
            os.utime(place / name)
        return is_whole
    except OSError:
        return False


def _is_whole(path: Path) -> bool:
    """Whether a file ends with its checksum."""
    found = hashlib.blake2b(digest_size=SUM)
    with open(path, "rb") as file:
        left = os.fstat(file.fileno()).st_size - len(MARK) - SUM
        while left > 0:
            piece = file.read(min(left, PIECE))
            if not piece:
                return False
            found.update(piece)
            left -= len(piece)
        return file.read() == MARK + found.digest()


def _shrink(place: Path, newest: Path) -> None:
    """Removes the files that were used longest ago, and old unfinished ones."""
    for path in place.glob(f"{UNFINISHED}*"):
        with contextlib.suppress(OSError):
            if path.lstat().st_mtime < time.time() - SECONDS:
                path.unlink()
    files = sorted(((path.stat().st_mtime, path.stat().st_size, path)
                    for path in place.glob(f"*{SUFFIX}") if path != newest), reverse=True)
    room = MOST_BYTES - newest.stat().st_size
    for number, (_, size, path) in enumerate(files, 1):
        room -= size
        if room < 0 or number >= MOST_FILES:
            path.unlink()
