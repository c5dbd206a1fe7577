"""The cache of converted dictionaries.

The folder is `$XDG_CACHE_HOME/ctfd`, or `~/.cache/ctfd`, with one file for each dictionary. If it
grows too large, the files that were unused longest are removed. A folder that others can write to
is not used, and a damaged file is ignored. A failure of the cache is never an error.
"""
from __future__ import annotations

import contextlib
import hashlib
import os
import stat
from pathlib import Path
from typing import Iterable, List, Optional, Tuple

from ..version import VERSION

MOST_BYTES = 512 << 20
SUFFIX = ".ctf"
FORMAT = 4  # of the cached files and of conversions; a new number changes all keys
PIECE = 1 << 20
LARGE = 256 << 20


class Cache:
    """The cached files in a folder, at most `most` bytes in all."""

    def __init__(self, folder: Path, most: int = MOST_BYTES) -> None:
        self.folder = folder
        self.most = most

    def get(self, name: str) -> Optional[bytes]:
        """The bytes stored under a name, or None if there are none, or they are damaged."""
        path = self._path(name)
        try:
            if not self._is_mine():
                return None
            said, _, data = path.read_bytes().partition(b"\n")
            if said.decode("ascii") != _sum(data):
                return None
            os.utime(path)
            return data
        except (OSError, ValueError) as error:
            _log(path, error)
            return None

    def put(self, name: str, data: bytes) -> None:
        """Stores bytes under a name, and removes the files that were unused longest if needed."""
        kept = _sum(data).encode("ascii") + b"\n" + data
        if len(kept) > self.most:
            return
        try:
            self.folder.mkdir(mode=0o700, parents=True, exist_ok=True)
            if self._is_mine():
                self._write(self._path(name), kept)
                self._trim()
        except OSError as error:
            _log(self.folder, error)

    def _path(self, name: str) -> Path:
        return self.folder / f"{name}{SUFFIX}"

    def _is_mine(self) -> bool:
        """Whether the folder is this user's, and nobody else can write to it."""
        found = os.lstat(self.folder)
        return (stat.S_ISDIR(found.st_mode) and found.st_uid == os.geteuid()
                and not found.st_mode & 0o022)

    def _write(self, path: Path, data: bytes) -> None:
        import tempfile

        handle, made = tempfile.mkstemp(dir=self.folder)
        try:
            with open(handle, "wb") as file:
                file.write(data)
            os.replace(made, path)
        except OSError:
            with contextlib.suppress(OSError):
                os.unlink(made)
            raise

    def _trim(self) -> None:
        """Removes the files that were unused longest, and files that a crash has left."""
        found: List[Tuple[float, int, Path]] = []
        for path in self.folder.iterdir():
            with contextlib.suppress(OSError):
                told = path.lstat()
                found.append((told.st_mtime, told.st_size, path))
        held = 0
        for _, size, path in sorted(found, reverse=True):
            held += size
            if held > self.most:
                with contextlib.suppress(OSError):
                    path.unlink()


def user_cache() -> Optional[Cache]:
    """The cache of the user who runs this, or None if there is no home folder."""
    named = os.environ.get("XDG_CACHE_HOME", "")
    home = os.path.expanduser("~")
    if os.path.isabs(named):
        return Cache(Path(named, "ctfd"))
    return Cache(Path(home, ".cache", "ctfd")) if os.path.isabs(home) else None


def key(path: str, words: Iterable[object] = ()) -> str:
    """The key of a file's types: a hash of its bytes, the options, and the version of the
    converter. For a large file, its inode and times are used in place of the bytes. Raises
    OSError."""
    found = hashlib.blake2b(repr((FORMAT, VERSION, *words)).encode(), digest_size=24)
    with open(path, "rb") as file:
        told = os.fstat(file.fileno())
        if told.st_size > LARGE:
            found.update(repr((told.st_dev, told.st_ino, told.st_size, told.st_mtime_ns,
                               told.st_ctime_ns)).encode())
        else:
            for piece in iter(lambda: file.read(PIECE), b""):
                found.update(piece)
    return found.hexdigest()


def _log(path: Path, error: Exception) -> None:
    """Logs an error of the cache at debug level."""
    import logging

    logging.getLogger(__name__).debug("%s: %s", path, error)


def _sum(data: bytes) -> str:
    return hashlib.blake2b(data, digest_size=16).hexdigest()
