"""Where to find the library libctfd.so, which answers in this process.

With a library no service is started; the answers are the same. It is the file that CTFD_LIBRARY
names. Otherwise it is the first of: beside this package, beside the running ctfd command, in the
clone that contains this package, known to the system's loader or to pkg-config. A file that another
user could have put there is skipped (trust.py).
"""
from __future__ import annotations

import os
from typing import Iterator, Optional

from ..version import VERSION
from . import trust
from .calls import Calls
from .faults import Gone

NAME = f"libctfd.so.{VERSION.split('.')[0]}"
BUILT = "crates/ctf_c/out/libctfd.so"
PATIENCE = 10


def library_path() -> Optional[str]:
    """The value of CTFD_LIBRARY, or None; "" means that no library is used."""
    return os.environ.get("CTFD_LIBRARY")


def find() -> Optional[Calls]:
    """The library to use, or None. Raises Gone if CTFD_LIBRARY names a file that is not one."""
    path = library_path()
    if path is not None:
        return Calls(path) if path else None
    for place in _places():
        try:
            return Calls(place)
        except Gone:
            continue
    return None


def _places() -> Iterator[str]:
    """Possible paths of the library, in order."""
    package = os.path.dirname(os.path.dirname(trust.HERE))
    found = [os.path.join(package, NAME), os.path.join(package, "libctfd.so")]
    command, clone = trust.folder_of_command(), trust.folder_of_clone()
    if command:
        found.append(os.path.join(os.path.dirname(command), "lib", NAME))
    if clone:
        found.append(os.path.join(clone, BUILT))
    yield from filter(_is_there, found)
    yield NAME  # for the system's loader, which does not search the current folder
    path = os.path.join(_of_pkg_config(), NAME)
    if _is_there(path):
        yield path


def _is_there(path: str) -> bool:
    return os.path.isfile(path) and trust.is_trusted(path)


def _of_pkg_config() -> str:
    """The folder of the library according to pkg-config, or ""."""
    import subprocess  # imported here: it is slow, and seldom needed

    asked = trust.program("pkg-config")
    if asked is None:
        return ""
    try:
        said = subprocess.run([asked, "--variable=libdir", "ctfd"], text=True,
                              stdin=subprocess.DEVNULL, capture_output=True, timeout=PATIENCE)
    except (OSError, subprocess.TimeoutExpired):
        return ""
    return said.stdout.strip() if said.returncode == 0 else ""
