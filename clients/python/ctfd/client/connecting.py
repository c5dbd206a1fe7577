"""The choice of library or service: `connect`."""
from __future__ import annotations

from typing import Optional

from . import library, service
from .inside import Inside
from .session import Service


def connect() -> Service:
    """The library or service to use, chosen by the environment.

    The first of: the socket that CTFD_SOCKET names, the library that CTFD_LIBRARY names, the
    program that CTFD names, a library or a program that is found (library.py, service.py). Use it
    in a `with` block to close it. Raises Error.
    """
    if service.socket() is None:
        found = in_process()
        if found is not None:
            return found
    from .wire import Client  # which is slow to import

    return Client()


def in_process() -> Optional[Inside]:
    """The library in this process, or None. It is used if CTFD_LIBRARY names it, or if it is found
    and CTFD names no program."""
    if library.library_path() is None and service.program_path() is not None:
        return None
    found = library.find()
    return None if found is None else Inside(found)
