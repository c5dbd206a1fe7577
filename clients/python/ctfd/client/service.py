"""Where to find the service, and whether it speaks this client's protocol.

It is the program that the caller names, else the one that CTFD names. Otherwise it is the first of:
beside the running ctfd command, in this package, `ctfd` on the PATH, built in the clone that
contains this package. Of these, a program that another user could have put there is skipped
(trust.py). If the caller names no program, CTFD_SOCKET may name a socket in its place; CTFD_ROOM
then names the room.
"""
from __future__ import annotations

import os
import re
from typing import Optional

from .. import commands
from ..version import VERSION
from . import trust
from .faults import Error, Gone

BUILT = "crates/ctfd/out/ctfd"
PATIENCE = 10

# The first line; a second one names the build.
_SAYS = re.compile(r"ctfd (\d+)\.(\d+)\.(\d+)(?:\n|\Z)")


def find(name: Optional[str] = None) -> str:
    """The program to start, after checking that it speaks this client's version. Raises Error."""
    program = name or program_path()
    if program:
        why = "named by --service" if name else "named by CTFD in the environment"
        found = path_of(os.path.expanduser(program))
        if found is None:
            raise Gone(f"{program}, {why}, is no program: name the built ctfd")
        return _check_protocol(found)
    found = _beside() or _program_in_package() or trust.program("ctfd") or _program_of_clone()
    if found is None:
        raise Gone("the service ctfd is not found: name it by --service or by CTFD in the"
                   " environment, put it on the PATH, or build it (`make`); one that another user"
                   " could have put there is not run")
    return _check_protocol(found)


def to_start(name: str) -> str:
    """The program that a client starts. A named one is not checked; "" stands for none."""
    if not name:
        return find()
    found = path_of(name)
    if found is None and not os.path.dirname(name):
        raise Gone(f"the service {name} can't be started: it is not on the PATH")
    return found or name


def path_of(program: str) -> Optional[str]:
    """The path of a program; a name without a folder is searched for on the PATH. None if not
    found."""
    if not os.path.dirname(program):
        return trust.program(program)
    return program if _runs(program) else None


def program_path() -> Optional[str]:
    """The program that CTFD names."""
    return os.environ.get("CTFD") or None


def socket() -> Optional[str]:
    """The socket that CTFD_SOCKET names."""
    return os.environ.get("CTFD_SOCKET") or None


def room() -> Optional[str]:
    """The room that CTFD_ROOM names; clients in one room use the same service."""
    return os.environ.get("CTFD_ROOM") or None


def _beside() -> Optional[str]:
    """The program beside the running command, or None."""
    folder = trust.folder_of_command()
    return _if_trusted(os.path.join(folder, "ctfd")) if folder else None


def _program_in_package() -> Optional[str]:
    """The program in this package, or None."""
    return _if_trusted(os.path.join(commands.FOLDER, "ctfd"))


def _program_of_clone() -> Optional[str]:
    """The program of the clone that contains this file, or None."""
    clone = trust.folder_of_clone()
    return _if_trusted(os.path.join(clone, BUILT)) if clone else None


def _if_trusted(path: str) -> Optional[str]:
    return path if _runs(path) and trust.is_trusted(path) else None


def _runs(path: str) -> bool:
    return os.path.isfile(path) and os.access(path, os.X_OK)


def _check_protocol(program: str) -> str:
    """Returns a program after checking that it is a service of this client's version."""
    found = _SAYS.match(_version(program))
    if found is None:
        raise Gone(f"{program} is no ctfd: it does not print a version as ctfd does")
    if found[1] != VERSION.split(".")[0]:
        raise Error(f"{program} is {found[0].strip()}, which speaks another protocol than this"
                    f" client of {VERSION}: install the client of that version")
    return program


def _version(program: str) -> str:
    import subprocess

    try:
        asked = subprocess.run([program, "--version"], stdin=subprocess.DEVNULL, text=True,
                               capture_output=True, timeout=PATIENCE, errors="replace")
    except (OSError, subprocess.TimeoutExpired) as error:
        why = getattr(error, "strerror", None) or "it does not answer"
        raise Gone(f"the service {program} can't be started: {why}") from error
    return asked.stdout
