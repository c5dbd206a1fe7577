"""Which files are safe to load or run: those that no other user could have put there.

Only an absolute path can be trusted. Each folder and link on it must belong to root, to this user,
or to the owner of this package, and no other user may write to it. The folders that lead to this
package are trusted in any case: whoever can change them can change this code.
"""
from __future__ import annotations

import os
import stat
import sys
from typing import Iterator, Optional

HERE = os.path.realpath(__file__)
MOST_LINKS = 40  # as in Linux
COMMAND = "ctfd-"


def is_trusted(path: str) -> bool:
    """Whether no other user could have put this file there."""
    if not os.path.isabs(path):
        return False
    try:
        return all(_leads_here(place) or _is_closed(place) for place in _way(path))
    except OSError:
        return False


def program(name: str) -> Optional[str]:
    """The path of a program on the PATH, or None. Relative folders on the PATH are skipped."""
    for folder in os.environ.get("PATH", os.defpath).split(os.pathsep):
        path = os.path.join(folder, name)
        if os.path.isfile(path) and os.access(path, os.X_OK) and is_trusted(path):
            return path
    return None


def folder_of_command() -> Optional[str]:
    """The folder of the running command, links followed; None if the command is not one of ours, as
    in a debugger or an interactive Python."""
    path = getattr(sys.modules.get("__main__"), "__file__", None) or ""
    if not os.path.isabs(path):
        return None
    real = os.path.realpath(path)
    is_command = os.path.basename(real).startswith(COMMAND) and os.path.isfile(real)
    return os.path.dirname(real) if is_command else None


def folder_of_clone() -> Optional[str]:
    """The clone that contains this package, or None."""
    package = os.path.dirname(os.path.dirname(HERE))
    clone = os.path.dirname(os.path.dirname(os.path.dirname(package)))
    return clone if package == os.path.join(clone, "clients", "python", "ctfd") else None


def _way(path: str) -> Iterator[str]:
    """Each folder and link on a path, and the file at its end. Raises OSError."""
    names = path.split("/")[::-1]
    place, links = "/", 0
    yield place
    while names:
        name = names.pop()
        if name in ("", "."):
            continue
        if name == "..":
            place = os.path.dirname(place)
            continue
        found = os.path.join(place, name)
        yield found
        if not os.path.islink(found):
            place = found
            continue
        links += 1
        if links > MOST_LINKS:
            raise OSError
        target = os.readlink(found)
        names += target.split("/")[::-1]
        place = "/" if os.path.isabs(target) else place


def _leads_here(place: str) -> bool:
    return HERE.startswith(os.path.join(place, ""))


def _is_closed(place: str) -> bool:
    """Whether other users cannot replace a file, link or folder, nor write to it. In a sticky
    folder such as /tmp, users cannot rename the files of others."""
    found = os.lstat(place)
    if found.st_uid not in (0, os.geteuid(), os.stat(HERE).st_uid):
        return False
    if stat.S_ISLNK(found.st_mode) or stat.S_ISDIR(found.st_mode) and found.st_mode & stat.S_ISVTX:
        return True
    if found.st_mode & stat.S_IWOTH:
        return False
    return not found.st_mode & stat.S_IWGRP or found.st_uid == 0 or _is_own_group(found)


def _is_own_group(found: os.stat_result) -> bool:
    """Whether a group has only the owner in it, as on Debian, where each user has a group of the
    same name."""
    import grp  # imported here: few folders are writable by a group
    import pwd

    try:
        user, group = pwd.getpwuid(found.st_uid), grp.getgrgid(found.st_gid)
    except KeyError:
        return False
    return (user.pw_gid == found.st_gid and group.gr_name == user.pw_name
            and set(group.gr_mem) <= {user.pw_name})
