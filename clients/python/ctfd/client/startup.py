"""Keeps modules of the current folder from replacing Python's or this package's.

Python looks for modules in the current folder first if it runs with `-c`, with `-`, or
interactively, and some debuggers do too. A `json.py` that another user put there would then be run.
This module imports nothing that Python has not imported before.
"""
import os
import sys

# Modules that this package, or what it imports, imports later.
LATE = ("argparse", "bisect", "copy", "ctypes", "dataclasses", "decimal", "difflib", "enum",
        "errno", "fcntl", "gc", "grp", "gzip", "hashlib", "html", "importlib", "io", "logging",
        "lzma", "operator", "pathlib", "platform", "pwd", "random", "re", "resource", "selectors",
        "shlex", "shutil", "signal", "socket", "stat", "subprocess", "tempfile", "time",
        "traceback", "weakref", "zlib")


class AbsoluteFolders:
    """A context in which modules are imported only from absolute folders."""

    def __enter__(self) -> None:
        self.before = sys.path[:]
        sys.path[:] = [one for one in self.before if os.path.isabs(one)]
        if len(sys.path) == len(self.before):
            return
        for name in LATE:
            try:
                __import__(name)
            except ImportError:  # Python was built without it
                pass

    def __exit__(self, *_: object) -> None:
        sys.path[:] = self.before


def has_current_folder() -> bool:
    """Whether modules may come from a relative folder, such as the current one."""
    return not all(map(os.path.isabs, sys.path))
