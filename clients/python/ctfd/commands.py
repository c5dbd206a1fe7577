"""Entry points of the commands in a wheel: each runs the compiled program of its name.

Most commands are one program, which reads from `argv[0]` which command to be.
"""
from __future__ import annotations

import os
import sys

FOLDER = os.path.join(os.path.dirname(os.path.realpath(__file__)), "bin")
MANY_NAMES = "ctfd-tools"


def path_of(name: str) -> str:
    """The path of the program that the wheel has for a command."""
    own = os.path.join(FOLDER, name)
    return own if os.path.exists(own) else os.path.join(FOLDER, MANY_NAMES)


def main() -> None:
    """Replaces this process by the command of the same name."""
    name = os.path.basename(sys.argv[0])
    os.execv(path_of(name), [name, *sys.argv[1:]])
