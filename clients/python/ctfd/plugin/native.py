"""Gives gdb's own commands a program's CTF, as a separate debug file.

gdb relocates it with the program or library, also when the program is run again.
"""
from __future__ import annotations

import os
from typing import Optional

import gdb

import ctfd
from .debug_files import Writer, description_of, is_elsewhere


class GiveTypes(gdb.Parameter):
    """The setting `ctf-debuginfo`: whether `ctf load` gives gdb itself the types of a program."""

    set_doc = "Set whether `ctf load` gives gdb itself the types of a program."
    show_doc = "Show whether `ctf load` gives gdb itself the types of a program."
    value = True

    def __init__(self) -> None:
        super().__init__("ctf-debuginfo", gdb.COMMAND_FILES, gdb.PARAM_BOOLEAN)
        self.value = True

    def get_set_string(self) -> str:
        return ""


WRITER = Writer(print)


def objfile_of(path: str) -> Optional[gdb.Objfile]:
    """gdb's file at a path, if it has no separate debug file yet; else None."""
    for one in gdb.objfiles():
        if one.owner is None and one.filename and (
                os.path.realpath(one.filename) == os.path.realpath(path)):
            has_other = any(other.owner is one for other in gdb.objfiles())
            return None if has_other else one
    return None


def knows(expression: str) -> bool:
    """Whether gdb itself can print an expression with a debug file that it was given. Expressions
    of the plug-in have no side effects, so trying is safe."""
    if all(one.owner is None for one in gdb.objfiles()):
        return False
    try:
        gdb.parse_and_eval(expression)
    except (gdb.error, RuntimeError):
        return False
    return True


def give(path: str, parent: Optional[str] = None) -> str:
    """Gives gdb the types of a file that it has read. Returns a line for the user, or "" if gdb has
    no such file, or the file has no CTF and no store is to be asked. gdb reads nothing that a store
    sends: the debug file is written here, from a dictionary that the library has accepted. Raises
    Error."""
    one = objfile_of(path)
    image = description_of(path) if one else None
    if one is None or image is None or not (image.has_ctf or is_elsewhere(image)):
        return ""
    made = WRITER.debug_file(path, parent)
    try:
        one.add_separate_debug_file(str(made))
    except gdb.error as error:
        raise ctfd.Error(f"{path}: gdb does not take its debug file: {error}") from error
    told = "gdb's own commands know these types too: print, ptype/o, break ... if"
    if image.has_debug:
        told += "; the program has debug information of its own, which comes first"
    return told
