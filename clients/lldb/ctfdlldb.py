"""A command for lldb that loads types from CTF: `command script import` this file, then `ctfload`.

`ctfload [FILE]` makes a debug file from the CTF of FILE, by default the target's program, and adds
it as its symbols. FILE is a program or library of the target.
"""
from __future__ import annotations

import pathlib
import shlex
import sys
from typing import Any

import lldb

# First: lldb also searches the current folder for modules, where another user may put a ctfd.py.
sys.path.insert(0, str(pathlib.Path(__file__).resolve().parents[1] / "python"))

import ctfd  # noqa: E402
from ctfd.client import aliases  # noqa: E402
from ctfd.files import compiled  # noqa: E402
from ctfd.plugin.debug_files import Writer  # noqa: E402
from ctfd.text import printable  # noqa: E402

WRITER = Writer(print)


def load(debugger: lldb.SBDebugger, words: str, result: lldb.SBCommandReturnObject,
         _: dict[str, Any]) -> None:
    """ctfload [FILE]: gives lldb the types in a program's CTF."""
    target = debugger.GetSelectedTarget()
    named = shlex.split(words)
    path = named[0] if named else target.GetExecutable().fullpath
    if not path:
        result.SetError("there is no target: `target create FILE` first")
        return
    try:
        refuse_object_file(path)
        made = WRITER.debug_file(path)
        with ctfd.connect() as client:
            names = aliases.of_dictionary(ctfd.open_file(client.session(), path)).ambiguities()
    except ctfd.Error as error:
        result.SetError(printable(str(error)))
        return
    if names:
        result.AppendMessage(printable(names))
    words = f"--shlib {shlex.quote(path)} {shlex.quote(str(made))}"
    debugger.HandleCommand(f"target symbols add {words}")


def refuse_object_file(path: str) -> None:
    """Raises Error for an object file: lldb 14 puts the symbols of its separate debug file at wrong
    addresses, even if the compiler wrote that file."""
    image = compiled.description(path)
    if image is not None and image.kind == "object":
        raise ctfd.Error(f"{path} is an object file, in which lldb takes addresses from no"
                         " separate debug file: ctfd-debuginfo writes OUT, then `target create"
                         " OUT` and `target modules load -f OUT .text ADDRESS`")


def __lldb_init_module(debugger: lldb.SBDebugger, _: dict[str, Any]) -> None:
    debugger.HandleCommand(f"command script add -f {__name__}.load ctfload")
