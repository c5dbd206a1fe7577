"""Helpers for the tests of commands: dictionaries of C files, and all their types."""
from __future__ import annotations

import os
import shutil
import subprocess
import sys
import tempfile
from pathlib import Path
from typing import Dict, Iterable, Optional

from ctfd.client.gather import ALL_LISTS
from ctfd.files.opening import Opener

from .support import (COMMAND, CONVERT, DEBUGINFO, DIFF, EXPLORE, PROGRAM, WithService, run)
from .whole import WholeFile, whole_of as whole_of_types

RUST = {one.name: one for one in (COMMAND, CONVERT, DEBUGINFO, DIFF, EXPLORE)}
CLIENT = Path(__file__).resolve().parents[1]


CONVERTS = bool(PROGRAM and shutil.which("gcc"))
WHY_NOT = "no service or gcc here"


def command(name: str, *words: str) -> "subprocess.CompletedProcess[str]":
    """Runs a command as a user would."""
    if name in RUST:
        return run(*words, command=RUST[name])
    environment = {**os.environ, "CTFD": PROGRAM}
    return subprocess.run([sys.executable, str(CLIENT / name), *words], capture_output=True,
                          text=True, env=environment)


def compile_object(folder: str, name: str, code: str, *options: str) -> str:
    """The path of an object file of C code, with debug information."""
    source, made = Path(folder) / f"{name}.c", Path(folder) / f"{name}.o"
    source.write_text(code)
    subprocess.run(["gcc", "-g", "-c", *options, str(source), "-o", str(made)], check=True)
    return str(made)


def convert_object(folder: str, name: str, code: str, *options: str) -> str:
    """The path of an object file with a dictionary made from its debug information."""
    made = compile_object(folder, name, code, *options)
    told = command("ctfd-convert", "--lossy", "--section", made, f"{made}.ctf.o")
    assert told.returncode == 0, told.stderr
    return f"{made}.ctf.o"


def write_dictionary(case: WithService, ctf: bytes, name: str = "types.ctf") -> str:
    """The path of a file with a dictionary's bytes, which lasts until the end of the test."""
    folder = tempfile.mkdtemp()
    case.addCleanup(shutil.rmtree, folder)
    path = Path(folder) / name
    path.write_bytes(ctf)
    return str(path)


def whole_of(case: WithService, path: str, lists: Optional[Iterable[str]] = None) -> WholeFile:
    """All types of a file."""
    return whole_of_types(Opener(case.session).open(path), path, lists or ALL_LISTS)


def by_label(whole: WholeFile) -> Dict[str, int]:
    """The numbers of the types, by label."""
    return {whole.names.label(number): number for number in reversed(whole.catalog.own)}
