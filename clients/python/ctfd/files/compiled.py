"""Runs compiled commands such as `ctfd-convert`, which reads programs for this package.

A command is searched for in this order: beside the running command, in the clone that contains this
package, beside the program that CTFD names, in this package, in `bin` beside the `lib` that
contains this package, on the PATH. It must have the package's version, and no other user may have
been able to put it there (trust.py).
"""
from __future__ import annotations

import functools
import os
import subprocess
from typing import TYPE_CHECKING, Iterator, List, Optional

from .. import commands
from ..client import service, trust
from ..client.faults import Unreadable
from ..version import VERSION
from . import bundles
from .bundles import Description

if TYPE_CHECKING:
    from .anyfile import FileOptions

NAME = "ctfd-convert"
BUILT = "clients/rust/target/release"
ELF = b"\x7fELF"  # the first bytes of a compiled program


def bundle(path: str, asked: FileOptions) -> bytes:
    """The output of `ctfd-convert --bundle` for a file. Raises Unreadable."""
    words = [*_words(asked), "--bundle"]
    return _run_command(path, [*words, "--addresses"] if asked.with_addresses else words)


def description(path: str) -> Optional[Description]:
    """The description of an ELF file, or None for other files. Raises Unreadable."""
    return bundles.parse_description(_run_command(path, ["--describe"]))


def label(ctf: bytes) -> Optional[str]:
    """The label by which children name a dictionary as their parent. Raises Unreadable."""
    written = _run_command("/dev/stdin", ["--bundle"], ctf)
    return bundles.parse_bundle(written).sources[0].label


class Missing(Unreadable):
    """The command was not found."""


def _run_command(path: str, words: List[str], data: bytes = b"") -> bytes:
    """The output of the command for a file, or for `data` on standard input. Raises Unreadable."""
    command = find()
    if command is None:
        raise Missing(f"{path}: {missing(NAME, 'its types are read')}")
    try:
        done = subprocess.run([NAME, *words, "--", path, "-"], executable=command, input=data,
                              capture_output=True, check=False)
    except (OSError, ValueError) as error:  # ValueError: a zero byte in the name
        why = error.strerror if isinstance(error, OSError) else error
        raise Unreadable(f"{path}: {command}: {why}") from error
    if done.returncode != 0:
        raise Unreadable(reason(path, done, NAME))
    return done.stdout


def missing(name: str, what: str) -> str:
    """The error text for a command that was not found."""
    return (f"{what} by the compiled command {name} of version {VERSION}, and there is none here that"
            " no other user could have put there: install it, or build it in the clone by `make`")


def reason(path: str, done: "subprocess.CompletedProcess[bytes]", name: str) -> str:
    """Why a command failed for a file: the last line of its standard error."""
    lines = done.stderr.decode("utf-8", "replace").splitlines()
    said = lines[-1] if lines else ""
    if said.startswith(f"{name}: "):
        return said[len(name) + 2:]
    return f"{path}: {name} ended with status {done.returncode}{': ' + said if said else ''}"


def _words(asked: FileOptions) -> Iterator[str]:
    """The command-line options for `asked`."""
    if not asked.takes_parts:
        yield "--one"
    if asked.model:
        yield f"--model={asked.model}"
    if asked.form:
        yield f"--from={asked.form}"
    if asked.base:
        yield f"--base={asked.base}"
    yield from (f"--debug-folder={folder}" for folder in asked.folders)
    if asked.number is not None:
        yield f"--dictionary={asked.number}"


def find(name: str = NAME) -> Optional[str]:
    """The path of a compiled command, or None. Start it with `name` as `argv[0]`."""
    for path in _places(name):
        if os.access(path, os.X_OK) and trust.is_trusted(path) and _is_ours(path, name):
            return path
    return None


def _places(name: str) -> Iterator[str]:
    folder, clone = trust.folder_of_command(), trust.folder_of_clone()
    if folder:
        yield os.path.join(folder, name)
    if clone:
        yield os.path.join(clone, BUILT, name)
    program = service.program_path()
    if program and os.path.isabs(program):
        yield os.path.join(os.path.dirname(program), name)
    yield commands.path_of(name)
    parts: List[str] = trust.HERE.split(os.sep)
    if "lib" in parts and not clone:
        last = len(parts) - 1 - parts[::-1].index("lib")
        yield os.sep.join([*parts[:last], "bin", name])
    on_path = trust.program(name)
    if on_path:
        yield on_path


@functools.lru_cache(maxsize=8)
def _is_ours(path: str, name: str) -> bool:
    """Whether a file is the compiled command of this name, of this package's version."""
    try:
        with open(path, "rb") as file:
            if file.read(len(ELF)) != ELF:
                return False
        said = subprocess.run([name, "--version"], executable=path, stdin=subprocess.DEVNULL,
                              check=False, capture_output=True).stdout
    except OSError:
        return False
    return said.decode("ascii", "replace").split() == [name, VERSION]
