"""The compiled commands as a person uses them: a progress bar on a terminal, and interrupts that
leave nothing behind.

A program comes out of a pipe after more than a second: then a bar is shown if standard error is a
terminal, but not if it is a file; the bar is gone at the end. SIGINT, SIGTERM and SIGHUP end
ctfd-convert while it waits for its input or for objcopy, and ctfd-diff while it waits for dpkg-deb:
the command ends by the signal, OUT is unchanged, and no other file is left. Needs gcc and the
compiled commands (`make`).
"""
from __future__ import annotations

import itertools
import os
import pty
import shutil
import signal
import subprocess
import sys
import time
from pathlib import Path
from typing import Callable, Iterator, Optional

import pytest

TOP = Path(__file__).resolve().parents[3]
sys.path.insert(0, str(TOP / "scripts"))
import rust  # noqa: E402

CODE = "struct point { int x, y; } first; int main(void) { return first.x; }\n"
PATIENCE = 1.3
LIMIT = 30
SIGNALS = (signal.SIGINT, signal.SIGTERM, signal.SIGHUP)
BEFORE = b"what was there"
# An objcopy that takes long, as with a large file.
SLOW = "#!/bin/sh\ntouch {0}/begun\nsleep 20\n"


class Case:
    """A folder with a program, in which commands are run."""

    def __init__(self, folder: Path) -> None:
        self.folder = folder
        self.program, self.out = folder / "program", folder / "out"
        self.temporary = folder / "temporary"
        self.temporary.mkdir()
        (folder / "code.c").write_text(CODE)
        subprocess.run(["gcc", "-g", folder / "code.c", "-o", self.program], check=True)

    def begin(self, *words: object, errors: Optional[int] = None, path: str = "",
              command: str = "ctfd-convert") -> subprocess.Popen[bytes]:
        """Starts a command."""
        environment = {**os.environ, "TMPDIR": str(self.temporary),
                       "PATH": f"{path}{os.environ['PATH']}", "TERM": "xterm"}
        return subprocess.Popen([str(rust.folder() / command), *map(str, words)], env=environment,
                                stderr=errors if errors is not None else subprocess.PIPE,
                                stdout=subprocess.DEVNULL)


def faults_of_bar(case: Case) -> Iterator[str]:
    """Errors of the progress bar."""
    asked = [("ctfd-convert", [case.out]), ("ctfd-types", []), ("ctfd-diff", [case.program])]
    for is_terminal, (command, words) in itertools.product((True, False), asked):
        pipe = case.folder / f"pipe-{command}{is_terminal}"
        os.mkfifo(pipe)
        ours, theirs = pty.openpty() if is_terminal else os.pipe()
        child = case.begin(pipe, *words, errors=theirs, command=command)
        os.close(theirs)
        with pipe.open("wb") as file:
            time.sleep(PATIENCE)
            file.write(case.program.read_bytes())
        status, said = child.wait(LIMIT), read(ours)
        if status != 0:
            yield f"bar of {command}: status {status}: {said}"
        if is_terminal and ("reading" not in said or "100%" not in said):
            yield f"bar: a terminal has {said!r}"
        if is_terminal and not said.endswith("\x1b[2K"):
            yield f"bar: it is not gone at the end: {said!r}"
        if not is_terminal and said:
            yield f"bar: a file has {said!r}"


def read(handle: int) -> str:
    """Everything that was written to the other end, which is closed."""
    made = b""
    try:
        while piece := os.read(handle, 65536):
            made += piece
    except OSError:  # a closed terminal
        pass
    os.close(handle)
    return made.decode()


def waiting_for_input(case: Case) -> subprocess.Popen[bytes]:
    """The command, reading a pipe into which nobody writes."""
    pipe = case.folder / "input"
    if not pipe.exists():
        os.mkfifo(pipe)
    child = case.begin(pipe, case.out)
    child.kept_open = os.open(pipe, os.O_WRONLY)  # type: ignore[attr-defined]
    return child


def waiting_for_objcopy(case: Case) -> subprocess.Popen[bytes]:
    """The command, waiting for objcopy."""
    return begun_with(case, "objcopy", "--section", case.program, case.out)


def begun_with(case: Case, tool: str, *words: object, command: str = "ctfd-convert"
               ) -> subprocess.Popen[bytes]:
    """A command that has started a slow tool."""
    tools = case.folder / "tools"
    tools.mkdir(exist_ok=True)
    (tools / "begun").unlink(missing_ok=True)
    (tools / tool).write_text(SLOW.format(tools))
    (tools / tool).chmod(0o755)
    child = case.begin(*words, path=f"{tools}:", command=command)
    last = time.monotonic() + LIMIT
    while not (tools / "begun").exists() and time.monotonic() < last:
        time.sleep(0.02)
    return child


def waiting_for_dpkg(case: Case) -> subprocess.Popen[bytes]:
    """ctfd-diff, waiting for dpkg-deb."""
    package = case.folder / "package.deb"
    package.write_bytes(b"!<arch>\ndebian-binary   ")
    return begun_with(case, "dpkg-deb", package, package, command="ctfd-diff")


def faults_of_ending(case: Case, begin: Callable[[Case], subprocess.Popen[bytes]]) -> Iterator[str]:
    """Errors in how it ends by each signal."""
    for one in SIGNALS:
        case.out.write_bytes(BEFORE)
        there = {path.name for path in case.folder.iterdir()} | {"tools", "input", "package.deb"}
        child = begin(case)
        time.sleep(0.2)
        child.send_signal(one)
        status = child.wait(LIMIT)
        left = {path.name for path in case.folder.iterdir()} - there
        if status != -one:
            yield f"{begin.__name__}, {one.name}: status {status}"
        if left or list(case.temporary.iterdir()):
            yield f"{begin.__name__}, {one.name}: it leaves {left or 'a temporary file'}"
        if case.out.read_bytes() != BEFORE:
            yield f"{begin.__name__}, {one.name}: OUT was written"


@pytest.fixture
def case(tmp_path: Path) -> Case:
    if not (rust.folder() / "ctfd-convert").exists() or not shutil.which("gcc"):
        pytest.skip("no gcc here, or the compiled commands are not built")
    return Case(tmp_path)


def test_bar(case: Case) -> None:
    assert not list(faults_of_bar(case))


@pytest.mark.parametrize("begin", (waiting_for_input, waiting_for_objcopy, waiting_for_dpkg))
def test_interrupts(case: Case, begin: Callable[[Case], subprocess.Popen[bytes]]) -> None:
    assert not list(faults_of_ending(case, begin))
