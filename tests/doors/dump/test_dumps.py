"""Compares dumps of files that were typed by hand with the expected texts.

In test_dumps.txt, a row has a title (`# `), followed by its files (`NAME = `, with bytes in
hexadecimal), the arguments of `ctfd dump` (`$ `), the expected lines of standard output (`> `) and
standard error (`! `), and the exit status (`= `). Each row is a test, named by its title.
"""
from __future__ import annotations

import resource
import subprocess
import tempfile
from dataclasses import dataclass, field
from pathlib import Path
from typing import Iterator, Optional

import pytest

ROWS = Path(__file__).with_suffix(".txt")
# The beginning of a line that continues the bytes of the previous file.
MORE = "    "


@dataclass
class Row:
    """Files, the arguments of a command that reads them, and the expected outcome."""

    title: str
    files: dict[str, bytes] = field(default_factory=dict)
    words: list[str] = field(default_factory=list)
    out: str = ""
    err: str = ""
    status: int = 0

    def read(self, line: str, last: str) -> str:
        """Reads a line of the row, after bytes of the file `last`. Returns the file that has the
        bytes."""
        mark, _, rest = line.partition(" ")
        if line.startswith(MORE):
            self.files[last] += bytes.fromhex(line)
        elif mark == "$":
            self.words = rest.split()
        elif mark == ">":
            self.out += rest + "\n"
        elif mark == "!":
            self.err += rest + "\n"
        elif mark == "=":
            self.status = int(rest)
        else:
            self.files[mark] = bytes.fromhex(rest.removeprefix("="))
            return mark
        return last


def rows(path: Path) -> Iterator[Row]:
    for text in path.read_text().split("\n\n"):
        title, *lines = text.strip("\n").split("\n")
        row, last = Row(title.removeprefix("# ")), ""
        for line in lines:
            last = row.read(line, last)
        yield row


def wrong(program: str, row: Row) -> Iterator[str]:
    """The differences from the row."""
    with tempfile.TemporaryDirectory() as folder:
        for name, data in row.files.items():
            (Path(folder) / name).write_bytes(data)
        ended = subprocess.run([program, "dump", *row.words], cwd=folder, capture_output=True,
                               stdin=subprocess.DEVNULL, timeout=60)
    for what, want, found in (("standard output", row.out, ended.stdout.decode("latin-1")),
                              ("standard error", row.err, ended.stderr.decode("latin-1")),
                              ("the status", row.status, ended.returncode)):
        if want != found:
            yield f"{what} is {found!r}, and not {want!r}"


def cut_off(program: str, row: Row, room: int) -> Iterator[str]:
    """The errors with a standard output that accepts only `room` bytes."""
    with tempfile.TemporaryDirectory() as folder:
        for name, data in row.files.items():
            (Path(folder) / name).write_bytes(data)
        with open(Path(folder) / "out", "wb") as out:
            ended = subprocess.run(
                [program, "dump", *row.words], cwd=folder, stdout=out, stderr=subprocess.PIPE,
                restore_signals=False,  # so that a write fails, and no signal ends the program
                preexec_fn=lambda: resource.setrlimit(resource.RLIMIT_FSIZE, (room, room)))
        written = (Path(folder) / "out").read_bytes()
    text = row.out.encode()
    status, said = (0, b"") if len(text) <= room else (3, b"ctfd: Write\n")
    if written != text[:room] or (ended.returncode, ended.stderr) != (status, said):
        yield f"with room for {room} bytes: {written!r}, {ended.stderr!r}, {ended.returncode}"


def unheard(program: str, row: Row) -> Iterator[str]:
    """The errors if standard error is full: the status must still be right."""
    with tempfile.TemporaryDirectory() as folder, open("/dev/full", "wb") as full:
        for name, data in row.files.items():
            (Path(folder) / name).write_bytes(data)
        ended = subprocess.run([program, "dump", *row.words], cwd=folder,
                               stdout=subprocess.DEVNULL, stderr=full)
    if ended.returncode != row.status:
        yield f"with a full standard error the status is {ended.returncode}"


TRIED = {row.title: row for row in rows(ROWS)}


@pytest.mark.parametrize("title", TRIED)
def test_dump(program: str, title: str) -> None:
    assert not list(wrong(program, TRIED[title]))


@pytest.mark.parametrize("title", (title for title, row in TRIED.items() if row.status))
def test_full_standard_error(program: str, title: str) -> None:
    assert not list(unheard(program, TRIED[title]))


@pytest.mark.parametrize("room", (0, 50, 1000, None))
@pytest.mark.parametrize("title", (title for title, row in TRIED.items() if not row.status))
def test_standard_output_cut_off(program: str, title: str, room: Optional[int]) -> None:
    row = TRIED[title]
    assert not list(cut_off(program, row, len(row.out.encode()) if room is None else room))
