"""Helpers of the tests: the service, the examples, and small dictionaries made here."""
from __future__ import annotations

import importlib.util
import json
import os
import shutil
import struct
import subprocess
import unittest
from pathlib import Path
from typing import List, Optional, Sequence

import ctfd
from ctfd.client.model import Model

EXAMPLES = Path(__file__).resolve().parents[3] / "examples"
COMPILED = Path(os.environ.get("CARGO_TARGET_DIR")
                or Path(__file__).resolve().parents[2] / "rust/target") / "release"
COMMAND = COMPILED / "ctfd-types"
CONVERT = COMPILED / "ctfd-convert"
DEBUGINFO = COMPILED / "ctfd-debuginfo"
DIFF = COMPILED / "ctfd-diff"
EXPLORE = COMPILED / "ctfd-explore"
PROGRAM = os.environ.get("CTFD", "")
LIBRARY = os.environ.get("CTFD_LIBRARY", "")  # if set, used in place of the program
TOOLS = all(shutil.which(tool) for tool in ("gcc", "objcopy"))

INTEGER, POINTER, ARRAY, FUNCTION, STRUCT, UNION, ENUM, CONST = 1, 3, 4, 5, 6, 7, 8, 12


def compiles(*options: str) -> bool:
    """Whether gcc can compile to object files with these options."""
    command = ["gcc", *options, "-c", "-x", "c", "/dev/null", "-o", "/dev/null"]
    return TOOLS and subprocess.run(command, capture_output=True).returncode == 0


def has_library(name: str) -> bool:
    """Whether this Python has a package that only a part of the client needs."""
    return importlib.util.find_spec(name) is not None


class WithService(unittest.TestCase):
    """A test case with a service and a session of its own. If CTFD_LIBRARY is set, the library is
    used, except by tests of the line protocol."""

    is_of_lines = False

    def setUp(self) -> None:
        if not PROGRAM:
            self.skipTest("CTFD names no built service")
        is_inside = LIBRARY and not self.is_of_lines
        self.client = ctfd.connect() if is_inside else ctfd.Client(PROGRAM)
        self.addCleanup(self.client.close)
        self.session = self.client.session()

    def open_dictionary(self, ctf: bytes, model: Optional[Model] = None) -> ctfd.Dictionary:
        return ctfd.open_source(self.session, ctfd.Source(ctf, model=model))

    def example(self, name: str, symbols: bool = False) -> ctfd.Dictionary:
        """A dictionary of the examples, with its .sym and .str if `symbols` is true."""
        path = EXAMPLES / name
        if not symbols:
            return ctfd.open_file(self.session, str(path))
        sym, strings = (path.with_suffix(suffix).read_bytes() for suffix in (".sym", ".str"))
        return ctfd.open_file(self.session, str(path), sym, strings)


def staged_dictionaries(name: str) -> List[bytes]:
    """The dictionaries that a file of requests hands in, with one `part` each."""
    requests = map(json.loads, (EXAMPLES / name).read_text().splitlines())
    return [bytes.fromhex(r["bytes"]) for r in requests
            if r["op"] == "part" and r["section"] == "ctf" and len(r["bytes"]) > 72]


def record(kind: int, length: int, size: int, name: int = 0, tail: bytes = b"") -> bytes:
    """A type's record in the short form, visible to look-ups."""
    return struct.pack("<IHH", name, kind << 11 | 1 << 10 | length, size) + tail


def dictionary(records: List[bytes], names: bytes = b"\0") -> bytes:
    """A section with these types only."""
    body = b"".join(records)
    return b"\xf1\xcf\x02\0" + struct.pack("<8I", *[0] * 6, len(body), len(names)) + body + names


def integer(name: int, bits: int = 32, size: int = 4) -> bytes:
    return record(INTEGER, 0, size, name, struct.pack("<I", 1 << 24 | bits))


def pointer(to: int) -> bytes:
    return record(POINTER, 0, to)


def array(contents: int, count: int, size: int = 0) -> bytes:
    """An array, with type 1 as its index."""
    return record(ARRAY, 0, size, 0, struct.pack("<HHI", contents, 1, count))


def member(name: int, t: int, offset: int) -> bytes:
    """A member of a struct of less than 8192 bytes; the offset is in bits."""
    return struct.pack("<IHH", name, t, offset)


def object_file(folder: str, ctf: bytes, section: str = ".SUNW_ctf", code: str = "",
                options: Sequence[str] = ()) -> Path:
    """An object file of gcc, with a section added by objcopy."""
    place = Path(folder)
    (place / "code.c").write_text(code)
    (place / "section").write_bytes(ctf)
    made = place / "code.o"
    subprocess.run(["gcc", *options, "-c", str(place / "code.c"), "-o", str(made)], check=True)
    added = f"{section}={place / 'section'}"
    subprocess.run(["objcopy", "--add-section", added, str(made)], check=True)
    return made


def run(*words: str, command: Path = COMMAND) -> "subprocess.CompletedProcess[str]":
    """Runs a compiled command as a user would. Skips the test if it is not compiled."""
    if not command.exists():
        raise unittest.SkipTest(f"there is no {command}: scripts/rust.py builds it")
    return subprocess.run([str(command), *words], capture_output=True, text=True)
