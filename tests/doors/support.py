"""Runs commands for tests: arguments in; status, texts, time and memory out.

The environment says which programs are tested: CTFD is the service, CTFD_TOOLS the folder of the
commands, CTFD_ARCHIVE the library for C. A command that is not in that folder is the one in
clients/python, or the compiled one.
"""
from __future__ import annotations

import os
import re
import resource
import shutil
import subprocess
import sys
import tempfile
import time
import unittest
from pathlib import Path
from typing import Mapping, NamedTuple, Optional, Union

TOP = Path(__file__).resolve().parents[2]
EXAMPLES = TOP / "examples"
CLIENTS = TOP / "clients"
SERVICE = os.environ.get("CTFD", str(TOP / "crates/ctfd/out/ctfd"))
TOOLS = Path(os.environ.get("CTFD_TOOLS", CLIENTS / "python"))
COMPILED = Path(os.environ.get("CARGO_TARGET_DIR") or CLIENTS / "rust/target") / "release"
ARCHIVE = Path(os.environ.get("CTFD_ARCHIVE", TOP / "crates/ctf_c/out/libctfd.a"))
LIBRARY = ARCHIVE.with_name("libctfd.so")
COMMANDS = ("convert", "debuginfo", "diff", "explore", "front", "show", "store", "types")
# The limits for a command on a small file: more is a hang, or unbounded memory.
SECONDS, MEGABYTES = 5, 300
# Traces of Python, of Rust and of a sanitizer: no user should see one.
TRACE = re.compile(r"Traceback \(most recent|panicked at|AddressSanitizer|runtime error:")

# A cache for this process only.
CACHE = tempfile.TemporaryDirectory()

Word = Union[str, Path]


class Outcome(NamedTuple):
    """The outcome of a command: its status (below 0 a signal), its texts, seconds, megabytes."""

    status: int
    output: str
    errors: str
    seconds: float
    megabytes: float

    @property
    def text(self) -> str:
        """All that was printed, output first."""
        return self.output + self.errors


def tool(name: str) -> str:
    """The path of the command `ctfd-NAME`."""
    places = [folder / f"ctfd-{name}" for folder in (TOOLS, CLIENTS / "python", COMPILED)]
    return str(next((place for place in places if place.exists()), places[-1]))


def clean(environment: Optional[Mapping[str, str]] = None) -> dict[str, str]:
    """The environment of a command, with the caller's variables added."""
    return {**os.environ, "CTFD": SERVICE, "LC_ALL": "C.UTF-8", "XDG_CACHE_HOME": CACHE.name,
            **(environment or {})}


def run(*words: Word, stdin: bytes = b"", folder: Optional[Word] = None,
        environment: Optional[Mapping[str, str]] = None, seconds: float = SECONDS,
        megabytes: Optional[int] = None) -> Outcome:
    """Runs a command. If it takes longer than `seconds`, it is killed, and its status is -9.

    `megabytes` limits its address space.
    """
    def set_limits() -> None:
        resource.setrlimit(resource.RLIMIT_CORE, (0, 0))
        if megabytes is not None:
            resource.setrlimit(resource.RLIMIT_AS, (megabytes << 20, megabytes << 20))

    begun = time.monotonic()
    with tempfile.TemporaryFile() as output, tempfile.TemporaryFile() as errors, \
            tempfile.TemporaryFile() as given:
        given.write(stdin)
        given.seek(0)
        door = subprocess.Popen([str(word) for word in words], stdin=given, stdout=output,
                                stderr=errors, cwd=folder, env=clean(environment),
                                preexec_fn=set_limits, start_new_session=True)
        status, peak = _wait_for_end(door, begun + seconds)
        output.seek(0)
        errors.seek(0)
        return Outcome(status, output.read().decode("utf-8", "backslashreplace"),
                       errors.read().decode("utf-8", "backslashreplace"),
                       time.monotonic() - begun, peak)


def _wait_for_end(door: "subprocess.Popen[bytes]", last: float) -> tuple[int, float]:
    """The status of a command, and its peak memory in megabytes; it is killed at the time
    `last`."""
    wait = 0.001
    while True:
        ended, status, used = os.wait4(door.pid, os.WNOHANG)
        if ended:
            door.returncode = os.waitstatus_to_exitcode(status)
            return door.returncode, used.ru_maxrss / 1024
        if time.monotonic() > last:
            os.killpg(door.pid, 9)
            last = float("inf")
        time.sleep(wait)
        wait = min(wait * 2, 0.05)


def has(*programs: str) -> bool:
    """Whether these programs are installed."""
    return all(shutil.which(program) for program in programs)


def has_header(name: str) -> bool:
    """Whether a C header such as `libelf.h` is installed."""
    return has("gcc") and subprocess.run(
        ["gcc", "-x", "c", "-fsyntax-only", "-include", name, "/dev/null"],
        capture_output=True).returncode == 0


class Case(unittest.TestCase):
    """A test case with a folder of its own."""

    def setUp(self) -> None:
        if not os.access(SERVICE, os.X_OK):
            self.skipTest("the service is not built: `make`, or CTFD names it")
        missing = [name for name in COMMANDS if not os.access(tool(name), os.X_OK)]
        if missing:
            self.skipTest(f"not compiled: {', '.join(missing)}; scripts/rust.py does that")
        kept = tempfile.TemporaryDirectory()
        self.addCleanup(kept.cleanup)
        self.folder = Path(kept.name)

    def needs(self, *programs: str) -> None:
        """Skips the test if a program is missing."""
        missing = [program for program in programs if not has(program)]
        if missing:
            message = f"skipped: {', '.join(missing)} is not here"
            print(message, file=sys.stderr)
            self.skipTest(message)

    def compile(self, code: str, *options: str, name: str = "made.o",
                compiler: str = "gcc") -> Path:
        """Compiles C to an object file, or with options to a program or library."""
        self.needs(compiler)
        source = self.folder / f"{Path(name).stem}.c"
        source.write_text(code)
        kind = [] if any(one in ("-shared", "-o") or one.startswith("-Wl")
                         for one in options) or name.endswith(".exe") else ["-c"]
        subprocess.run([compiler, "-w", *kind, *options, "-o", str(self.folder / name),
                        str(source)], check=True, cwd=self.folder)
        return self.folder / name

    def compiled_as_ada(self, code: str, *options: str, name: str) -> Path:
        """An object file of C whose debug information claims to be Ada, which is not read."""
        text = self.compile(code, "-g", "-dA", "-S", *options, name=f"{name}.s")
        said = re.sub(r"(\.byte\s+)0x\w+(\s+# DW_AT_language)", r"\g<1>0xd\2", text.read_text())
        text.write_text(said)
        subprocess.run(["gcc", "-c", str(text), "-o", str(self.folder / name)], check=True)
        return self.folder / name

    def assert_tame(self, done: Outcome, what: object = "", seconds: float = SECONDS,
                    megabytes: float = MEGABYTES) -> None:
        """Asserts that a command ended by itself, within time and memory, without a stack trace."""
        told = f"{what}: status {done.status} in {done.seconds:.1f} s,"\
               f" {done.megabytes:.0f} MB: {done.errors[-400:]}"
        self.assertGreaterEqual(done.status, 0, told)
        self.assertLessEqual(done.seconds, seconds, told)
        self.assertLessEqual(done.megabytes, megabytes, told)
        self.assertIsNone(TRACE.search(done.text), told)
        self.assertNotRegex(done.text, "[\x00-\x08\x0b-\x1f\x7f]", told)
