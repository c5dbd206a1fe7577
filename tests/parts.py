"""The parts of the tests: commands that end with status 0 on success."""
from __future__ import annotations

import os
import subprocess
import sys
from dataclasses import dataclass, field, replace
from pathlib import Path
from typing import Mapping, Sequence

TOP = Path(__file__).resolve().parents[1]
CLIENT = TOP / "clients" / "python"


@dataclass(frozen=True)
class Part:
    """A command, its working folder, and variables to add to its environment.

    It begins after the parts in `after` have ended. A part that measures time runs alone.
    """

    name: str
    command: Sequence[str]
    folder: Path = TOP
    words: Mapping[str, str] = field(default_factory=dict)
    after: tuple[str, ...] = ()
    is_alone: bool = False


# Parts that try only some of their cases, but all with this option.
SAMPLED = ("growths", "front", "convert", "reader", "doors")
WHOLE = "--whole"
PYTEST = ("-m", "pytest", "-q", "-rs", "-p", "no:cacheprovider", "-W", "ignore")


def whole(part: Part) -> Part:
    """A part with all of its cases."""
    return replace(part, command=[*part.command, WHOLE]) if part.name in SAMPLED else part


def with_package(name: str) -> str:
    """A Python that has a package; otherwise this one."""
    for python in (sys.executable, "/usr/bin/python3"):
        if Path(python).exists() and subprocess.run(
                [python, "-c", f"import {name}"], capture_output=True).returncode == 0:
            return python
    return sys.executable


def library() -> Path:
    """The shared library, which is beside the archive."""
    named = os.environ.get("CTFD_ARCHIVE", TOP / "crates" / "ctf_c" / "out" / "libctfd.a")
    return Path(named).resolve().with_name("libctfd.so")


def archive(is_made: bool) -> Part:
    """Makes the library for C from what the kit has proved, or takes the one that is there."""
    return Part("archive", ["tests/doors/c_library/archive.py", *([] if is_made else ["--kept"])])


def quick(program: str) -> Part:
    """Builds everything again without the proofs, and compares that with the proved build."""
    return Part("quick", ["tests/doors/packages/quick.sh", program], after=("compiled",))


def parts(program: str) -> list[Part]:
    """All parts for a program and the library beside it; those that take longest come first."""
    return [*doors(program), *packages(program), *of_the_service(program), *of_the_house(),
            Part("front", ["tests/doors/front/run.sh", program], after=("compiled",),
                 is_alone=True),
            Part("hostile", ["bench/hostile.py", program, "--limit", "5"], is_alone=True)]


def pytest(name: str, program: str, *words: str, after: tuple[str, ...] = ()) -> Part:
    """A part that runs folders and files with pytest."""
    return Part(name, [with_package("pytest"), *PYTEST, "--program", program, *words], after=after)


def client(name: str, words: Mapping[str, str], after: tuple[str, ...], tests: str) -> Part:
    """A part with tests of the Python package."""
    return Part(name, [with_package("pytest"), *PYTEST, tests], CLIENT, words, after)


def doors(program: str) -> list[Part]:
    """Tests of what people run and link, as black boxes."""
    folder, compiled, over = "tests/doors", ("archive", "compiled"), {"CTFD": program}
    return [
        Part("shown", [with_package("pycparser"), f"{folder}/shown/run.py", program],
             after=compiled),
        client("client", over, ("compiled",), "tests"),
        # The same tests with the library in process; the part above uses a `ctfd serve`.
        client("client_in_process", {**over, "CTFD_LIBRARY": str(library())}, compiled, "tests"),
        Part("gdb", [f"{folder}/gdb/run.sh", program], after=("compiled",)),
        Part("debuginfo", [f"{folder}/debuginfo/run.sh", program], after=("compiled",)),
        Part("show", [f"{folder}/show/run.sh"], after=("compiled",)),
        Part("convert", [f"{folder}/convert/run.sh", program], after=("compiled",)),
        # Builds the compiled commands, with the library.
        Part("compiled", ["scripts/rust.py", "--quiet"], after=("archive",)),
        pytest("reader", program, f"{folder}/reader", after=compiled),
        Part("c_library", [f"{folder}/c_library/run.sh", program], after=compiled),
        pytest("rows", program, f"{folder}/c_library", after=("archive",)),
        # Making dictionaries through libctf's calls.
        Part("making", [f"{folder}/c_library/making.sh"], after=compiled),
        Part("lending", [f"{folder}/c_library/lending.sh"], after=("archive",)),
        Part("examples", ["tests/house/examples.py", "--try"], after=("archive",)),
        # The commands, with the hostile files that tests/doors makes.
        pytest("doors", program, f"{folder}/commands", after=compiled),
        # Stores of types by build-id, and the web servers in front of them.
        pytest("store", program, f"{folder}/store", after=compiled),
        Part("ilp32", [f"{folder}/ilp32/run.sh", program], after=compiled),
    ]


def packages(program: str) -> list[Part]:
    """Tests of installation, packages and releases, and of the Rust crates."""
    folder, compiled = "tests/doors", ("archive", "compiled")
    return [
        Part("packages", [f"{folder}/packages/packages.sh", program], after=compiled),
        Part("install", [f"{folder}/packages/install.sh", program], after=compiled),
        Part("rust", [f"{folder}/rust/run.sh"], after=("archive",)),
        Part("clippy", [f"{folder}/rust/clippy.sh"], after=compiled),
    ]


def of_the_service(program: str) -> list[Part]:
    """Tests of the line protocol, and of dictionaries as text."""
    folder = "tests/doors/service"
    return [
        pytest("growths", program, f"{folder}/growths"),
        pytest("stack", program, f"{folder}/stack", after=("archive",)),
        pytest("streams", program, f"{folder}/streams"),
        pytest("damage", program, f"{folder}/test_damage.py", WHOLE),
        Part("program", [f"{folder}/program.sh", program]),
        pytest("replies", program, *(f"{folder}/{name}" for name in (
            "test_transcripts.py", "test_examples.py", "test_lists_refused.py", "by_hand")),
               after=("archive",)),
        pytest("dumps", program, "tests/doors/dump"),
        Part("written_by_pahole", ["tests/doors/dump/written_by_pahole.sh"]),
    ]


def of_the_house() -> list[Part]:
    """Checks that need no program (names, pages, style and lists), and the manual pages."""
    return [
        Part("house", [with_package("pytest"), *PYTEST, "tests/house"]),
        Part("manual", ["tests/house/manual.sh"], after=("compiled",)),
    ]
