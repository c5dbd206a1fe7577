"""The record of the last build: how, and from which sources, the files in the crates' `out` were
built.

The file beside the program has the build's kind and hashes of its sources, the program and the
library. So files that were put there by hand, or built from older sources, are recognised. `rt ci`
clears the folder, and with it this file.
"""
from __future__ import annotations

import enum
import hashlib
import json
import os
import shutil
from dataclasses import asdict, dataclass
from pathlib import Path
from typing import Iterator, Optional

TOP = Path(__file__).resolve().parents[1]
PROGRAM = TOP / "crates" / "ctfd" / "out" / "ctfd"
ARCHIVE = TOP / "crates" / "ctf_c" / "out" / "libctfd.a"
CALLS = TOP / "clients" / "c"
TOLD = PROGRAM.with_name("built.json")
READ = ("src", "specs", "proofs")


class How(enum.Enum):
    """How the program and the library were built."""

    QUICK = "quick"
    PROVED = "proved"


# The text about the build in the program (crates/ctfd/src/commands.rt) and the library.
SAYS = {How.QUICK: "quick build: proofs not checked",
        How.PROVED: "proved build: rattle-kit-13, logic dac8208d650f15bf"}


@dataclass(frozen=True)
class BuildRecord:
    """How a build was made, with hashes of its sources, the program and the library. `calls` is the
    hash of the sources of libctf's calls, "" if the library does not contain them."""

    how: How
    sources: str
    program: str
    archive: str
    calls: str


def sum_of(path: Path) -> str:
    return hashlib.sha256(path.read_bytes()).hexdigest()


def source_files(repository: Path) -> Iterator[Path]:
    """All files of a repository that the kit reads, in a fixed order."""
    yield from (repository / name for name in ("crates.txt", "HANDLES"))
    for part in READ:
        yield from sorted(path for path in (repository / "crates").glob(f"*/{part}/**/*")
                          if path.is_file())


def sum_of_sources(repository: Path, kit: str) -> str:
    """The hash of the sources of a program, and of the kit's identity."""
    found = hashlib.sha256(kit.encode())
    for path in source_files(repository):
        found.update(f"{path.relative_to(repository)} {sum_of(path)}\n".encode())
    return found.hexdigest()


def record_of_out() -> Optional[BuildRecord]:
    """The record of the files in `out`, or None if there is no record or they differ from it."""
    try:
        said = json.loads(TOLD.read_text(encoding="utf-8"))
        built = BuildRecord(How(said.pop("how")), **said)
        stands = BuildRecord(built.how, built.sources, sum_of(PROGRAM), sum_of(ARCHIVE),
                             built.calls)
    except (OSError, ValueError, KeyError, TypeError):
        return None
    return built if built == stands else None


def sum_of_calls() -> str:
    """The hash of the sources of libctf's calls and of the script that compiles them."""
    found = hashlib.sha256(TOP.joinpath("scripts", "libctf.py").read_bytes())
    for path in sorted(CALLS.glob("**/*.[ch]")):
        found.update(f"{path.relative_to(CALLS)} {sum_of(path)}\n".encode())
    return found.hexdigest()


def tell(how: How, sources: str, calls: str) -> None:
    """Writes the record of the files in `out`."""
    built = BuildRecord(how, sources, sum_of(PROGRAM), sum_of(ARCHIVE), calls)
    TOLD.write_text(json.dumps({**asdict(built), "how": how.value}) + "\n", encoding="utf-8")


def put(made: Path, place: Path) -> None:
    """Copies a file to its place with a rename, so that nobody sees a part of it."""
    place.parent.mkdir(parents=True, exist_ok=True)
    new = place.with_name(f"{place.name}.new")
    shutil.copy2(made, new)
    os.replace(new, place)
