"""Opens damaged files with ctf_open, under AddressSanitizer and UndefinedBehaviorSanitizer.

A program opens each file through libctf's calls, whose C code is compiled with the sanitizers, and
asks for all its types and objects. Tries a sample of the files, and 2,000 with --whole.
"""
from __future__ import annotations

import subprocess
import tempfile
from pathlib import Path
from typing import Iterator

import pytest

from .. import damaged
from ..support import ARCHIVE, CLIENTS, MEGABYTES, SECONDS, TRACE, has_header, run

SHARE, ALL, SEED = 200, 2000, 1
OPENS = Path(__file__).parents[1] / "opens.c"
SANITIZERS = ("-g", "-O1", "-fsanitize=address,undefined", "-fno-sanitize-recover=all")
# The sanitizers' shadow, and freed memory that they keep, do not count as the program's memory.
OF_SANITIZERS = 200


def build(folder: Path) -> Path:
    """Compiles the program, with libctf's calls in it. Raises CalledProcessError."""
    sources = [path for path in sorted((CLIENTS / "c" / "libctf").glob("*.c"))
               if path.name != "loading.c"]
    made = folder / "opens"
    subprocess.run(["gcc", "-std=gnu11", *SANITIZERS, "-I", str(CLIENTS / "c"), str(OPENS),
                    *map(str, sources), str(ARCHIVE), "-lelf", "-lz", "-o", str(made)],
                   check=True)
    return made


def problems(count: int, seed: int) -> Iterator[str]:
    """The problems, one per line."""
    with tempfile.TemporaryDirectory() as made:
        folder = Path(made)
        program = build(folder)
        files = folder / "files"
        files.mkdir()
        damaged.write(files, count, seed)
        for path in sorted(files.glob("[0-9]*")):
            done = run(program, path, seconds=SECONDS)
            told = f"{path.name}: status {done.status} in {done.seconds:.1f} s,"\
                   f" {done.megabytes:.0f} MB: {done.errors[-600:]}"
            if done.status not in (0, 1) or TRACE.search(done.text):
                yield told
            elif done.seconds > SECONDS or done.megabytes > MEGABYTES + OF_SANITIZERS:
                yield told


@pytest.mark.skipif(not (ARCHIVE.exists() and has_header("libelf.h") and has_header("zlib.h")),
                    reason="no library, libelf or zlib here")
def test_sanitized(whole: bool) -> None:
    assert not list(problems(ALL if whole else SHARE, SEED))
