"""The reader of programs: stored hashes, an independent reader, and damaged programs."""
from __future__ import annotations

import shutil
import subprocess
from pathlib import Path

import pytest

HERE = Path(__file__).parent


def run(script: str, *words: str) -> None:
    """Runs a script in a Python of its own. The scripts measure the memory of commands, and the
    system reports at least the memory of the Python that starts the command."""
    done = subprocess.run([str(HERE / script), *words], capture_output=True, text=True)
    assert done.returncode == 0, done.stdout + done.stderr
    missing = [line for line in done.stdout.splitlines() if line.startswith("not possible here")]
    if missing:
        pytest.skip("; ".join(missing))


def test_sums(whole: bool) -> None:
    run("sums.py", *(["--all"] if whole else []))


def test_independent_reading() -> None:
    run("independent.py")


def test_mutants(whole: bool) -> None:
    run("mutants.py", *(["--count", "20000"] if whole else []))


@pytest.mark.skipif(not shutil.which("pahole"), reason="no pahole here")
def test_beside_pahole(program: str, tmp_path: Path) -> None:
    """C++ classes outside namespaces, which are all that pahole lists, and a program."""
    made = []
    for compiler, source in (("g++", "classes.cc"), ("gcc", "types.c")):
        made.append(tmp_path / f"{source}.o")
        subprocess.run([compiler, "-g", "-w", "-c", str(HERE / source), "-o", str(made[-1])],
                       check=True)
    subprocess.run([str(HERE.parent / "convert" / "beside_pahole.py"), program, *map(str, made),
                    "/lib/x86_64-linux-gnu/libc.so.6"], check=True)
