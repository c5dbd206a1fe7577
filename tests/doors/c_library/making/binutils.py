#!/usr/bin/env python3
"""Runs binutils' own tests of libctf with libctfd.so, through clients/c/gnu/ctf-api.h: each program
is compiled unchanged, and its output compared with the one that binutils expects.

usage: tests/doors/c_library/making/binutils.py LIBRARIES CONVERT [SOURCES]

LIBRARIES is the folder of libctfd.so. CONVERT is the command ctfd-convert, which writes the
dictionaries of the tests' sources from `gcc -g`, instead of binutils' compiler, which would write
GNU's format. SOURCES is the folder of the sources of binutils 2.40. By default they are downloaded
from Debian with apt-get, into a temporary folder; if that fails, a line says so, and the status is
0.

Two of the 17 tests need something that version 2 of the format does not have: a dictionary for each
unit of a program. Prints a line for each test that fails; the status is 1 if a test other than
these two failed.
"""
from __future__ import annotations

import re
import shutil
import subprocess
import sys
import tempfile
from dataclasses import dataclass, field
from pathlib import Path
from typing import Optional

TOP = Path(__file__).resolve().parents[4]
# In these, a type differs between two units, and is looked up in the dictionary of one.
OF_UNITS = {"ambiguous-struct", "pptrtab"}
VERSION = "2.40-2"


def run(*words: object, folder: Optional[Path] = None) -> subprocess.CompletedProcess[str]:
    return subprocess.run([str(word) for word in words], cwd=folder, text=True, errors="replace",
                          stdin=subprocess.DEVNULL, capture_output=True, timeout=300, check=False)


def download(work: Path) -> Optional[Path]:
    """The test suite from Debian's source package, or None if it cannot be downloaded."""
    if not shutil.which("apt-get"):
        return None
    lists, here = work / "lists", work / "sources"
    (lists / "partial").mkdir(parents=True)
    here.mkdir()
    named = work / "debian.sources"
    named.write_text("Types: deb-src\nURIs: http://deb.debian.org/debian\nSuites: bookworm\n"
                     "Components: main\nSigned-By: /usr/share/keyrings/debian-archive-keyring.gpg\n",
                     encoding="utf-8")
    words = ("apt-get", "-q", "-o", f"Dir::Etc::sourcelist={named}", "-o",
             "Dir::Etc::sourceparts=/dev/null", "-o", f"Dir::State::lists={lists}", "-o",
             "APT::Sandbox::User=root", "-o", "Acquire::Retries=2")
    if run(*words, "update").returncode != 0:
        return None
    run(*words, "source", "--download-only", f"binutils={VERSION}", folder=here)
    found = sorted(here.glob("binutils_*.orig.tar.*"))
    if not found:
        return None
    run("tar", "xf", found[0], "--wildcards", "*/libctf/testsuite/*", "--strip-components=1",
        folder=here)
    return here


@dataclass
class Case:
    """A test: a program, the sources of what it reads, and the expected lines."""

    path: Path
    words: dict[str, list[str]] = field(default_factory=dict)
    wanted: list[str] = field(default_factory=list)

    @classmethod
    def read(cls, path: Path) -> Case:
        case = cls(path)
        for line in path.read_text(encoding="utf-8").splitlines():
            found = re.match(r"# (\w+)(?:: (.*))?$", line)
            if found:
                case.words.setdefault(found[1], []).append(found[2] or "")
            else:
                case.wanted.append(line)
        while case.wanted and not case.wanted[-1]:
            case.wanted.pop()
        return case

    @property
    def name(self) -> str:
        return self.path.stem

    @property
    def program(self) -> Path:
        return self.path.parent / self.words.get("lookup", [f"{self.name}.c"])[0]


class Failure(Exception):
    """The reason why a test fails."""


def must(done: subprocess.CompletedProcess[str], what: str) -> None:
    if done.returncode != 0:
        raise Failure(f"{what}: {done.stderr.strip()[-300:]}")


def compiled_sources(case: Case, work: Path) -> Path:
    """The file that the test reads: linked as the test says, with debug information."""
    sources = [case.path.parent / name for name in case.words["source"]]
    out = work / f"{case.name}.so"
    if "link" in case.words or "link_flags" in case.words:
        partial = any("-r" in flags.split() for flags in case.words.get("link_flags", []))
        flags = ["-r"] if partial else [] if "nonshared" in case.words else ["-shared"]
        must(run("gcc", "-g", "-fPIC", *flags, *sources, "-o", out), "its sources")
        return out
    objects = [work / f"{case.name}.{number}.o" for number in range(len(sources))]
    for source, made in zip(sources, objects):
        must(run("gcc", "-g", "-fPIC", "-c", source, "-o", made), "its sources")
    must(run("ld", "-r", *objects, "-o", out), "its sources")
    return out


def judge(case: Case, work: Path, libraries: Path, convert: Path) -> None:
    """Runs a test. Raises Failure if its output is not the expected one."""
    program = work / case.name
    must(run("gcc", f"-I{work}", f"-I{TOP / 'clients' / 'c' / 'gnu'}", case.program,
             f"-L{libraries}", "-lctfd", f"-Wl,-rpath,{libraries}", "-o", program), "the program")
    read = []
    if "source" in case.words:
        read = [work / f"{case.name}.with"]
        must(run(convert, "--section", compiled_sources(case, work), read[0]), "its dictionary")
    done = run(program, *read)
    seen = done.stdout.splitlines()
    if done.returncode != 0 or done.stderr:
        raise Failure(f"status {done.returncode}: {done.stderr.strip()}")
    if len(seen) != len(case.wanted) or not all(map(re.fullmatch, case.wanted, seen)):
        raise Failure(f"it printed {seen}, and not {case.wanted}")


def main() -> int:
    assert __doc__
    if len(sys.argv) < 3:
        print(__doc__.split("\n\n")[1])
        return 2
    libraries, convert = Path(sys.argv[1]).resolve(), Path(sys.argv[2]).absolute()
    with tempfile.TemporaryDirectory() as folder:
        work = Path(folder)
        try:
            sources = Path(sys.argv[3]).resolve() if len(sys.argv) > 3 else download(work)
        except subprocess.TimeoutExpired:
            sources = None
        cases = sorted(sources.glob("libctf/testsuite/*/*.lk")) if sources else []
        if not cases:
            print("binutils: the sources of binutils can't be had here")
            return 0
        (work / "config.h").write_text("", encoding="utf-8")
        failed = set()
        for path in cases:
            case = Case.read(path)
            try:
                judge(case, work, libraries, convert)
            except Failure as why:
                failed.add(f"{path.parent.name}/{case.name}")
                print(f"{path.parent.name}/{case.name}: {why}")
    others = {name for name in failed if name.split("/")[1] not in OF_UNITS}
    print(f"binutils: {len(cases)} tests, {len(cases) - len(failed)} pass, {len(others)} failed that "
          "should pass")
    return bool(others)


if __name__ == "__main__":
    sys.exit(main())
