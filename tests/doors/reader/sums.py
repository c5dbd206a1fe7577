#!/usr/bin/env python3
"""Compares the output of the compiled ctfd-convert with stored hashes.

usage: tests/doors/reader/sums.py [--all | --write]

The hashes in sums.txt were made when two independently written readers gave the same bytes and
messages. The files are programs, libraries and object files of gcc and clang with types in all
formats, archives, sections by themselves, the BTF of this machine's kernel if it shows one,
Debian's debug files if they are installed, damaged files, and files that cannot be converted. A
hash is of the dictionary, the report, the parent of --split, and standard error; the status is
stored beside it. Each undamaged file is converted again with --verify, which checks the output
against the debug information in a different way.

Prints each difference, and counts; the status is 1 if there is one. The hashes are valid for the
tools that sums.txt names, and for files of exactly those bytes; other output is only verified. With
--all there are ten times as many damaged files. --write stores new hashes: look at each that
changes. Needs gcc, objcopy and the compiled commands (`make`).
"""
from __future__ import annotations

import hashlib
import os
import random
import re
import shutil
import subprocess
import sys
import tempfile
from concurrent.futures import ThreadPoolExecutor
from pathlib import Path
from typing import Iterator, NamedTuple, Optional, Sequence

TOP = Path(__file__).resolve().parents[3]
sys.path.insert(0, str(TOP / "scripts"))
import rust  # noqa: E402

SUMS = Path(__file__).with_name("sums.txt")
SOURCE = Path(__file__).with_name("types.c")
TAGS = Path(__file__).with_name("tags.c")
PARTS = Path(__file__).with_name("parts.c")
LIBC = Path("/lib/x86_64-linux-gnu/libc.so.6")
KERNEL = Path("/sys/kernel/btf/vmlinux")
DEBUG = Path("/usr/lib/debug/.build-id")
TOOLS = ("gcc", "clang", "objcopy", "dwz", "pahole", "dwp", "llvm-dwp")
SECONDS = 300
DAMAGED = 40
Words = Sequence[str]


class Outcome(NamedTuple):
    """The outcome of a command, and the files that it wrote."""

    status: int
    errors: str
    files: dict[str, bytes]

    @property
    def sum(self) -> str:
        """The status, and a hash of everything else."""
        made = hashlib.blake2b(self.errors.encode(), digest_size=8)
        for name in sorted(self.files):
            made.update(b"%d %s " % (len(self.files[name]), name.encode()) + self.files[name])
        return f"{self.status} {made.hexdigest()}"


def run(command: Path, words: Words, inputs: Path) -> Outcome:
    """Runs a command, with @OUT replaced by the path of a new folder's file."""
    with tempfile.TemporaryDirectory() as folder:
        given = [word.replace("@OUT", f"{folder}/out") for word in words]
        try:
            done = subprocess.run([str(command), *given], capture_output=True, cwd=inputs,
                                  timeout=SECONDS)
        except subprocess.TimeoutExpired:
            return Outcome(-99, "it hangs", {})
        files = {path.name: path.read_bytes() for path in Path(folder).iterdir()}
        errors = done.stderr.decode("utf-8", "backslashreplace")
        return Outcome(done.returncode, errors.replace(folder, "@").replace(str(inputs), "@IN"),
                       files)


def plain_words(folder: Path, compiler: str = "gcc") -> Words:
    """Options with which a compiler writes the same bytes in any folder."""
    seed = ("-frandom-seed=7",) if compiler == "gcc" else ()
    return ("-w", f"-fdebug-prefix-map={folder}=.", f"-fdebug-prefix-map={TOP}=/ctfd", *seed)


def compiled_cases(folder: Path) -> Iterator[Words]:
    """Compiled files and variants of them, with the arguments to convert each."""
    code = SOURCE.read_text()
    (folder / "types.c").write_text(code)
    (folder / "other.c").write_text(code.replace("main", "second"))

    # gcc orders GNU's CTF by addresses in its memory.
    steady = ("setarch", "-R") if shutil.which("setarch") else ()

    def gcc(*words: str, compiler: str = "gcc") -> bool:
        return subprocess.run([*steady, compiler, *plain_words(folder, compiler), *words], cwd=folder,
                              capture_output=True).returncode == 0

    report = ("@OUT.ctf", "--report", "@OUT.report")
    forms: dict[str, Words] = {
        "program": ("-g",), "linked32": ("-g", "-m32"), "units": ("-g", "-fdebug-types-section"),
        "zipped": ("-g", "-gz"), "version2": ("-gdwarf-2",), "version3": ("-gdwarf-3",),
        "version4": ("-gdwarf-4",), "strict": ("-gdwarf-5", "-gstrict-dwarf"),
        "optimised": ("-g", "-O2"), "gnu": ("-gctf",), "lto": ("-g", "-O2", "-flto"),
        "library.so": ("-g", "-shared", "-fPIC"), "object.o": ("-g", "-c"),
        "object32.o": ("-g", "-c", "-m32"), "gnu.o": ("-gctf", "-c"), "btf.o": ("-gbtf", "-c"),
        "second.o": ("-g", "-c", "-x", "c", "other.c")}
    for name, words in forms.items():
        sources = () if "other.c" in words else ("types.c",)
        if gcc(*words, *sources, "-o", name):
            yield (name, *report)
    if shutil.which("clang") and gcc("-g", "types.c", "-o", "clang", compiler="clang"):
        yield ("clang", *report)
    yield from split(folder)
    yield from derived_files(folder)
    yield from apart(folder)
    units = [f"tags{unit}.o" for unit in (1, 2, 3)]
    if all(gcc("-g", "-c", f"-DUNIT={name[4]}", str(TAGS), "-o", name) for name in units):
        for name, order in (("tags", units), ("backward", units[::-1])):
            gcc(*order, "-o", name)
            yield (name, *report)


def apart(folder: Path) -> Iterator[Words]:
    """A program with link-time optimization, in which each function has a unit of its own and its
    types are in other units; and the same after dwz."""
    lto = (*plain_words(folder), "-g", "-O2", "-flto", "-flto-partition=max")
    commands = [("gcc", *lto, "-c", f"-DUNIT={unit}", str(PARTS), "-o", f"parts{unit}.o")
                for unit in (1, 2)]
    commands.append(("gcc", *lto, "parts1.o", "parts2.o", "-o", "parts"))
    for command in commands:
        if subprocess.run(command, cwd=folder, capture_output=True).returncode != 0:
            return
    yield ("parts", "@OUT.ctf", "--report", "@OUT.report")
    if shutil.which("dwz") and subprocess.run(
            ("dwz", "-o", "common-parts", "parts"), cwd=folder, capture_output=True).returncode == 0:
        yield ("common-parts", "@OUT.ctf", "--report", "@OUT.report")


def split(folder: Path) -> Iterator[Words]:
    """Programs whose debug information is in .dwo files, and in packages of these."""
    for version in ("4", "5"):
        options = (*plain_words(folder), "-g", f"-gdwarf-{version}", "-gsplit-dwarf",
                   "-fdebug-types-section")
        objects = []
        for name in ("types", "other"):
            made_object = f"{name}{version}.o"
            done = subprocess.run(["gcc", *options, "-c", f"{name}.c", "-o", made_object],
                                  cwd=folder, capture_output=True)
            if done.returncode != 0:
                return
            objects.append(made_object)
        program = f"split{version}"
        subprocess.run(["gcc", *objects, "-Wl,-z,muldefs", "-o", program], cwd=folder, check=True,
                       capture_output=True)
        yield (program, "@OUT.ctf", "--report", "@OUT.report")
        apart = folder / f"package{version}"
        apart.mkdir()
        shutil.copy(folder / program, apart / "program")
        for tool in ("dwp", "llvm-dwp"):
            package = apart / "program.dwp"
            if shutil.which(tool) and not package.exists() and subprocess.run(
                    [tool, "-e", program, "-o", str(package)], cwd=folder,
                    capture_output=True).returncode != 0:
                package.unlink(missing_ok=True)
        if (apart / "program.dwp").exists():
            yield (f"package{version}/program", "@OUT.ctf")


def derived_files(folder: Path) -> Iterator[Words]:
    """Files derived from others, and other options."""
    def tool(*words: str) -> bool:
        return bool(shutil.which(words[0])) and subprocess.run(
            words, cwd=folder, capture_output=True).returncode == 0

    report = ("@OUT.ctf", "--report", "@OUT.report")
    if tool("objcopy", "--only-keep-debug", "program", "program.debug") and \
            tool("strip", "-o", "stripped", "program"):
        tool("objcopy", "--add-gnu-debuglink=program.debug", "stripped")
        yield ("stripped", *report)
        yield ("stripped", *report, "--debug-folder", ".")
    if tool("ar", "rcs", "archive.a", "object.o", "second.o"):
        yield ("archive.a", *report)
    if tool("ar", "rcsT", "thin.a", "object.o", "second.o"):
        yield ("thin.a", *report)
    if tool("dwz", "-o", "common", "program"):
        yield ("common", *report)
    if tool("objcopy", "--dump-section", ".ctf=section.gnu", "gnu.o"):
        yield ("section.gnu", *report)
    if tool("pahole", "-J", "--btf_encode_detached=section.btf", "program"):
        yield ("section.btf", *report)
    tool("strip", "-o", "library-stripped.so", "library.so")
    shutil.copy(TOP / "examples" / "lua.ctf", folder / "lua.ctf")
    for words in (
            ("library.so", *report, "--symbols", "dynsym"), ("library-stripped.so", *report),
            ("program", "@OUT.ctf", "--section"), ("program", "@OUT.ctf", "--only", "struct packet"),
            ("program", "@OUT.ctf", "--only", "nothing_like_it_xyzzy"),
            ("program", "@OUT.ctf", "--parent", "lua.ctf"), ("program", "@OUT.ctf", "--lossy"),
            ("program", "@OUT.ctf", "--split", "@OUT.parent"), ("program", "@OUT.ctf", "--from", "btf"),
            ("program", "@OUT.ctf", "--model", "ilp32"), ("program", "@OUT.ctf", "--dictionary", "7"),
            ("lua.ctf", *report), ("lua.ctf", "@OUT.ctf", "--only", "lua_State"),
            ("lua.ctf", "@OUT.ctf", "--dictionary", "2"), ("lua.ctf", "lua.ctf"),
            ("types.c", "@OUT.ctf"), ("/dev/null", "@OUT.ctf"), ("/nonexistent", "@OUT.ctf"),
            ("program", "@OUT.ctf", "--report", "@OUT.ctf"), ("program", "/"), (".", "@OUT.ctf"),
            ("program", "@OUT.ctf", "--parent", "lua.ctf", "--split", "@OUT.parent")):
        yield words


def installed_files() -> Iterator[Words]:
    """The kernel's BTF, and a large debug file of Debian's."""
    report = ("@OUT.ctf", "--report", "@OUT.report")
    if os.access(KERNEL, os.R_OK):
        yield (str(KERNEL), *report)
        yield (str(KERNEL), "@OUT.ctf", "--split", "@OUT.parent")
    else:
        print(f"not possible here: there is no {KERNEL}")
    largest = sorted(DEBUG.glob("*/*.debug"), key=lambda path: -path.stat().st_size)[:1]
    for path in [*largest, *([LIBC] if largest else [])]:
        yield (str(path), *report)


def damaged_copies(folder: Path, count: int) -> Iterator[Words]:
    """Copies of a program with some bytes changed."""
    chance = random.Random(7)
    sound = [folder / name for name in ("program", "units", "gnu.o", "btf.o", "lua.ctf")
             if (folder / name).exists()]
    for number in range(count):
        whole = bytearray(chance.choice(sound).read_bytes())
        for _ in range(chance.randrange(1, 4)):
            whole[chance.randrange(len(whole))] = chance.choice((0, 255, 128, 1))
        path = folder / f"damaged{number}"
        path.write_bytes(whole[:chance.choice((len(whole), chance.randrange(len(whole))))])
        yield (path.name, "@OUT.ctf")


def tools() -> str:
    """The versions of the tools that make the files."""
    found = []
    for name in TOOLS:
        said = subprocess.run([name, "--version"], capture_output=True, text=True).stdout \
            if shutil.which(name) else ""
        version = re.search(r"\d+\.\d+[.\d]*", said.partition("\n")[0] or said)
        found.append(f"{name} {version[0] if version else '-'}")
    return ", ".join(found)


def case_name(words: Words) -> str:
    """The name of a case: its arguments, and a hash of the file if it was not made here."""
    path = Path(words[0])
    is_here = path.is_absolute() and os.path.isfile(path) and path.stat().st_size
    of = f"{hashlib.blake2b(path.read_bytes(), digest_size=8).hexdigest()} " if is_here else ""
    return of + " ".join(words)


def stored_sums() -> tuple[str, dict[str, str]]:
    """The tools that the hashes are valid for, and the hashes by case."""
    made, lines = {}, SUMS.read_text().splitlines() if SUMS.exists() else [""]
    for line in lines[1:]:
        status, total, case = line.split(" ", 2)
        made[case] = f"{status} {total}"
    return lines[0], made


class Counts:
    """The numbers of comparisons and errors."""

    def __init__(self, command: Path, folder: Path) -> None:
        self.command, self.folder = command, folder
        self.tools, self.sums = stored_sums()
        self.is_same_tools = self.tools == tools()
        self.made: dict[str, str] = {}
        self.compared = self.verified = self.unknown = self.wrong = 0

    def judge(self, words: Words, found: Outcome, again: Optional[Outcome]) -> None:
        """Compares an output with its hash, and with the verified one."""
        case = case_name(words)
        self.made[case] = found.sum
        if again is not None:
            self.verified += 1
            self._refuse(words, again.sum != found.sum,
                         f"with --verify: {again.sum.split()[0]} {again.errors[-300:]}")
        if self.is_same_tools and case in self.sums:
            self.compared += 1
            self._refuse(words, self.sums[case] != found.sum,
                         f"{found.sum} in place of {self.sums[case]}: {found.errors[-300:]}")
        else:
            self.unknown += 1

    def _refuse(self, words: Words, is_wrong: bool, why: str) -> None:
        if is_wrong:
            self.wrong += 1
            print(f"ctfd-convert {' '.join(words)}: {why}")

    def pair(self, words: Words) -> tuple[Words, Outcome, Optional[Outcome]]:
        """A case's outcome, and its outcome with --verify."""
        found = run(self.command, words, self.folder)
        is_sound = not words[0].startswith("damaged") and found.status in (0, 1)
        again = run(self.command, (*words, "--verify"), self.folder) if is_sound else None
        return words, found, again


def main(given: Sequence[str] = ()) -> int:
    compiled = rust.folder() / "ctfd-convert"
    if not compiled.exists():
        print("not possible here: the compiled commands are not built (scripts/rust.py)"
              if not shutil.which("cargo") else f"skipped: there is no {compiled}, which `make` builds")
        return 0
    with tempfile.TemporaryDirectory() as made_in:
        folder = Path(made_in)
        counts = Counts(compiled, folder)
        cases = [*compiled_cases(folder), *installed_files()]
        is_all = "--all" in given or "--write" in given
        cases += damaged_copies(folder, DAMAGED * (10 if is_all else 1))
        with ThreadPoolExecutor(2) as lanes:
            for words, found, again in lanes.map(counts.pair, cases):
                counts.judge(words, found, again)
    if "--write" in given:
        lines = [tools(), *(f"{total} {case}" for case, total in counts.made.items())]
        SUMS.write_text("\n".join(lines) + "\n")
    if not counts.is_same_tools:
        print(f"not possible here: sums are of {counts.tools}, and here is {tools()}")
    print(f"reader: {counts.compared} conversions compared with their sums, {counts.unknown} of files"
          f" without, {counts.verified} verified, {counts.wrong} differ")
    return 1 if counts.wrong or not counts.verified else 0


if __name__ == "__main__":
    sys.exit(main(sys.argv[1:]))
