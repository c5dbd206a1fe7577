#!/usr/bin/env python3
"""Compiles libctf's calls into a built libctfd.a, and makes the shared libraries beside it.

usage: scripts/libctf.py ARCHIVE

ARCHIVE is an archive that scripts/quick.py or the kit made. The objects of clients/c/libctf replace
those that are in it. Beside it the script makes

- libctfd.so, linked from the objects of the archive. It exports only ctfd_* and ctf_*, with a
  version, and its own calls bind to itself, whatever else a process has loaded;
- libctfd_elf.so and libctfd_elf.a, the part that reads ELF files. libctfd.so loads it for such a
  file; a program that links the archive links it too, or leaves it out.

Needs a C compiler: the one that CC names, else cc. The part for ELF files needs the headers of
libelf and zlib (Debian's libelf-dev and zlib1g-dev); without them it is not made, and a line says
so.
"""
from __future__ import annotations

import argparse
import os
import shlex
import shutil
import subprocess
import sys
import tempfile
from concurrent.futures import ThreadPoolExecutor
from dataclasses import dataclass
from pathlib import Path
from typing import Optional, Sequence

from version import TOP, version

HEADERS = TOP / "clients" / "c"
SOURCES = HEADERS / "libctf"
MAJOR = version().split(".", maxsplit=1)[0]
SHARED, ELF_SHARED, ELF_ARCHIVE = "libctfd.so", "libctfd_elf.so", "libctfd_elf.a"
# The sources that are not in the archive: the part for ELF files, and its loader for libctfd.so.
ELF, LOADING = SOURCES / "elf.c", SOURCES / "loading.c"
PREFIX = "libctf_"
FLAGS = ("-std=c11", "-O2", "-fPIC", "-fvisibility=hidden", "-ffunction-sections",
         "-fdata-sections", "-Wall", "-Wextra", "-pedantic", f"-I{HEADERS}")
# Nothing else is visible from outside. The version separates a program's calls from those of
# another libctf in its process.
EXPORTS = f"CTFD_{MAJOR} {{ global: ctfd_*; ctf_*; local: *; }};\n"
LIBRARIES = ("-lelf", "-lz")
# The text about the build in an archive that is given by hand.
UNTOLD = "a build that nobody told of"


class NotCompiled(Exception):
    """A tool is missing or has failed."""


def soname(shared: str) -> str:
    return f"{shared}.{MAJOR}"


def run(*words: object, folder: Optional[Path] = None) -> str:
    """Runs a tool, and returns its output. Raises NotCompiled."""
    try:
        ended = subprocess.run([str(word) for word in words], cwd=folder, text=True,
                               errors="replace", stdout=subprocess.PIPE, stderr=subprocess.STDOUT,
                               check=False)
    except OSError as why:
        raise NotCompiled(f"{words[0]}: {why.strerror}") from why
    if ended.returncode != 0:
        raise NotCompiled(f"{words[0]} ended with status {ended.returncode}:\n"
                          f"{ended.stdout.strip()[-2000:]}")
    return ended.stdout


@dataclass(frozen=True)
class Tools:
    """The C compiler with its flags, and the archiver."""

    compiler: Sequence[str]
    archiver: str

    @classmethod
    def find(cls, archiver: str = "ar") -> Tools:
        """The tools of this machine. Raises NotCompiled if it has no C compiler."""
        compiler = shlex.split(os.environ.get("CC") or "cc")
        if not compiler or not shutil.which(compiler[0]):
            raise NotCompiled("there is no C compiler: install Debian's gcc and libc6-dev, or name "
                              "one by CC")
        return cls(compiler, archiver)

    def compile(self, source: Path, folder: Path, *flags: str) -> Path:
        """Compiles a source to an object."""
        made = folder / f"{PREFIX}{source.stem}.o"
        run(*self.compiler, *FLAGS, *flags, "-c", source, "-o", made)
        return made

    def has_elf(self, folder: Path) -> bool:
        """Whether programs can be built with libelf and zlib here."""
        test = folder / "has_elf.c"
        test.write_text("#include <gelf.h>\n#include <zlib.h>\nint main(void)\n{\n"
                        "    return elf_version(EV_CURRENT) == EV_NONE || zlibVersion() == 0;\n}\n",
                        encoding="utf-8")
        try:
            run(*self.compiler, test, *LIBRARIES, "-o", test.with_suffix(""))
        except NotCompiled:
            return False
        return True

    def link(self, name: str, folder: Path, *words: object) -> Path:
        """Links a shared library that exports the calls for C."""
        script, made = folder / f"{name}.map", folder / name
        script.write_text(EXPORTS, encoding="utf-8")
        run(*self.compiler, "-shared", "-o", made, f"-Wl,-soname,{soname(name)}",
            f"-Wl,--version-script={script}", "-Wl,-Bsymbolic", "-Wl,-z,defs", "-Wl,-z,now",
            "-Wl,-z,noexecstack", "-Wl,--gc-sections", *words)
        return made


def lacks_elf(folder: Path) -> bool:
    """Whether a built library lacks the part for ELF files, and it can be made by now."""
    if (folder / ELF_SHARED).exists():
        return False
    with tempfile.TemporaryDirectory() as made:
        try:
            return Tools.find().has_elf(Path(made))
        except NotCompiled:
            return False


def in_archive() -> list[Path]:
    """The sources whose objects are in the archive."""
    return sorted(path for path in SOURCES.glob("*.c") if path not in (ELF, LOADING))


def put_objects(tools: Tools, archive: Path, folder: Path, says: str) -> None:
    """Compiles the calls, and puts their objects into an archive in place of the old ones."""
    flag = f'-DCTFD_BUILD="{says}"'
    with ThreadPoolExecutor(os.cpu_count()) as together:
        objects = list(together.map(lambda source: tools.compile(source, folder, flag),
                                    in_archive()))
    old = [name for name in run(tools.archiver, "t", archive).split() if name.startswith(PREFIX)]
    if old:
        run(tools.archiver, "dD", archive, *old)
    run(tools.archiver, "rcsD", archive, *objects)


def share(tools: Tools, archive: Path, folder: Path) -> Path:
    """Links libctfd.so from an archive. It finds the part for ELF files in its own folder."""
    part = tools.compile(LOADING, folder, f'-DCTFD_ELF_PART="{soname(ELF_SHARED)}"')
    return tools.link(SHARED, folder, "-Wl,-rpath,$ORIGIN", "-Wl,--enable-new-dtags",
                      "-Wl,--whole-archive", archive, "-Wl,--no-whole-archive", part, "-ldl")


def elf_part(tools: Tools, folder: Path) -> list[Path]:
    """Makes the part for ELF files, as a shared library and as an archive."""
    visible = tools.compile(ELF, folder, "-fvisibility=default")
    shared = tools.link(ELF_SHARED, folder, visible, *LIBRARIES)
    archive = folder / ELF_ARCHIVE
    archive.unlink(missing_ok=True)
    run(tools.archiver, "rcsD", archive, visible)
    return [shared, archive]


def remove_shared(folder: Path) -> None:
    for name in (SHARED, ELF_SHARED, ELF_ARCHIVE, soname(SHARED), soname(ELF_SHARED)):
        folder.joinpath(name).unlink(missing_ok=True)


def put_shared(made: Path, folder: Path) -> None:
    """Copies a library to its place; programs find a shared one by its so-name."""
    new = folder / f"{made.name}.new"
    shutil.copy2(made, new)
    os.replace(new, folder / made.name)
    if made.suffix == ".so":
        # a second name of the same file: `rt ci` refuses symbolic links below crates/
        link = folder / soname(made.name)
        link.unlink(missing_ok=True)
        os.link(folder / made.name, link)


def make(archive: Path, archiver: str = "ar", says: str = UNTOLD) -> list[Path]:
    """Completes an archive, and makes the libraries beside it. Raises NotCompiled."""
    tools = Tools.find(archiver)
    with tempfile.TemporaryDirectory() as made:
        folder = Path(made)
        whole = folder / archive.name
        shutil.copy2(archive, whole)
        with ThreadPoolExecutor(1) as beside:
            part = beside.submit(elf_part, tools, folder) if tools.has_elf(folder) else None
            put_objects(tools, whole, folder, says)
            libraries = [share(tools, whole, folder)]
        if part:
            libraries += part.result()
        else:
            print("without the part for ELF files: there is no libelf or zlib to compile with "
                  "(Debian: libelf-dev zlib1g-dev)", file=sys.stderr)
        remove_shared(archive.parent)
        os.replace(shutil.copy2(whole, archive.with_name(f"{archive.name}.new")), archive)
        for library in libraries:
            put_shared(library, archive.parent)
    return [archive, *(archive.parent / library.name for library in libraries)]


def main() -> int:
    assert __doc__
    options = argparse.ArgumentParser(usage=__doc__.split("usage: ")[1].split("\n")[0])
    options.add_argument("archive", type=Path)
    try:
        print(*make(options.parse_args().archive.resolve(strict=True)), sep="\n")
    except (NotCompiled, OSError) as why:
        print(f"no calls of libctf: {why}", file=sys.stderr)
        return 1
    return 0


if __name__ == "__main__":
    sys.exit(main())
