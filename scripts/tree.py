#!/usr/bin/env python3
"""Installs what is built below a prefix, or removes it.

usage: scripts/tree.py --prefix PREFIX [--root FOLDER] [--program PROGRAM] [--archive ARCHIVE]
                       [--packages FOLDER] [--remove]

Installed are the program, the libraries for C with their headers and a pkg-config file, the manual
pages, the systemd units, the Python package, and the Rust commands, which scripts/rust.py compiles
if cargo is installed. FOLDER of --root goes in front of all paths, as DESTDIR does.

pip installs the package. pip, setuptools and wheel are those of the Python that PYTHON in the
environment names, else of `python3` or Debian's, whichever has them. The package goes to the folder
below the prefix in which that Python looks for packages, or into --packages, which is also below
the prefix.
"""
from __future__ import annotations

import argparse
import os
import shutil
import subprocess
import sys
import tempfile
from dataclasses import dataclass
from pathlib import Path
from typing import Iterator, Optional

import built
import libctf
import rust
from version import TOP, differing, version

CLIENT = TOP / "clients" / "python"
COMPLETIONS = TOP / "clients" / "completions"
# The compiled Rust programs.
COMMANDS = sorted((*rust.COMMANDS, rust.FRONT))
# Headers, and their places. GNU's header has the name of another one, so it gets its own folder.
HEADERS = {"ctfd.h": "ctfd.h", "ctfd_libctf.h": "ctfd_libctf.h",
           "gnu/ctf-api.h": "ctfd/gnu/ctf-api.h"}
DEBIANS = "/usr/bin/python3"
# What builds and installs a package, with Debian's package of each.
NEEDED = {"pip": "python3-pip", "setuptools": "python3-setuptools", "wheel": "python3-wheel"}
# Prints the folder below a prefix in which a Python looks for packages.
LOOKS = """
import site, sys, sysconfig
below = sys.argv[1].rstrip("/") + "/"
of_site = [folder for folder in site.getsitepackages() if folder.startswith(below)]
if sys.argv[1].rstrip("/") == "/usr":
    of_site = [folder for folder in of_site if not folder.startswith("/usr/local/")]
print(of_site[0] if of_site else sysconfig.get_path("purelib", "posix_prefix",
                                                    {"base": sys.argv[1]}))
"""


class Lacking(Exception):
    """Something that is needed is missing."""


@dataclass(frozen=True)
class BuildOutput:
    """The built files."""

    program: Path
    archive: Path

    @property
    def shared_libraries(self) -> list[Path]:
        """The shared libraries beside the archive."""
        beside = (self.archive.with_name(name) for name in (libctf.SHARED, libctf.ELF_SHARED))
        return [path for path in beside if path.exists()]

    @property
    def commands(self) -> dict[str, Path]:
        """The commands by name: the front, and one program that has the names of all others."""
        program, front = (rust.folder() / name for name in (rust.PROGRAM, rust.FRONT))
        places = {**dict.fromkeys(rust.COMMANDS, program), rust.FRONT: front}
        return {name: path for name, path in places.items() if path.exists()}

    def judge(self) -> None:
        """Raises Lacking if something is missing or has another version."""
        for place in differing():
            raise Lacking(f"{place} does not tell the version {version()}, which VERSION has")
        for path in (self.program, self.archive, self.archive.with_name(libctf.SHARED)):
            if not path.exists():
                raise Lacking(f"there is no {path}: `make` builds it")
        judge_version("ctfd", self.program)
        for name, path in self.commands.items():
            judge_version(name, path, *([] if name == rust.FRONT else [name]))


def judge_version(name: str, path: Path, *words: str) -> None:
    """Raises Lacking if a program has another version."""
    said = subprocess.run([path, *words, "--version"], stdout=subprocess.PIPE, text=True,
                          check=False).stdout.partition("\n")[0]
    if said != f"{name} {version()}":
        raise Lacking(f"{path} tells {said!r}, and VERSION has {version()}: `make` builds it anew")


@dataclass(frozen=True)
class Places:
    """The folders of an installation below a prefix. `root` goes in front of all of them."""

    prefix: Path
    packages: Path
    libraries: Path
    root: Path = Path("/")

    def real(self, path: Path) -> Path:
        return self.root / path.relative_to("/")

    def texts(self) -> Iterator[tuple[Path, Path, int]]:
        """Each file of this repository to install: its destination, its source, and its mode."""
        for name, place in HEADERS.items():
            yield self.prefix / "include" / place, TOP / "clients" / "c" / name, 0o644
        yield self.libraries / "pkgconfig" / "ctfd.pc", TOP / "clients" / "c" / "ctfd.pc.in", 0o644
        for page in sorted((TOP / "docs" / "man").glob("*.[1-9]")):
            yield self.prefix / "share/man" / f"man{page.suffix[1:]}" / page.name, page, 0o644
        for unit in sorted((TOP / "clients" / "units").iterdir()):
            yield self.prefix / "lib/systemd/system" / unit.name, unit, 0o644
        completions = self.prefix / "share/bash-completion/completions"
        for name in (*COMMANDS, "ctfd"):
            yield completions / name, COMPLETIONS / "ctfd.bash", 0o644
        yield self.prefix / "share/zsh/site-functions/_ctfd", COMPLETIONS / "_ctfd", 0o644

    def text(self, source: Path) -> str:
        """The content of an installed file."""
        text = source.read_text(encoding="utf-8")
        libraries = os.path.relpath(self.libraries, self.prefix)
        # The system's loader searches /usr by itself.
        run_path = "" if self.prefix == Path("/usr") else "-Wl,-rpath,${libdir} "
        return (text.replace("@PREFIX@", str(self.prefix)).replace("@LIBRARIES@", libraries)
                .replace("@RUNPATH@", run_path)
                .replace("@VERSION@", version()).replace("@BIN@", str(self.prefix / "bin")))


def python() -> str:
    """The Python whose pip builds and installs packages. Raises Lacking."""
    named = os.environ.get("PYTHON")
    found = [named] if named else ["python3", DEBIANS]
    lacks = {one: lacking(one) for one in found}
    for one, missing in lacks.items():
        if missing == []:
            return one
    one, missing = next(iter(lacks.items()))
    if missing is None:
        raise Lacking(f"there is no {one}")
    names = " ".join(NEEDED[name] for name in missing)
    raise Lacking(f"{one} has no {' and no '.join(missing)}: install Debian's {names}, or name by "
                  "PYTHON a Python that has them")


def lacking(one: str) -> Optional[list[str]]:
    """The modules that a Python lacks for this, or None if there is no such Python."""
    asks = ("import importlib.util as it, sys; "
            "print(*[name for name in sys.argv[1:] if it.find_spec(name) is None])")
    try:
        said = subprocess.run([one, "-c", asks, *NEEDED], stdout=subprocess.PIPE, text=True,
                              check=True).stdout
    except (OSError, subprocess.CalledProcessError):
        return None
    return said.split()


def run(*words: object, **environment: str) -> None:
    """Runs a command, whose output is shown only if it fails. Raises Lacking then."""
    ended = subprocess.run([str(word) for word in words], stdout=subprocess.PIPE,
                           stderr=subprocess.STDOUT, text=True, errors="replace",
                           env={**os.environ, **environment}, check=False)
    if ended.returncode != 0:
        raise Lacking(f"{words[0]} ended with status {ended.returncode}:\n{ended.stdout.strip()}")


def wheel(into: Path, made: Optional[BuildOutput] = None) -> Path:
    """Builds the wheel of the package into a folder; the same sources give the same wheel. With
    `made`, it contains the library and the programs, and is for Linux on x86-64 only."""
    with tempfile.TemporaryDirectory() as folder:
        # setuptools writes into the source folder, so it gets a copy.
        copy = Path(folder, "python")
        shutil.copytree(CLIENT, copy, ignore=not_sources)
        for path in copy.rglob("*"):
            path.chmod(0o755 if path.is_dir() else 0o644)
        if made:
            carry(made, copy)
        run(python(), "-m", "pip", "wheel", "--quiet", "--no-index", "--no-deps",
            "--no-build-isolation", "--no-cache-dir", "--disable-pip-version-check",
            "--wheel-dir", into, copy)
    return next(into.glob(f"ctfd-{version()}-*.whl"))


def carry(made: BuildOutput, copy: Path) -> None:
    """Puts the built files into a copy of the client, with an entry point for each command."""
    programs = {"ctfd": made.program, **{path.name: path for path in made.commands.values()}}
    for name, path in programs.items():
        place = copy / "ctfd" / "bin" / name
        built.put(path, place)
        place.chmod(0o755)
    for path in made.shared_libraries:
        place = copy / "ctfd" / libctf.soname(path.name)
        built.put(path, place)
        place.chmod(0o644)
    scripts = "".join(f'{name} = "ctfd.commands:main"\n' for name in ("ctfd", *made.commands))
    project = copy / "pyproject.toml"
    text = project.read_text(encoding="utf-8")
    text = text.replace("\n[tool.setuptools]\n", f"\n[project.scripts]\n{scripts}\n[tool.setuptools]\n")
    text = text.replace('ctfd = ["py.typed"]', 'ctfd = ["py.typed", "bin/*", "*.so.*"]')
    project.write_text(text, encoding="utf-8")
    (copy / "setup.cfg").write_text("[bdist_wheel]\nplat_name = linux_x86_64\n", encoding="utf-8")


def not_sources(folder: str, names: list[str]) -> set[str]:
    """The names in a folder of the client that the package leaves out."""
    left_out = {"build", "tests"} if Path(folder) == CLIENT else set()
    return {name for name in names
            if name in left_out or name == "__pycache__" or name.endswith(".egg-info")}


def put_package(places: Places) -> None:
    """Installs the package with pip."""
    folder = places.real(places.packages)
    remove_package(places)
    with tempfile.TemporaryDirectory() as made:
        wheel(Path(made))
        installed = Path(made, "installed")
        run(python(), "-m", "pip", "install", "--quiet", "--no-index", "--no-deps", "--no-compile",
            "--no-warn-script-location", "--disable-pip-version-check", "--find-links", made,
            "--target", installed, f"ctfd=={version()}", PIP_ROOT_USER_ACTION="ignore")
        shutil.copytree(installed, folder, dirs_exist_ok=True)
        for path in package_files(folder):
            path.chmod(0o755 if path.is_dir() else 0o644)


def package_files(folder: Path) -> Iterator[Path]:
    """All files of the package in a folder of packages."""
    for top in (folder / "ctfd", *folder.glob("ctfd-*.dist-info")):
        if top.is_dir():
            yield top
            yield from top.rglob("*")


def put(made: BuildOutput, places: Places) -> None:
    """Installs everything."""
    made.judge()
    put_package(places)
    commands = {"ctfd": made.program, **made.commands}
    binaries = [(places.prefix / "bin" / name, path, 0o755) for name, path in commands.items()]
    for path, source, mode in (*binaries, (places.libraries / "libctfd.a", made.archive, 0o644)):
        built.put(source, places.real(path))
        places.real(path).chmod(mode)
    put_shared(made, places.real(places.libraries))
    for path, source, mode in places.texts():
        real = places.real(path)
        real.parent.mkdir(parents=True, exist_ok=True)
        real.write_text(places.text(source), encoding="utf-8")
        real.chmod(mode)


def put_shared(made: BuildOutput, folder: Path) -> None:
    """Copies the shared libraries to the folder of the archive, under their versions, with the
    links that programs and linkers look for."""
    for source in made.shared_libraries:
        whole = folder / f"{source.name}.{version()}"
        built.put(source, whole)
        whole.chmod(0o644)
        soname = libctf.soname(source.name)
        for link, to in ((soname, whole.name), (source.name, soname)):
            folder.joinpath(link).unlink(missing_ok=True)
            folder.joinpath(link).symlink_to(to)
    part = made.archive.with_name(libctf.ELF_ARCHIVE)
    if part.exists():
        built.put(part, folder / part.name)
        (folder / part.name).chmod(0o644)


def shared_files(places: Places) -> Iterator[Path]:
    """All paths that `put_shared` may have written."""
    for name in (libctf.SHARED, libctf.ELF_SHARED):
        for file in (name, libctf.soname(name), f"{name}.{version()}"):
            yield places.libraries / file
    yield places.libraries / libctf.ELF_ARCHIVE


def remove_package(places: Places) -> None:
    folder = places.real(places.packages)
    for top in (folder / "ctfd", *folder.glob("ctfd-*.dist-info")):
        shutil.rmtree(top, ignore_errors=True)


def remove(places: Places) -> None:
    """Removes every installed file, and the package's folders."""
    remove_package(places)
    binaries = (places.prefix / "bin" / name for name in ("ctfd", *COMMANDS))
    for path in (*binaries, places.libraries / "libctfd.a", *shared_files(places),
                 *(path for path, _, _ in places.texts())):
        places.real(path).unlink(missing_ok=True)


def looked_in(prefix: Path) -> Path:
    """The folder below a prefix in which the Python that has pip looks for packages."""
    said = subprocess.run([python(), "-c", LOOKS, prefix], stdout=subprocess.PIPE, text=True,
                          check=True).stdout
    return Path(said.strip())


def main() -> int:
    assert __doc__
    options = argparse.ArgumentParser(
        usage=" ".join(__doc__.split("usage: ")[1].split("\n\n")[0].split()))
    options.add_argument("--prefix", type=Path, required=True)
    options.add_argument("--root", type=Path, default=Path("/"))
    options.add_argument("--program", type=Path, default=built.PROGRAM)
    options.add_argument("--archive", type=Path, default=built.ARCHIVE)
    options.add_argument("--packages", type=Path)
    options.add_argument("--remove", action="store_true")
    given = options.parse_args()
    os.umask(0o022)
    try:
        prefix = Path(os.path.abspath(given.prefix))
        places = Places(prefix, given.packages or looked_in(prefix), prefix / "lib",
                        Path(os.path.abspath(given.root)))
        if given.remove:
            remove(places)
        else:
            put(BuildOutput(given.program, given.archive), places)
    except (Lacking, OSError) as why:
        print(f"nothing is {'removed' if given.remove else 'installed'}: {why}", file=sys.stderr)
        return 1
    return 0


if __name__ == "__main__":
    sys.exit(main())
