#!/usr/bin/env python3
"""Makes packages of the built files, in dist/. The same commit and build give the same bytes.

usage: scripts/package.py deb|dist|release [--into FOLDER] [--program PROGRAM] [--archive ARCHIVE]

`deb` makes a Debian package, using only dpkg-deb. `dist` makes a tarball with an install script
(tarball.sh) and a wheel of the Python package with the library and the programs. If cargo is
installed, it also makes a tarball of the Rust sources with all crates that they use, which builds
without a registry. The Debian package and the first tarball contain the program, the library for C,
headers, manual pages, units, the commands and the Python package. `release` makes all of these, but
only from a proved build (`make prove`). Times in packages are those of the commit, or of
SOURCE_DATE_EPOCH. Needs dpkg-deb for `deb`, git, and the tools that build a wheel
(scripts/tree.py).
"""
from __future__ import annotations

import argparse
import gzip
import hashlib
import io
import os
import re
import shutil
import subprocess
import sys
import tarfile
import tempfile
from pathlib import Path
from typing import Iterator

import built
import rust
import tree
from tree import TOP, Lacking, BuildOutput, Places
from version import version

SCRIPTS = TOP / "scripts"
DEBIAN = SCRIPTS / "debian"
LIBC = re.compile(rb"GLIBC_(\d+)\.(\d+)\b")
HOW = {built.How.PROVED: "by the Rattle kit, with their proofs",
       built.How.QUICK: "of the same sources without checking their proofs"}


def epoch() -> int:
    """The time of the commit, for all files. Raises Lacking."""
    told = os.environ.get("SOURCE_DATE_EPOCH")
    if not told:
        try:
            told = subprocess.run(["git", "log", "-1", "--format=%ct"], cwd=TOP, check=True,
                                  capture_output=True, text=True).stdout
        except (OSError, subprocess.CalledProcessError) as why:
            raise Lacking("git does not tell the time of the commit: say it in SOURCE_DATE_EPOCH, "
                          "in seconds") from why
    return int(told)


def files(folder: Path) -> Iterator[Path]:
    """All files and folders below a folder, in a fixed order."""
    yield from sorted(folder.rglob("*"))


def at_one_time(folder: Path, seconds: int) -> None:
    """Gives all files below a folder the same time, and folders the same mode."""
    for path in (folder, *files(folder)):
        if path.is_dir():
            path.chmod(0o755)
        os.utime(path, (seconds, seconds), follow_symlinks=False)


def gzip_bytes(data: bytes) -> bytes:
    """Data compressed by gzip, without a time or a name."""
    made = io.BytesIO()
    with gzip.GzipFile(filename="", mode="wb", compresslevel=9, fileobj=made, mtime=0) as out:
        out.write(data)
    return made.getvalue()


def how_built(made: BuildOutput) -> str:
    """How the files to pack were built, as far as is known."""
    stands = built.record_of_out() if made == BuildOutput(built.PROGRAM, built.ARCHIVE) else None
    return HOW[stands.how] if stands else "in a way that nobody told"


def libc(*files_of_libc: Path) -> str:
    """The least version of the C library with which a program and its libraries run."""
    found = {(int(major), int(minor)) for path in files_of_libc if path.exists()
             for major, minor in LIBC.findall(path.read_bytes())}
    if not found:
        raise Lacking(f"{files_of_libc[0]} names no version of the C library")
    return "{}.{}".format(*max(found))


def write(path: Path, data: bytes, mode: int = 0o644) -> None:
    path.parent.mkdir(parents=True, exist_ok=True)
    path.write_bytes(data)
    path.chmod(mode)


def describe(stage: Path, made: BuildOutput) -> None:
    """Writes the control files of a Debian package whose files are in a folder."""
    listed = [path for path in files(stage) if path.is_file() and not path.is_symlink()]
    size = sum(-(-path.stat().st_size // 1024) for path in listed)
    compiled = made.commands.values()
    control = (DEBIAN / "control").read_text(encoding="utf-8").format(
        version=version(), size=size, libc=libc(made.program, *made.shared_libraries, *compiled),
        gcc=", libgcc-s1" if compiled else "", how=how_built(made))
    sums = "".join(f"{hashlib.md5(path.read_bytes()).hexdigest()}  {path.relative_to(stage)}\n"
                   for path in listed)
    write(stage / "DEBIAN" / "control", control.encode())
    write(stage / "DEBIAN" / "md5sums", sums.encode())
    for name in ("postinst", "prerm"):
        write(stage / "DEBIAN" / name, (DEBIAN / name).read_bytes(), 0o755)


def deb(made: BuildOutput, into: Path, seconds: int) -> list[Path]:
    """Makes the Debian package."""
    if not shutil.which("dpkg-deb"):
        raise Lacking("there is no dpkg-deb: install Debian's package dpkg")
    usr = Path("/usr")
    package = into / f"ctfd_{version()}_amd64.deb"
    with tempfile.TemporaryDirectory() as folder:
        stage = Path(folder)
        tree.put(made, Places(usr, usr / "lib/python3/dist-packages", usr / "lib/x86_64-linux-gnu",
                              stage))
        for page in (stage / "usr/share/man").glob("man*/*"):
            write(page.with_name(f"{page.name}.gz"), gzip_bytes(page.read_bytes()))
            page.unlink()
        write(stage / "usr/share/doc/ctfd/changelog.gz",
              gzip_bytes((TOP / "CHANGELOG.md").read_bytes()))
        describe(stage, made)
        at_one_time(stage, seconds)
        tree.run("dpkg-deb", "--root-owner-group", "-Zgzip", "-z9", "--build", stage, package,
                 SOURCE_DATE_EPOCH=str(seconds))
    return [package]


def dist(made: BuildOutput, into: Path, seconds: int) -> list[Path]:
    """Makes the tarball and the wheel."""
    name = f"ctfd-{version()}"
    tarball = into / f"{name}-x86_64-linux.tar.gz"
    with tempfile.TemporaryDirectory() as folder:
        stage = Path(folder, name)
        stage.mkdir()
        # The package has its own folder, for any Python.
        tree.put(made, Places(Path("/"), Path("/lib/ctfd"), Path("/lib"), stage))
        listed = "".join(f"{path.relative_to(stage)}\n" for path in files(stage) if path.is_file())
        write(stage / "FILES", listed.encode())
        write(stage / "CHANGELOG.md", (TOP / "CHANGELOG.md").read_bytes())
        write(stage / "BUILT", f"Program and library were built {how_built(made)}.\n".encode())
        write(stage / "install.sh", (SCRIPTS / "tarball.sh").read_bytes(), 0o755)
        at_one_time(stage, seconds)
        tarball.write_bytes(gzip_bytes(tar_of(stage, seconds)))
    return [tarball, tree.wheel(into, made), *rust_sources(into, seconds)]


def rust_sources(into: Path, seconds: int) -> list[Path]:
    """Makes the tarball of the Rust sources; nothing without cargo or the crates."""
    name = f"ctfd-rust-{version()}"
    with tempfile.TemporaryDirectory() as folder:
        stage = Path(folder, name)
        for line in git_files("clients/rust", "scripts/rust.py", "scripts/progress.py",
                              "examples/lua.ctf", "VERSION"):
            place = stage / line
            place.parent.mkdir(parents=True, exist_ok=True)
            shutil.copy2(TOP / line, place)
        try:
            rust.vendor(stage / "clients" / "rust" / "vendor")
        except rust.NotBuilt as why:
            print(f"without the sources in Rust: {why}", file=sys.stderr)
            return []
        at_one_time(stage, seconds)
        tarball = into / f"{name}.tar.gz"
        tarball.write_bytes(gzip_bytes(tar_of(stage, seconds)))
    return [tarball]


def git_files(*words: str) -> list[str]:
    """The files that git tracks below some folders."""
    told = subprocess.run(["git", "ls-files", "-z", *words], cwd=TOP, check=True,
                          capture_output=True, text=True).stdout
    return [line for line in told.split("\0") if line]


def tar_of(stage: Path, seconds: int) -> bytes:
    """A folder as a tar file whose owner is root."""

    def owned_by_root(member: tarfile.TarInfo) -> tarfile.TarInfo:
        member.uid = member.gid = 0
        member.uname = member.gname = "root"
        member.mtime = seconds
        return member

    made = io.BytesIO()
    with tarfile.open(fileobj=made, mode="w", format=tarfile.GNU_FORMAT) as out:
        for path in (stage, *files(stage)):
            out.add(path, str(path.relative_to(stage.parent)), recursive=False,
                    filter=owned_by_root)
    return made.getvalue()


def release(made: BuildOutput, into: Path, seconds: int) -> list[Path]:
    """Makes all packages, if the build is a proved one."""
    says = built.SAYS[built.How.PROVED]
    stands = built.record_of_out() if made == BuildOutput(built.PROGRAM, built.ARCHIVE) else None
    if not stands or stands.how is not built.How.PROVED:
        raise Lacking(f"what stands there was built {how_built(made)}: `make prove` first")
    for path in (made.program, made.archive):
        if says.encode() not in path.read_bytes():
            raise Lacking(f"{path} does not say {says!r}: `make prove` first")
    return [*deb(made, into, seconds), *dist(made, into, seconds)]


KINDS = {"deb": deb, "dist": dist, "release": release}


def main() -> int:
    assert __doc__
    options = argparse.ArgumentParser(
        usage=" ".join(__doc__.split("usage: ")[1].split("\n\n")[0].split()))
    options.add_argument("kind", choices=tuple(KINDS))
    options.add_argument("--into", type=Path, default=TOP / "dist")
    options.add_argument("--program", type=Path, default=built.PROGRAM)
    options.add_argument("--archive", type=Path, default=built.ARCHIVE)
    given = options.parse_args()
    os.umask(0o022)
    made = BuildOutput(Path(os.path.abspath(given.program)), Path(os.path.abspath(given.archive)))
    into = Path(os.path.abspath(given.into))
    try:
        into.mkdir(parents=True, exist_ok=True)
        seconds = epoch()
        os.environ["SOURCE_DATE_EPOCH"] = str(seconds)
        for path in KINDS[given.kind](made, into, seconds):
            print(path)
    except (Lacking, OSError, ValueError) as why:
        print(f"no package is made: {why}", file=sys.stderr)
        return 1
    return 0


if __name__ == "__main__":
    sys.exit(main())
