"""Helpers for the tests of stores: programs with their debug files, packages, and a store."""
from __future__ import annotations

import io
import json
import shutil
import subprocess
import sys
import tarfile
from pathlib import Path
from typing import Any, Iterable, Optional

from .. import support as doors
from ..support import CLIENTS, LIBRARY, Case, Outcome, Word, tool

SOURCE = """
struct packet { char kind; struct packet *next; short port; } first;
enum color { RED, GREEN = 5 };
enum color shade = GREEN;
int weigh(struct packet *one, int count) { return one ? one->port * count : -1; }
int main(void) { return weigh(&first, shade); }
"""
BUILD_IDS, INDEX = "buildid", "SHA256SUMS"
DEBUG = "usr/lib/debug"
TYPES = Path(__file__).with_name("types.c")
# The headers of libctf's calls, with the compiler options for each.
HEADERS = {"illumos": (), "gnu": ("-DGNU", "-I", CLIENTS / "c/gnu")}
# The spec of a package of some files in a folder.
SPEC = """
Name: {name}
Version: 1
Release: 1
Summary: {name}
License: none
AutoReqProv: no
%description
{name}
%install
cp -a {root}/. %{{buildroot}}
%files
{files}
"""
# Keeps rpmbuild from changing files, and from writing outside one folder.
UNCHANGED = ("debug_package %{nil}", "__os_install_post %{nil}", "_build_id_links none")
# A command that takes longer hangs; no test measures the time of one.
SECONDS = 600


def run(*words: Word, **others: Any) -> Outcome:
    """Runs a command, however long it takes on a busy machine."""
    return doors.run(*words, **{"seconds": SECONDS, **others})


class StoreCase(Case):
    """A test case with a folder for a store."""

    def setUp(self) -> None:
        super().setUp()
        self.needs("gcc", "objcopy", "readelf")
        self.store = self.folder / "store"

    def command(self, *words: Word, **others: Any) -> Outcome:
        """Runs `ctfd-store`, and asserts that no signal ended it."""
        done = run(tool("store"), *words, **others)
        self.assert_tame(done, words, seconds=SECONDS, megabytes=2000)
        return done

    def add(self, *words: Word, status: int = 0, store: Optional[Path] = None) -> Outcome:
        done = self.command("add", store or self.store, *words)
        self.assertEqual(done.status, status, done.text)
        return done

    def assert_sound(self, store: Optional[Path] = None) -> None:
        """Asserts that `ctfd-store check` and sha256sum find no fault in the store."""
        done = self.command("check", store or self.store)
        self.assertEqual((done.status, done.errors), (0, ""), done.text)
        if ((store or self.store) / INDEX).read_bytes():
            subprocess.run(["sha256sum", "--quiet", "--strict", "-c", INDEX], check=True,
                           cwd=store or self.store)

    def program(self, name: str = "program", source: str = SOURCE, *options: str) -> Path:
        """A program with debug information and a build-id."""
        return self.compile(source, "-g", "-Wl,--build-id", *options, name=f"{name}.exe")

    def split(self, program: Path) -> tuple[Path, Path]:
        """A stripped copy of a program, and its debug file, as in packages."""
        debug, stripped = program.with_suffix(".debug"), program.with_suffix(".stripped")
        subprocess.run(["objcopy", "--only-keep-debug", "--compress-debug-sections", program,
                        debug], check=True)
        subprocess.run(["strip", "-o", stripped, program], check=True)
        return stripped, debug

    def build(self, program: Path, store: Optional[Path] = None) -> Path:
        """The folder of a program's build in a store."""
        return (store or self.store) / BUILD_IDS / build_id(program)

    def listing(self) -> list[dict[str, Any]]:
        done = self.command("list", "--json", self.store)
        return [json.loads(line) for line in done.output.splitlines()]

    def package(self, name: str, files: dict[str, bytes]) -> Path:
        """A Debian package of files with any names."""
        members = [tarfile.TarInfo(path) for path in files]
        for member in members:
            member.size = len(files[member.name])
        return self.package_of(name, members, files)

    def package_of(self, name: str, members: Iterable[tarfile.TarInfo],
                   files: dict[str, bytes]) -> Path:
        """A Debian package with these archive members."""
        self.needs("dpkg-deb", "ar")
        made = self.folder / name
        control = b"Package: x\nVersion: 1\nArchitecture: all\nMaintainer: x\nDescription: x\n"
        parts = {"debian-binary": b"2.0\n",
                 "control.tar.gz": archive([tarfile.TarInfo("./control")], {"./control": control}),
                 "data.tar.gz": archive(members, files)}
        folder = self.folder / f"{name}.parts"
        folder.mkdir()
        for part, data in parts.items():
            (folder / part).write_bytes(data)
        subprocess.run(["ar", "rc", made, *(folder / part for part in parts)], check=True)
        return made

    def package_of_rpm(self, name: str, files: dict[str, bytes], *defined: str) -> Path:
        """An RPM package of files with these names."""
        self.needs("rpmbuild", "rpm2cpio")
        top = self.folder / f"{name}.rpmbuild"
        root, spec = top / "root", top / f"{name}.spec"
        for path, data in files.items():
            (root / path).parent.mkdir(parents=True, exist_ok=True)
            (root / path).write_bytes(data)
        listed = "\n".join(f"/{path}" for path in files)
        spec.write_text(SPEC.format(name=name, root=root, files=listed))
        words = [word for one in (f"_topdir {top}", f"_dbpath {top}/db", *UNCHANGED, *defined)
                 for word in ("--define", one)]
        done = subprocess.run(["rpmbuild", "-bb", "--quiet", *words, spec], capture_output=True,
                              text=True, cwd=top)
        self.assertEqual(done.returncode, 0, done.stderr)
        return next(top.glob("RPMS/*/*.rpm"))

    def prefix(self) -> Path:
        """A folder with the library for C and `ctfd-store`, as they are installed."""
        made, part = self.folder / "prefix", LIBRARY.with_name("libctfd_elf.so")
        if not made.exists():
            if not (LIBRARY.exists() and part.exists()):
                message = "skipped: no libctfd.so and libctfd_elf.so are built"
                print(message, file=sys.stderr)
                self.skipTest(message)
            for folder in ("lib", "bin"):
                (made / folder).mkdir(parents=True)
            for library in (LIBRARY, part):
                shutil.copy(library, made / "lib" / f"{library.name}.0")
            shutil.copy(tool("store"), made / "bin/ctfd-store")
        return made

    def libctf(self, header: str) -> Path:
        """A program that opens files through libctf's calls, by one of the headers."""
        self.needs("gcc")
        made, libraries = self.folder / f"types.{header}", self.prefix() / "lib"
        words = ["gcc", "-std=gnu11", "-I", CLIENTS / "c", *HEADERS[header], TYPES, "-o", made,
                 libraries / "libctfd.so.0", f"-Wl,-rpath,{libraries}"]
        subprocess.run(words, check=True)
        return made


def archive(members: Iterable[tarfile.TarInfo], files: dict[str, bytes]) -> bytes:
    """A tar archive of members, with the bytes of those that are files."""
    made = io.BytesIO()
    with tarfile.open(fileobj=made, mode="w:gz") as out:
        for member in members:
            data = files.get(member.name, b"")
            member.size = len(data)
            out.addfile(member, io.BytesIO(data))
    return made.getvalue()


def build_id(program: Path) -> str:
    """The build-id of a file, according to readelf."""
    said = subprocess.run(["readelf", "-n", program], capture_output=True, text=True, check=True)
    return said.stdout.split("Build ID: ")[1].split()[0]


def sections(program: Path) -> dict[str, tuple[int, str]]:
    """The sections of a file according to readelf: the size and flags of each."""
    said = subprocess.run(["readelf", "-SW", program], capture_output=True, text=True, check=True)
    made = {}
    for line in said.stdout.splitlines():
        words = line.split("]", 1)[-1].split()
        if line.startswith("  [") and len(words) > 8 and words[0].startswith("."):
            made[words[0]] = (int(words[4], 16), words[6] if len(words) == 10 else "")
    return made


def section_bytes(program: Path, name: str) -> bytes:
    """The bytes of a section, at readelf's offset."""
    said = subprocess.run(["readelf", "-SW", program], capture_output=True, text=True, check=True)
    words = next(line.split("]", 1)[1].split() for line in said.stdout.splitlines()
                 if f"] {name} " in line)
    offset, size = int(words[3], 16), int(words[4], 16)
    return program.read_bytes()[offset:offset + size]


def contents(folder: Path) -> dict[str, bytes]:
    """All files below a folder, except for the lock."""
    return {str(path.relative_to(folder)): path.read_bytes()
            for path in sorted(folder.rglob("*")) if path.is_file() and path.name != ".lock"}
