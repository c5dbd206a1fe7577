#!/usr/bin/env python3
"""Compares one program, in all forms of debug information that compilers and tools make, with the
output of pahole and gdb.

usage: forms.py SERVICE

SERVICE is a built ctfd. The program of tests/doors/convert/forms is built by gcc and clang, if they
are installed, with DWARF 4 and 5: as program, library, object file and archive; for 32 bits; with
split debug information, packages of it, type units, compressed sections; with link-time
optimization; after dwz, by itself and with a common file; and stripped in four ways, with a debug
file beside it and with the dictionary in it. ctfd-convert converts each form. Each struct and union
must be as pahole lists it for the plain program, and none of the form may be missing. Each symbol
with a type must be as gdb declares it, and if the form has all symbols, each must have a type.

Prints each difference, then counts; the status is 1 if there is one. Forms that need a missing tool
are skipped, with a line that says so.
"""
from __future__ import annotations

import re
import shutil
import subprocess
import sys
import tempfile
from dataclasses import dataclass, field
from pathlib import Path
from typing import Dict, List, Sequence, Set

import beside_pahole  # noqa: E402  it knows where the client is
from beside_pahole import Listed
from command import convert

import ctfd
from ctfd.view import declare

SOURCES = Path(__file__).resolve().parent / "forms"
UNITS = ("one", "two")
# The functions and objects, by the file that defines each; gdb may show another file's declaration.
DEFINED = {"one": ("both", "count", "hidden", "only_here", "state", "add", "half", "nothing"),
           "two": ("own", "names", "found", "main", "is_any", "local")}
NOT_EXPORTED = {"hidden", "only_here", "is_any", "local"}
STRIPS = ("-g", "-s", "--strip-unneeded", "--only-keep-debug")
# Not in the program, but headers of 32 bits declare it.
ACCEPTED = "_Float128: CTF has no word"
COMPILERS = ("gcc", "clang")


@dataclass
class Expectation:
    """pahole's structs and gdb's declarations of a program."""

    structs: Listed
    symbols: Dict[str, str]


@dataclass
class Tally:
    """The numbers of compared items, and the differences."""

    forms: int = 0
    structs: int = 0
    symbols: int = 0
    wrong: List[str] = field(default_factory=list)


class Builder:
    """Builds the program in a folder, with one compiler and one version of DWARF."""

    def __init__(self, folder: Path, compiler: str, version: str) -> None:
        self.folder = folder
        self.command = [compiler, "-w", "-g", version, "-O1", "-fno-inline-functions-called-once"]
        if compiler == "clang":
            self.command.pop()

    def run(self, *words: str) -> None:
        """Runs a tool in the folder. Raises CalledProcessError."""
        subprocess.run(words, cwd=self.folder, check=True, capture_output=True, text=True)

    def objects(self, *options: str) -> List[str]:
        made = [f"{unit}.o" for unit in UNITS]
        for unit, name in zip(UNITS, made):
            self.run(*self.command, *options, "-c", str(SOURCES / f"{unit}.c"), "-o", name)
        return made

    def program(self, name: str, *options: str) -> str:
        """A program that exports the same symbols as a library."""
        self.run(*self.command, *options, *self.objects(*options), "-rdynamic", "-o", name)
        return name


def expect(builder: Builder, *options: str) -> Expectation:
    """pahole's listing and gdb's declarations of the plain program."""
    path = str(builder.folder / builder.program("plain", "-gdwarf-4", *options))
    words = [word for unit, names in DEFINED.items() for name in names
             for word in ("-ex", f"whatis '{unit}.c'::{name}")]
    said = subprocess.run(["gdb", "-nx", "-batch", *words, path], capture_output=True, text=True)
    told = [line[len("type = "):] for line in said.stdout.splitlines()]
    symbols = dict(zip((name for names in DEFINED.values() for name in names), told))
    return Expectation(beside_pahole.pahole_listing(path), symbols)


class Forms:
    """The forms of one program, each compared when it is made."""

    def __init__(self, service: str, builder: Builder, tally: Tally) -> None:
        self.service = service
        self.builder = builder
        self.folder = builder.folder
        self.tally = tally
        self.expected = expect(builder)

    def all(self) -> None:
        """Makes and compares all forms."""
        for make in (self.plain_program, self.compressed_program, self.split, self.type_units,
                     self.as_one, self.by_dwz, self.stripped_program, self.short_program):
            try:
                make()
            except (subprocess.CalledProcessError, FileNotFoundError) as error:
                tool = error.cmd[0] if isinstance(error, subprocess.CalledProcessError) else error
                print(f"not possible here: {make.__name__} by {self.builder.command[0]}: {tool}")

    def plain_program(self) -> None:
        run = self.builder.run
        self.compare(self.builder.program("program"), is_whole=True)
        run("ar", "rc", "code.a", "one.o", "two.o")
        run("ar", "rcT", "thin.a", "one.o", "two.o")
        for name in ("code.a", "thin.a"):
            self.compare(name)
        run("ld", "-r", "-o", "both.o", "one.o", "two.o")
        self.compare("both.o", is_whole=True)
        run(*self.builder.command, "-fPIC", "-shared", *self.builder.objects("-fPIC"),
            "-o", "lib.so")
        self.compare("lib.so", is_whole=True)

    def compressed_program(self) -> None:
        self.compare(self.builder.program("squeezed", "-gz"), is_whole=True)
        self.builder.program("older")
        self.builder.run("objcopy", "--compress-debug-sections=zlib-gnu", "older")
        self.compare("older", is_whole=True)

    def split(self) -> None:
        self.compare(self.builder.program("apart", "-gsplit-dwarf"), is_whole=True)
        if "-gdwarf-4" in self.builder.command:
            self.builder.run("dwp", "-e", "apart", "-o", "apart.dwp")
            for one in self.folder.glob("*.dwo"):
                one.unlink()
            self.compare("apart", is_whole=True)

    def type_units(self) -> None:
        self.compare(self.builder.program("types", "-fdebug-types-section"), is_whole=True)

    def as_one(self) -> None:
        self.compare(self.builder.program("as_one", "-flto"))

    def by_dwz(self) -> None:
        for name in ("alone", "first", "second"):
            self.builder.program(name)
        self.builder.run("dwz", "alone")
        self.compare("alone", is_whole=True)
        self.builder.run("dwz", "-m", "common", "-M", "common", "first", "second")
        self.compare("first", is_whole=True)

    def stripped_program(self) -> None:
        """Stripped programs with a debug file, and with the dictionary in the program."""
        for number, how in enumerate(STRIPS):
            name = self.builder.program(f"stripped{number}")
            self.builder.run("objcopy", "--only-keep-debug", name, f"{name}.debug")
            for table in ("symtab", "dynsym"):
                self.convert(name, f"{name}.{table}", "--section", "--symbols", table)
                self.builder.run("strip", how, f"{name}.{table}")
                self.compare_types(f"{name}.{table}", f"{name}.{table}",
                                   table == "dynsym" and how != "--only-keep-debug")
            if how != "--only-keep-debug":
                self.builder.run("strip", how, name)
                self.builder.run("objcopy", f"--add-gnu-debuglink={name}.debug", name)
                self.compare(name)

    def short_program(self) -> None:
        """A program of 32 bits, whose symbols the service cannot read."""
        plain, self.expected = self.expected, expect(self.builder, "-m32")
        self.compare(self.builder.program("short", "-m32"))
        self.expected = plain

    # Comparing.

    def compare(self, name: str, is_whole: bool = False) -> None:
        """Converts a form, and compares its types and symbols; `is_whole` if it has all of them."""
        words = ["--section"] if not name.endswith(".a") else []
        made = f"{name}.made"
        for line in self.convert(name, made, *words):
            if ACCEPTED not in line:
                self.wrong(name, f"lost: {line}")
        self.compare_types(name, made, is_whole)

    def convert(self, name: str, made: str, *words: str) -> List[str]:
        place = self.folder
        return convert(*words, str(place / name), str(place / made))

    def compare_types(self, name: str, made: str, is_whole: bool) -> None:
        """Compares the types of a dictionary."""
        self.tally.forms += 1
        ours = beside_pahole.client_listing(self.service, str(self.folder / made), "")
        for struct, listed in self.expected.structs.items():
            self.tally.structs += 1
            if set(ours.get(struct, [])) != set(listed):
                self.wrong(name, f"{struct}: {ours.get(struct)} and not {listed}")
        with ctfd.Client(self.service) as client:
            types = ctfd.open_file(client.session(), str(self.folder / made))
            for symbol, wanted in self.expected.symbols.items():
                self.symbol(name, types, symbol, wanted, is_whole)

    def symbol(self, name: str, types: ctfd.Dictionary, symbol: str, wanted: str,
               is_whole: bool) -> None:
        try:
            found = types.symbol(symbol)
        except (ctfd.NotFound, ctfd.Unreadable):
            is_exported = symbol not in NOT_EXPORTED
            if is_whole and is_exported:
                self.wrong(name, f"{symbol}: it has no type")
            return
        self.tally.symbols += 1
        said = (declare.function(found, "") if isinstance(found, ctfd.Signature)
                else ctfd.declaration(found))
        if normal(said) != normal(wanted):
            self.wrong(name, f"{symbol}: {said} and not {wanted}")

    def wrong(self, name: str, said: str) -> None:
        compiler, version = self.builder.command[0], self.builder.command[3]
        self.tally.wrong.append(f"{compiler} {version}, {name}: {said}")


def normal(declared: str) -> str:
    """A declaration without blanks, which gdb puts in other places."""
    return re.sub(r"\s+", "", declared)


def versions(compilers: Sequence[str]) -> List[List[str]]:
    return [[compiler, version] for compiler in compilers
            for version in ("-gdwarf-4", "-gdwarf-5")]


def main(service: str) -> int:
    lacking: Set[str] = {tool for tool in ("pahole", "gdb", "dwz", *COMPILERS)
                         if not shutil.which(tool)}
    for tool in sorted(lacking):
        print(f"skipped: no {tool} here")
    if lacking & {"pahole", "gdb", "gcc"}:
        return 0
    tally = Tally()
    for compiler, version in versions([one for one in COMPILERS if one not in lacking]):
        with tempfile.TemporaryDirectory() as folder:
            Forms(service, Builder(Path(folder), compiler, version), tally).all()
    print(*tally.wrong[:beside_pahole.MOST], sep="\n", end="\n" if tally.wrong else "")
    print(f"{tally.forms} forms of a program, {tally.structs} structs and unions as pahole lists"
          f" them, {tally.symbols} symbols as gdb declares them; {len(tally.wrong)} wrong")
    return 1 if tally.wrong or not tally.symbols else 0


if __name__ == "__main__":
    sys.exit(main(*sys.argv[1:]))
