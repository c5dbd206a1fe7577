#!/usr/bin/env python3
"""Converts random C files, and compares the dictionaries with their compiler's view.

usage: run.py SERVICE COUNT [FIRST] [--gnu COUNT]

SERVICE is a built ctfd. Each of COUNT files, from seed FIRST on, is compiled for both data models
if gcc supports them, and run. Its types are converted from debug information by ctfd-convert, and
made from its text by ctfd.build.declare. The first files, as many as --gnu says, contain only what
other formats can represent; for these, GNU's CTF in an object file, and BTF as pahole writes it,
are compared too. Prints each fact that differs, then the number of compared ones; the status is 1
if one differs. Without pahole there is no BTF, and a data model may have no programs here; a line
says so.
"""
from __future__ import annotations

import argparse
import collections
import shutil
import subprocess
import sys
import tempfile
import time
from pathlib import Path
from typing import Counter, List

HERE = Path(__file__).resolve().parent
sys.path.insert(0, str(HERE.parents[2] / "clients/python"))

import ctfd  # noqa: E402
from ctfd import build  # noqa: E402

from command import convert  # noqa: E402
import facts  # noqa: E402
import random_c  # noqa: E402

MODELS = {"lp64": "-m64", "ilp32": "-m32"}
MOST = 40
WORDS = {"size": "sizes", "member": "members", "array": "arrays", "calls": "functions",
         "enumerator": "enumerators"}
FAR = "_far is 1099511627776, and CTF holds 32 bits"
ACCEPTED = ("CTF has widths of integers alone", "_Float128: CTF has no word", FAR)


class Run:
    """The results so far, by the way in which a dictionary was made."""

    def __init__(self, service: str, folder: Path) -> None:
        self.service = service
        self.folder = folder
        self.model: ctfd.Model = "lp64"
        self.far = 0
        self.has_pahole = shutil.which("pahole") is not None
        self.counts: Counter[str] = collections.Counter()
        self.wrong: List[str] = []

    def file(self, seed: int, model: str, gnu: bool) -> None:
        text = random_c.file(seed, model, gnu)
        source = self.folder / "types.c"
        source.write_text(text.program)
        printed = self.program(source, model)
        with ctfd.Client(self.service) as client:
            self.compare(f"{model} {seed} DWARF", self.convert(client, "program"), printed)
            made = build.declare(text.types, model)
            told = self.far, sum(FAR in line for line in made.losses)
            if told != (text.types.count("_far"),) * 2:
                self.wrong.append(f"{model} {seed}: {told} enumerators past 32 bits were told")
            self.compare(f"{model} {seed} declare", made.dictionary(client.session()), printed)
            if gnu and self.has_pahole:
                subprocess.run(["pahole", "-J", str(self.folder / "program")], check=True,
                               capture_output=True)
                types = self.convert(client, "program", "--from", "btf")
                self.compare(f"{model} {seed} BTF", types, printed)
            if gnu:  # only in an object file: ld changes sizes of packed structs
                self.compile(source, model, "types.o", "-gctf", "-c")
                self.compare(f"{model} {seed} GNU", self.convert(client, "types.o"), printed)

    def program(self, source: Path, model: str) -> str:
        """Compiles and runs a file, and returns its output."""
        made = self.compile(source, model, "program", "-g")
        return subprocess.run([str(made)], check=True, capture_output=True, text=True).stdout

    def compile(self, source: Path, model: str, name: str, *options: str) -> Path:
        made = self.folder / name
        command = ["gcc", *options, "-w", "-Wno-psabi", "-fno-eliminate-unused-debug-types",
                   MODELS[model], "-o", str(made), str(source)]
        subprocess.run(command, check=True, stderr=subprocess.DEVNULL)
        return made

    def convert(self, client: ctfd.Client, name: str, *options: str) -> ctfd.Dictionary:
        """The dictionary of a program, from the command."""
        made = self.folder / "types.ctf"
        losses = convert(*options, str(self.folder / name), str(made))
        self.wrong += [f"{self.model} lost: {line}" for line in losses
                       if not any(one in line for one in ACCEPTED)]
        self.far = sum(FAR in line for line in losses)
        return ctfd.open_file(client.session(), str(made), model=self.model)

    def compare(self, what: str, types: ctfd.Dictionary, printed: str) -> None:
        count = facts.compare(types, printed)
        way = what.split()[0] + " " + what.split()[-1]
        for kind, number in count.compared.items():
            self.counts[f"{way} {kind}"] += number
        self.counts[f"{way} files"] += 1
        self.wrong += [f"{what}: {line}" for line in count.wrong]

    def tell(self, model: str) -> None:
        """Prints the results for a model."""
        for line in [line for line in self.wrong if line.startswith(model)][:MOST]:
            print(line)
        for way in sorted({key.rsplit(" ", 1)[0] for key in self.counts if key.startswith(model)}):
            told = [f"{self.counts[f'{way} {kind}']} {word}" for kind, word in WORDS.items()]
            print(f"{way}: {self.counts[f'{way} files']} files, {', '.join(told)}", flush=True)


def models() -> List[str]:
    """The data models for which gcc makes programs that run here."""
    found = []
    with tempfile.TemporaryDirectory() as folder:
        source = Path(folder) / "small.c"
        source.write_text("#include <stdio.h>\nint main(void) { return puts(\"\") < 0; }\n")
        for model, option in MODELS.items():
            made = str(source.with_suffix(""))
            done = subprocess.run(["gcc", option, "-o", made, str(source)], capture_output=True)
            if done.returncode != 0:
                print(f"skipped: gcc {option} makes no program here")
            elif not runs(made):
                print(f"not possible here: a program of gcc {option} does not run")
            else:
                found.append(model)
    return found


def runs(program: str) -> bool:
    try:
        return subprocess.run([program], capture_output=True).returncode == 0
    except OSError:
        return False


def main() -> int:
    parser = argparse.ArgumentParser(description=__doc__)
    parser.add_argument("service")
    parser.add_argument("count", type=int)
    parser.add_argument("first", type=int, nargs="?", default=1)
    parser.add_argument("--gnu", type=int, default=0)
    words = parser.parse_args()
    began = time.monotonic()
    with tempfile.TemporaryDirectory() as folder:
        run = Run(words.service, Path(folder))
        if words.gnu and not run.has_pahole:
            print("skipped: no pahole here, so no BTF is compared")
        for model in models():
            run.model = model
            for number in range(words.count):
                run.file(words.first + number, model, number < words.gnu)
            run.tell(model)
    print(f"{len(run.wrong)} wrong, in {time.monotonic() - began:.0f} s")
    return 1 if run.wrong else 0


if __name__ == "__main__":
    sys.exit(main())
