#!/usr/bin/env python3
"""Compiles a program with much debug information, and times its readers.

usage: large_program.py MEGABYTES [OUT]

The program has about MEGABYTES of debug information. It consists of C files, each with the structs
of common headers and some of its own, as in a large project; gcc describes all of them in each
file. Then ctfd-convert writes its CTF, and pahole -J its BTF if pahole is installed. Prints the
processor time and peak memory of each, and the size of all debug sections. With OUT the program is
kept there. Needs gcc and objdump; two compilers run at once.
"""
from __future__ import annotations

import os
import random
import shutil
import subprocess
import sys
import tempfile
from concurrent.futures import ThreadPoolExecutor
from pathlib import Path
from typing import Iterator, List, Sequence

TOP = Path(__file__).resolve().parents[1]
CONVERT = TOP / "clients" / "rust" / "target" / "release" / "ctfd-convert"
HEADERS, COMMON, OWN, FUNCTIONS = 40, 100, 150, 40
EACH = 4  # a file includes all headers but one in so many
BASES = ("int", "unsigned long", "char", "short", "unsigned char", "long long", "double")
FLAGS = ("-g", "-O1", "-w", "-fno-eliminate-unused-debug-types")


class Structs:
    """Structs with members of each other, from a seed."""

    def __init__(self, seed: int) -> None:
        self.luck = random.Random(seed)

    def member(self, number: int, known: Sequence[str]) -> str:
        kind = self.luck.randrange(6)
        other = self.luck.choice(known) if known else "char"
        base = self.luck.choice(BASES)
        return (f"{base} m{number};", f"{base} m{number}[{self.luck.randrange(1, 9)}];",
                f"unsigned m{number} : {self.luck.randrange(1, 32)};", f"{other} *m{number};",
                f"int (*m{number})({other} *, {base});", f"const {base} *m{number};")[kind]

    def declarations(self, name: str, count: int) -> Iterator[str]:
        known: List[str] = []
        for number in range(count):
            members = [self.member(at, known) for at in range(self.luck.randrange(3, 14))]
            yield f"struct {name}_{number} {{ {' '.join(members)} }};"
            yield f"typedef struct {name}_{number} {name}_{number}_t;"
            yield f"enum {name}_state_{number} {{ {name}_A{number}, {name}_B{number} = 4 }};"
            known = [*known[-20:], f"struct {name}_{number}", f"{name}_{number}_t"]


def source(number: int) -> str:
    """A file of the program."""
    structs = Structs(number)
    lines = [f'#include "h{header}.h"' for header in range(HEADERS) if (header + number) % EACH]
    lines += structs.declarations(f"u{number}", OWN)
    for one in range(FUNCTIONS):
        own = f"struct u{number}_{structs.luck.randrange(OWN)}"
        lines.append(f"{own} v{number}_{one};")
        lines.append(f"int f{number}_{one}({own} *here, int count) {{ {own} *local = here + count;"
                     f" return local == &v{number}_{one} ? count : sizeof *local; }}")
    return "\n".join([*lines, "int main(void) { return 0; }" if number == 0 else ""])


def compile_part(folder: Path, number: int) -> Path:
    file = folder / f"u{number}.c"
    file.write_text(source(number), encoding="ascii")
    made = file.with_suffix(".o")
    subprocess.run(["gcc", *FLAGS, "-c", file, "-o", made], check=True)
    return made


def debug_bytes(program: Path) -> int:
    """The size of all debug sections."""
    said = subprocess.run(["objdump", "-hw", program], check=True, capture_output=True,
                          text=True).stdout
    rows = (line.split() for line in said.splitlines())
    return sum(int(row[2], 16) for row in rows if len(row) > 2 and row[1].startswith(".debug_"))


def build_program(folder: Path, megabytes: int) -> Path:
    """A program of as many files as the debug information needs."""
    for header in range(HEADERS):
        lines = Structs(-1 - header).declarations(f"h{header}", COMMON)
        (folder / f"h{header}.h").write_text("\n".join([*lines, ""]), encoding="ascii")
    first = compile_part(folder, 0)
    count = max(1, (megabytes << 20) // debug_bytes(first))
    with ThreadPoolExecutor(2) as pool:
        objects = [first, *pool.map(lambda number: compile_part(folder, number), range(1, count))]
    program = folder / "large"
    subprocess.run(["gcc", *objects, "-o", program], check=True)
    print(f"{count} files, {debug_bytes(program) >> 20} MB of debug sections", flush=True)
    return program


def measure(what: str, command: Sequence[object]) -> None:
    """Runs a command, and prints its cost."""
    child = subprocess.Popen([str(word) for word in command], stdout=subprocess.DEVNULL)
    _, status, used = os.wait4(child.pid, 0)
    print(f"{what}: {used.ru_utime + used.ru_stime:.1f} s of processor time,"
          f" {used.ru_maxrss >> 10} MB, status {os.waitstatus_to_exitcode(status)}, load"
          f" {os.getloadavg()[0]:.0f}", flush=True)


def main(megabytes: int, out: str = "") -> int:
    with tempfile.TemporaryDirectory() as work:
        program = build_program(Path(work), megabytes)
        if out:
            shutil.copy(program, out)
        measure("ctfd-convert", [CONVERT, "--lossy", program, Path(work) / "types.ctf"])
        if shutil.which("pahole"):
            measure("pahole -J", ["pahole", "-J", program])
            measure("ctfd-convert --from btf", [CONVERT, "--lossy", "--from", "btf", program,
                                                Path(work) / "types.ctf"])
    return 0


if __name__ == "__main__":
    words = sys.argv[1:]
    sys.exit(main(int(words[0]), *words[1:]) if len(words) in (1, 2) else __doc__)
