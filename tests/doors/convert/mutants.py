#!/usr/bin/env python3
"""Damages files in many ways, and lets ctfd-convert and ctfd-types read them.

usage: mutants.py SERVICE COUNT [FIRST]

SERVICE is a built ctfd. COUNT files are made, each from a seed, out of programs and object files of
gcc in all forms of debug information (DWARF 4 and 5, split, compressed, in type units), of BTF, of
both sorts of CTF and of an archive. In one part of a file (a header, the section headers, a
section), bytes are changed at random, or numbers are replaced by extreme ones, or the file is cut.

Each file must be read or refused: the status is 0, 1 or 2, a refusal has one line, and no command
takes 20 seconds of processor time or a gigabyte. Prints each failure, with its seed, and counts;
the status is 1 if there is one.
"""
from __future__ import annotations

import argparse
import multiprocessing
import os
import random
import resource
import shutil
import subprocess
import sys
import tempfile
import time
from collections import Counter
from pathlib import Path
from typing import Dict, Iterator, List, NamedTuple, Optional, Tuple

HERE = Path(__file__).resolve().parent
sys.path.insert(0, str(HERE.parents[2] / "clients/python"))

from tests import elf  # noqa: E402
from command import COMMAND, FOLDER  # noqa: E402

TYPES = FOLDER / "ctfd-types"
SECONDS, BYTES = 20, 1 << 30
MOST_SHOWN = 20
CODE = """
#include <stddef.h>
typedef unsigned int u32; enum color { RED, GREEN = 7 }; struct inner { char c; };
struct node { struct node *next; u32 flags : 3; const struct inner inner; int (*call)(int, ...);
              union { long l; double d; }; enum color color; char rest[]; } *first;
struct inner both[2][3]; static int hidden[4];
static inline int twice(int a) { return a + hidden[a & 3]; }
int add(struct node *node, u32 more) { return twice(node->flags) + more; }
int main(int argc, char **argv) { return add(first, argc); }
"""
FORMS: Dict[str, Tuple[str, ...]] = {
    "four.o": ("-gdwarf-4", "-c"), "five.o": ("-gdwarf-5", "-c"), "two.o": ("-gdwarf-2", "-c"),
    "types.o": ("-gdwarf-5", "-fdebug-types-section", "-c"), "program": ("-g", "-O1"),
    "packed.o": ("-g", "-gz", "-c"), "short": ("-g", "-m32", "-c"), "gnu.o": ("-gctf", "-c"),
    "split": ("-gdwarf-5", "-gsplit-dwarf"),
}
EXTREMES = (0, 1, 2, 0x7F, 0x80, 0xFF, 0xFFFF, 0x7FFFFFFF, 0x80000000, 0xFFFFFFFF, 1 << 62,
            (1 << 63) - 1, 1 << 63, (1 << 64) - 1)


class Part(NamedTuple):
    """A part of a file, to be damaged."""

    start: int
    end: int


class Outcome(NamedTuple):
    """The outcome of a mutant: the problem, or "", and the status."""

    seed: int
    wrong: str
    status: int


def sources(folder: Path) -> Iterator[Path]:
    """The files to damage."""
    source = folder / "code.c"
    source.write_text(CODE)
    for name, options in FORMS.items():
        path = folder / name
        if subprocess.run(["gcc", "-w", *options, str(source), "-o", str(path)], cwd=folder,
                          stderr=subprocess.DEVNULL).returncode == 0:
            yield path
    subprocess.run(["ar", "rc", "code.a", "four.o", "five.o"], cwd=folder, check=True)
    yield folder / "code.a"
    if shutil.which("pahole"):
        shutil.copy(folder / "five.o", folder / "btf.o")
        subprocess.run(["pahole", "-J", "btf.o"], cwd=folder, check=True, capture_output=True)
        subprocess.run(["objcopy", "-O", "binary", "--only-section=.BTF", "--set-section-flags",
                        ".BTF=alloc", "btf.o", "plain.btf"], cwd=folder, check=True)
        yield from (folder / "btf.o", folder / "plain.btf")


def with_dictionaries(folder: Path, service: str) -> Iterator[Path]:
    """Files with dictionaries, written by ctfd-convert."""
    for words in (["five.o", "own.ctf"], ["--section", "program", "with"]):
        paths = [word if word[0] == "-" else str(folder / word) for word in words]
        run(paths)
        yield folder / words[-1]


def parts(data: bytes) -> List[Part]:
    """The parts of a file: for an ELF file, its header, the section headers, and the sections that
    are read."""
    try:
        sections = elf.sections(data)
    except elf.DAMAGED:
        return [Part(0, min(64, len(data))), Part(0, len(data))]
    found = [Part(0, 64), Part(sections[0].header, len(data))]
    for section in sections:
        if section.size and section.kind != elf.NOBITS and (
                section.name.startswith((".debug", ".BTF", ".ctf", ".SUNW", ".rela.debug", ".gnu_"))
                or section.name in (".symtab", ".strtab", ".dynsym")):
            found.append(Part(section.offset, section.offset + section.size))
    return found


def damage(data: bytes, chance: random.Random) -> bytes:
    """A file with one of its parts changed."""
    part = chance.choice(parts(data))
    changed = bytearray(data)
    how = chance.randrange(8)
    if how == 0:
        return bytes(changed[:chance.randrange(len(data))])
    for _ in range(chance.choice((1, 1, 2, 4, 16))):
        at = chance.randrange(part.start, max(part.start + 1, part.end))
        if how < 4:
            changed[at:at + 1] = bytes([chance.randrange(256)])
        else:
            size = chance.choice((1, 2, 4, 8))
            value = chance.choice(EXTREMES) & (1 << 8 * size) - 1
            changed[at:at + size] = value.to_bytes(size, "little")
    return bytes(changed[:len(data)])


def run(words: List[str]) -> Tuple[int, str]:
    """The status and messages of ctfd-convert, run with limits."""
    done = subprocess.run([COMMAND, *words], capture_output=True, preexec_fn=_set_limits,
                          check=False)
    return done.returncode, done.stderr.decode("utf-8", "replace")


def _set_limits() -> None:
    resource.setrlimit(resource.RLIMIT_AS, (BYTES + (1 << 28), resource.RLIM_INFINITY))
    resource.setrlimit(resource.RLIMIT_CPU, (SECONDS, SECONDS))


class Worker:
    """Tries mutants in a process with limits."""

    def __init__(self, service: str, folder: Path, paths: List[Path]) -> None:
        self.service = service
        self.folder = folder
        self.files = [(path, path.read_bytes()) for path in paths]

    def __call__(self, seed: int) -> Outcome:
        chance = random.Random(seed)
        path, data = chance.choice(self.files)
        mutant = self.folder / f"mutant{os.getpid()}_{path.name}"
        mutant.write_bytes(damage(data, chance))
        try:
            out = str(mutant) + ".out"
            status, told = run([str(mutant), out])
            wrong = _fault_in(status, told)
            if not wrong and path.suffix in ("", ".ctf"):
                wrong = _judged_types(mutant) if TYPES.exists() else ""
            return Outcome(seed, wrong and f"{path.name}: {wrong}", status)
        except BaseException as error:  # an exception that a user would see
            return Outcome(seed, f"{path.name}: {type(error).__name__} {error}", -1)
        finally:
            mutant.unlink()


def _fault_in(status: int, told: str) -> str:
    """The problem with how ctfd-convert ended, or ""."""
    lines = told.splitlines()
    if "memory ran out" in told or "panicked" in told:
        return told
    if status == 2 and len(lines) != 1 or status not in (0, 1, 2):
        return f"status {status}: {told}"
    return f"status 1 without a line: {told}" if status == 1 and not lines else ""


def _judged_types(path: Path) -> str:
    """The problem with how ctfd-types ends for a file, or ""."""
    done = subprocess.run([TYPES, path], capture_output=True, timeout=SECONDS, check=False)
    status, told = done.returncode, done.stderr.decode("utf-8", "replace")
    if "memory ran out" in told or "panicked" in told or status not in (0, 1):
        return f"ctfd-types: status {status}: {told}"
    return f"ctfd-types: status 1: {told}" if status == 1 and not told else ""


WORKER: Optional[Worker] = None


def try_mutant(seed: int) -> Outcome:
    """Tries one mutant in a process of the pool."""
    assert WORKER
    return WORKER(seed)


def main() -> int:
    global WORKER
    parser = argparse.ArgumentParser(description=__doc__)
    parser.add_argument("service")
    parser.add_argument("count", type=int)
    parser.add_argument("first", type=int, nargs="?", default=1)
    words = parser.parse_args()
    began = time.monotonic()
    statuses: Counter[int] = Counter()
    wrong: List[Outcome] = []
    with tempfile.TemporaryDirectory() as place:
        folder = Path(place)
        paths = list(sources(folder))
        paths += with_dictionaries(folder, words.service)
        WORKER = Worker(words.service, folder, paths)
        fork = multiprocessing.get_context("fork")
        with fork.Pool(min(4, os.cpu_count() or 1)) as pool:
            seeds = range(words.first, words.first + words.count)
            for outcome in pool.imap_unordered(try_mutant, seeds, 16):
                statuses[outcome.status] += 1
                if outcome.wrong:
                    wrong.append(outcome)
    for outcome in wrong[:MOST_SHOWN]:
        print(f"seed {outcome.seed}: {outcome.wrong.strip()}")
    print(f"{words.count} damaged files of {len(paths)}: {statuses[0]} read, {statuses[1]} with"
          f" losses, {statuses[2]} refused; {len(wrong)} wrong, in"
          f" {time.monotonic() - began:.0f} s")
    return 1 if wrong or not words.count else 0


if __name__ == "__main__":
    sys.exit(main())
