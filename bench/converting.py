#!/usr/bin/env python3
"""Measures converting programs, compared with `pahole -J` on the same files in the same run.

usage: bench/converting.py [--rounds N] [--threads N] [--from FORM] [--btf FILE] PROGRAM..
       bench/converting.py --fetch FOLDER [--kernel]

Prints for each program the least processor time, wall time and memory of N rounds (3) of each tool
in turn, the size of its debug sections, inflated, and ours as ratios: to pahole's times, and to the
sections' size. "(over)" follows a ratio above the aim: pahole's processor time, half its wall time,
twice the size. pahole writes a separate file, with --btf_encode_detached. A second line shows the
cost of a copy that contains the types: `ctfd-convert --section` compared with `pahole -J FILE`,
which changes FILE. Wall times mean something only on idle processors; the last line shows the load.
For the file that --btf names, a kernel's by default, it prints the cost of a first question about
one struct, and of converting all of it.

--fetch downloads the files for the rows in docs/PERFORMANCE.md into a folder, with apt-get, and
prints their paths: python3.11-dbg and libc6-dbg, with --kernel also the debug file of a kernel,
which takes 2 GB. Needs pahole, readelf, objcopy, GNU time and the compiled commands.
"""
from __future__ import annotations

import argparse
import os
import re
import shutil
import subprocess
import sys
import tempfile
import time
from pathlib import Path
from typing import Iterator, NamedTuple, Optional, Sequence

TOP = Path(__file__).resolve().parents[1]
sys.path.insert(0, str(TOP / "scripts"))
import rust  # noqa: E402

KERNEL = "/sys/kernel/btf/vmlinux"
STRUCT = "task_struct"
# Measures the memory of a program. For a child of this process, the system would report at least
# the memory of this process.
TIME = "/usr/bin/time"
# The aims, as ratios to pahole's processor time and wall time, and to the size of the sections.
MOST = {"processor": 1.0, "clock": 0.5, "memory": 2.0}
# The paths of the files within a package.
FILES = {"python3.11-dbg": ("usr/bin/python3.11d", "usr/lib/debug/.build-id/*/*.debug"),
         "libc6-dbg": ("usr/lib/debug/.build-id/*/*.debug",),
         "kernel": ("usr/lib/debug/boot/vmlinux-*",)}


class Cost(NamedTuple):
    """Processor time and wall time in seconds, and memory in MB."""

    processor: float
    clock: float
    memory: float

    def __str__(self) -> str:
        return f"{self.processor:.2f} s, {self.clock:.2f} s, {self.memory:.0f} MB"


def cost(words: Sequence[str], threads: int) -> Cost:
    environment = {**os.environ, **({"RAYON_NUM_THREADS": str(threads)} if threads else {})}
    with tempfile.NamedTemporaryFile("r") as told:
        begun = time.monotonic()
        process = subprocess.Popen([TIME, "-q", "-f", "%M", "-o", told.name, *words],
                                   stdout=subprocess.DEVNULL, stderr=subprocess.DEVNULL,
                                   env=environment)
        _, status, usage = os.wait4(process.pid, 0)
        clock = time.monotonic() - begun
        process.returncode = os.waitstatus_to_exitcode(status)
        if process.returncode not in (0, 1):
            raise SystemExit(f"{' '.join(words)}: status {process.returncode}")
        return Cost(usage.ru_utime + usage.ru_stime, clock, int(told.read()) * 1024 / 1e6)


def least(costs: Sequence[Cost]) -> Cost:
    return Cost(*(min(each) for each in zip(*costs)))


def in_turn(ours: Sequence[str], theirs: Sequence[str], rounds: int,
            threads: int) -> tuple[Cost, Cost]:
    """The least costs of some rounds of each, one after the other."""
    turns = [(cost(ours, threads), cost(theirs, 0)) for _ in range(rounds)]
    one, other = (least([turn[place] for turn in turns]) for place in (0, 1))
    return one, other


def section_bytes(program: str, folder: str) -> int:
    """The size of the debug sections, inflated."""
    plain = f"{folder}/plain"
    subprocess.run(["objcopy", "--decompress-debug-sections", program, plain], check=True,
                   stderr=subprocess.DEVNULL)
    listed = subprocess.run(["readelf", "-SW", plain], capture_output=True, text=True).stdout
    os.unlink(plain)
    rows = [line.partition("]")[2].split() for line in listed.splitlines()]
    return sum(int(row[4], 16) for row in rows if row and row[0].startswith(".debug_"))


def share(name: str, ours: float, of: float) -> str:
    """A ratio as text, and whether it is above the aim."""
    found = ours / of if of else 0.0
    return f"{name} {found:.2f}" + (" (over)" if found > MOST[name] else "")


def convert(program: str, words: argparse.Namespace, folder: str) -> str:
    """One line with the cost of converting a program's types."""
    out = f"{folder}/out"
    ours = [str(rust.folder() / "ctfd-convert"), "--from", words.form, "--lossy", program, out]
    theirs = ["pahole", "-J", f"--btf_encode_detached={out}", program]
    one, other = in_turn(ours, theirs, words.rounds, words.threads)
    sections = section_bytes(program, folder) / 1e6
    shares = (share("processor", one.processor, other.processor),
              share("clock", one.clock, other.clock), share("memory", one.memory, sections))
    return (f"{program}: sections {sections:.1f} MB; ctfd-convert {one}; pahole -J {other};"
            f" {', '.join(shares)}")


def into_copy(program: str, words: argparse.Namespace, folder: str) -> str:
    """One line with the cost of a copy of a program with its types in it."""
    copy, turns = f"{folder}/copy", []
    ours = [str(rust.folder() / "ctfd-convert"), "--from", words.form, "--lossy", "--section",
            program, f"{folder}/out"]
    for _ in range(words.rounds):
        shutil.copyfile(program, copy)
        turns.append((cost(ours, words.threads), cost(["pahole", "-J", copy], 0)))
    one, other = (least([turn[place] for turn in turns]) for place in (0, 1))
    shares = (share("processor", one.processor, other.processor),
              share("clock", one.clock, other.clock))
    return (f"{program}: into a copy: ctfd-convert --section {one}; pahole -J FILE {other};"
            f" {', '.join(shares)}")


def first_look(btf: str, words: argparse.Namespace, folder: str) -> Iterator[str]:
    """The costs of a question about one struct of a kernel's BTF, and of converting all of it."""
    types = str(rust.folder() / "ctfd-types")
    theirs = ["pahole", "-F", "btf", "-C", STRUCT, btf]
    one, other = in_turn([types, btf, f"struct {STRUCT}"], theirs, words.rounds, words.threads)
    yield f"{btf}: struct {STRUCT}: ctfd-types {one}; pahole {other}"
    ours = [str(rust.folder() / "ctfd-convert"), "--lossy", btf, f"{folder}/out"]
    whole = least([cost(ours, words.threads) for _ in range(words.rounds)])
    yield f"{btf}: all of it: ctfd-convert {whole}"


def kernel_package() -> Optional[str]:
    """The newest of Debian's small kernels that have debug files."""
    found = subprocess.run(["apt-cache", "search", "--names-only", "linux-image.*cloud.*-dbg$"],
                           capture_output=True, text=True).stdout.split("\n")
    names = [line.split(" ")[0] for line in found if re.match(r"linux-image-\d+\.\d+\.\d+", line)]
    return max(names, key=lambda name: [int(part) for part in re.findall(r"\d+", name)],
               default=None)


def fetch(folder: Path, has_kernel: bool) -> Iterator[Path]:
    """The files of the rows, from Debian's packages."""
    packages = {name: name for name in FILES if name != "kernel"}
    kernel = kernel_package() if has_kernel else None
    if kernel:
        packages["kernel"] = kernel
    for name, package in packages.items():
        inside = folder / name
        if not inside.exists():
            folder.mkdir(parents=True, exist_ok=True)
            subprocess.run(["apt-get", "download", package], cwd=folder, check=True,
                           stdout=subprocess.DEVNULL, stderr=subprocess.DEVNULL)
            packed = next(folder.glob(f"{package}_*.deb"))
            subprocess.run(["dpkg-deb", "-x", str(packed), str(inside)], check=True)
            packed.unlink()
        for pattern in FILES[name]:
            yield max(inside.glob(pattern), key=lambda path: path.stat().st_size)


def main() -> int:
    parser = argparse.ArgumentParser()
    parser.add_argument("--rounds", type=int, default=3)
    parser.add_argument("--threads", type=int, default=0)
    parser.add_argument("--from", dest="form", default="dwarf")
    parser.add_argument("--btf", default=KERNEL)
    parser.add_argument("--fetch", type=Path)
    parser.add_argument("--kernel", action="store_true")
    parser.add_argument("programs", nargs="*")
    words = parser.parse_args()
    if words.fetch:
        print("\n".join(map(str, fetch(words.fetch, words.kernel))))
        return 0
    with tempfile.TemporaryDirectory() as folder:
        for program in words.programs:
            print(convert(program, words, folder), flush=True)
            print(into_copy(program, words, folder), flush=True)
        if os.access(words.btf, os.R_OK):
            print("\n".join(first_look(words.btf, words, folder)))
    print(f"load {os.getloadavg()[0]:.0f}")
    return 0


if __name__ == "__main__":
    sys.exit(main())
