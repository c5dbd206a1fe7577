#!/usr/bin/env python3
"""Runs the compiled ctfd-convert on damaged programs, which it must read or refuse.

usage: tests/doors/reader/mutants.py [--count N] [--seed N] [PROGRAM..]

In a program's debug information, types and headers, bytes are changed, sections are cut, and parts
of them are moved, from a seed. The command must end within 5 s with status 0, 1 or 2, without a
panic or a signal, and use at most 64 MiB and 64 times the file's size of memory. Without programs
some are compiled: C, C++ and Rust, type units, old DWARF, GNU's CTF, BTF, big-endian, compressed
sections. Needs gcc and the compiled commands.
"""
from __future__ import annotations

import argparse
import os
import random
import resource
import shutil
import signal
import subprocess
import sys
import tempfile
import threading
from collections import Counter
from concurrent.futures import ThreadPoolExecutor
from pathlib import Path
from typing import Iterator, Sequence

TOP = Path(__file__).resolve().parents[3]
sys.path.insert(0, str(TOP / "scripts"))
import rust  # noqa: E402

HERE = Path(__file__).parent
ADDRESSES = 1 << 30
# The constant part includes Python's memory, which a child process has until it execs.
MEMORY, TIMES = 64 << 20, 64
SECONDS = 5
COUNT = 150
ENDED = (0, 1, 2)
BYTES = (0, 1, 2, 0x7F, 0x80, 0xFE, 0xFF)
LONGEST = 64


def limit() -> None:
    resource.setrlimit(resource.RLIMIT_AS, (ADDRESSES, ADDRESSES))


def compile_programs(folder: Path) -> Iterator[Path]:
    """Programs of many forms."""
    for name, command in {
            "c": f"gcc -g -w {HERE / 'types.c'}", "units": "g++ -g -w -fdebug-types-section -c"
            f" {HERE / 'classes.cc'}", "old": f"gcc -gdwarf-3 -w -c {HERE / 'types.c'}",
            "classes": f"g++ -g -w -c {HERE / 'classes.cc'}", "gnu": f"gcc -gctf -w -c {HERE / 'types.c'}",
            "btf": f"gcc -gbtf -w -c {HERE / 'types.c'}", "rust": f"rustc -g {HERE / 'shapes.rs'}",
            "big": f"clang --target=s390x-linux-gnu -g -w -c {HERE / 'orders.c'}"}.items():
        words = [*command.split(), "-o", str(folder / name)]
        if shutil.which(words[0]) and subprocess.run(words, capture_output=True).returncode == 0:
            yield folder / name
    for form in ("zlib", "zstd"):
        words = ["objcopy", f"--compress-debug-sections={form}", folder / "classes", folder / form]
        if (folder / "classes").exists() and shutil.which("objcopy") \
                and subprocess.run(words, capture_output=True).returncode == 0:
            yield folder / form
    yield TOP / "examples" / "lua.ctf"


def ranges(path: Path) -> list[tuple[int, int]]:
    """The ranges of the header and of the sections with types, or the whole file."""
    done = subprocess.run(["readelf", "-S", "-W", str(path)], capture_output=True, text=True)
    found = [(0, 64)]
    for line in done.stdout.splitlines():
        words = line.partition("]")[2].split()
        if len(words) > 4 and words[0].startswith((".debug", ".ctf", ".BTF", ".SUNW", ".rela.debug")):
            found.append((int(words[3], 16), int(words[4], 16)))
    size = path.stat().st_size
    whole = [(start, length) for start, length in found if length and start + length <= size]
    return whole if len(found) > 1 else [(0, size)]


def mutant(whole: bytes, places: list[tuple[int, int]], chance: random.Random) -> bytes:
    """A program with a few places changed."""
    data = bytearray(whole)
    for _ in range(chance.choice((1, 1, 1, 2, 3, 8))):
        start, length = chance.choice(places)
        at = start + chance.randrange(length)
        kind = chance.randrange(6)
        if kind < 3:
            data[at] = chance.choice(BYTES)
        elif kind == 3:
            data[at] ^= 1 << chance.randrange(8)
        elif kind == 4:
            count = min(chance.randrange(1, LONGEST), start + length - at)
            source = start + chance.randrange(length)
            data[at:at + count] = data[source:source + count].ljust(count, b"\0")
        else:
            count = min(4, start + length - at)
            data[at:at + count] = chance.choice((b"\xff" * 4, b"\0" * 4, b"\0\0\0\x80"))[:count]
    if chance.randrange(12) == 0:
        del data[chance.randrange(len(data)):]
    return bytes(data)


def end_of(number: int, path: Path, whole: bytes, places: list[tuple[int, int]], seed: int,
           folder: Path) -> tuple[str, str]:
    """The outcome of the command on a mutant: a word, and what is wrong with it."""
    chance = random.Random(f"{seed} {path.name} {number}")
    damaged, out = folder / f"{path.name}{number}", folder / f"{path.name}{number}.out"
    damaged.write_bytes(mutant(whole, places, chance))
    name = f"{path.name}, mutant {number} of seed {seed}"
    status, memory, said = run(damaged, out)
    size = damaged.stat().st_size
    damaged.unlink()
    is_written = out.exists()
    out.unlink(missing_ok=True)
    if status == -signal.SIGKILL:
        return "late", f"{name}: it takes more than {SECONDS} s"
    if status not in ENDED or "panicked" in said:
        return "failed", f"{name}: status {status}: {said[:300]}"
    if is_written != (status < 2):
        return "failed", f"{name}: status {status}, and a file is written: {is_written}"
    if memory > MEMORY + TIMES * size:
        return "large", f"{name}: it takes {memory} bytes, of {size}"
    return ("written" if is_written else "refused"), ""


def run(damaged: Path, out: Path) -> tuple[int, int, str]:
    """Converts a file, and returns the status, the peak memory in bytes, and the messages."""
    with tempfile.TemporaryFile() as errors:
        process = subprocess.Popen([str(rust.folder() / "ctfd-convert"), str(damaged), str(out)],
                                   stdout=subprocess.DEVNULL, stderr=errors, preexec_fn=limit,
                                   env={"RAYON_NUM_THREADS": "2", "PATH": "/usr/bin:/bin"})
        timer = threading.Timer(SECONDS, process.kill)
        timer.start()
        _, status, usage = os.wait4(process.pid, 0)
        timer.cancel()
        process.returncode = os.waitstatus_to_exitcode(status)
        errors.seek(0)
        said = errors.read().decode(errors="replace").strip()
    return process.returncode, usage.ru_maxrss << 10, said


def main(given: Sequence[str] = ()) -> int:
    parser = argparse.ArgumentParser()
    parser.add_argument("--count", type=int, default=COUNT)
    parser.add_argument("--seed", type=int, default=1)
    parser.add_argument("programs", nargs="*", type=Path)
    words = parser.parse_args(given)
    if not (rust.folder() / "ctfd-convert").exists() or not shutil.which("gcc"):
        print("not possible here: there is no gcc, or the compiled commands are not built")
        return 0
    counts: Counter[str] = Counter()
    with tempfile.TemporaryDirectory() as made_in, ThreadPoolExecutor(2) as lanes:
        folder = Path(made_in)
        programs = words.programs or list(compile_programs(folder))
        each = -(-words.count // len(programs))
        for path in programs:
            whole, places = path.read_bytes(), ranges(path)

            def fault_of(number: int) -> tuple[str, str]:
                return end_of(number, path, whole, places, words.seed, folder)

            for word, wrong in lanes.map(fault_of, range(each)):
                counts[word] += 1
                if wrong:
                    print(wrong)
    told = ", ".join(f"{count} {word}" for word, count in sorted(counts.items()))
    print(f"mutants: {sum(counts.values())}: {told}")
    return 1 if counts["late"] or counts["failed"] or counts["large"] else 0


if __name__ == "__main__":
    sys.exit(main(sys.argv[1:]))
