#!/usr/bin/env python3
"""Measures calls of libctfd.a through both headers, and those of GNU libctf, on real dictionaries.

usage: bench/c_library.py [--profile QUESTION] [--no-gnu] [--first] [CTF..]

Each CTF is a dictionary of version 2, by itself; the default is examples/lua.ctf. The archive is
the one that CTFD_ARCHIVE names, else crates/ctf_c/out/libctfd.a. GNU libctf writes the same types
for itself (gnu_dictionary.py), so both are asked about the same types.

Each question is asked about all types for which it makes sense, in rounds that take about 0.2 s of
processor time, five times, and the least counts. Instructions are the difference that callgrind
counts between more rounds and fewer, so what a library caches in a first round helps it. Through
ctfd.h, types, members, enumerators and visits are read in rows. With --first, only the instructions
of the first round on a newly opened file are counted. Prints a table in Markdown for each
dictionary. With --profile it prints callgrind's profile of a question through the calls of libctf.

Needs cc, valgrind, the Debian package binutils-dev, and the Python client.
"""
from __future__ import annotations

import argparse
import os
import re
import subprocess
import sys
import tempfile
from pathlib import Path

TOP = Path(__file__).resolve().parents[1]
sys.path.insert(0, str(TOP / "clients" / "python"))
import ctfd  # noqa: E402

import gnu_dictionary  # noqa: E402

QUESTIONS = {"kind": "kind", "size": "size", "align": "align", "resolve": "resolve",
             "reference": "reference", "pointer": "pointer", "name": "name", "encoding": "encoding",
             "contents": "array", "signature": "signature of a function type",
             "field": "member by name", "find": "look-up", "member": "each member",
             "enumerator": "each enumerator", "value": "enumerator by value",
             "enumerated": "enumerator by name", "visit": "visit, each type",
             "types": "each of all types", "open": "open, for each MB"}
TRIES = 5
ENOUGH = 200_000_000


def compiled_program(work: Path, name: str, source: str, *words: str) -> Path:
    """Compiles a program that asks questions."""
    made = work / name
    subprocess.run(["cc", "-O2", "-g", *words[:-1], TOP / "bench" / source, words[-1], "-o", made],
                   check=True)
    return made


def build(work: Path, archive: str, ctf: Path, is_gnu: bool) -> dict[str, list[str]]:
    """The commands that ask about the same types, by header or library."""
    headers = f"-I{TOP / 'clients' / 'c'}"
    ours = compiled_program(work, "ours", "c_library.c", headers, archive)
    theirs = compiled_program(work, "calls", "c_library_libctf.c", headers, archive)
    commands = {"ctfd.h": [str(ours), str(ctf)], "ctfd_libctf.h": [str(theirs), str(ctf)]}
    if is_gnu:
        with ctfd.connect() as client:
            written, refused = gnu_dictionary.gnu_bytes(client, ctf.read_bytes())
        if refused:
            print(f"GNU libctf refuses {refused} types of {ctf}", file=sys.stderr)
        (work / "gnu.ctf").write_bytes(written)
        gnu = compiled_program(work, "gnu", "c_library_libctf.c", "-DGNU", "-lctf-nobfd")
        commands["GNU libctf"] = [str(gnu), str(work / "gnu.ctf")]
    return commands


def timing_of(command: list[str], question: str, rounds: int) -> tuple[int, int, int]:
    """The number of calls in a round, the nanoseconds of all rounds, and the size of the
    dictionary."""
    said = subprocess.run([*command, question, str(rounds)], check=True, text=True,
                          capture_output=True).stdout.split()
    return int(said[0]), int(said[1]), int(said[2])


def nanoseconds(command: list[str], question: str) -> float:
    """The nanoseconds of a call, the least of some tries; for `open`, those per MB."""
    rounds = 1
    while timing_of(command, question, rounds)[1] < ENOUGH // 4:
        rounds *= 4
    calls, least, size = timing_of(command, question, rounds)
    least = min([least, *(timing_of(command, question, rounds)[1] for _ in range(TRIES - 1))])
    per = least / rounds / max(calls, 1)
    return per * 1e6 / size if question == "open" else per


def instruction_count(command: list[str], question: str, rounds: int) -> int:
    """The number of instructions of a run."""
    said = subprocess.run(["valgrind", "--tool=callgrind", "--callgrind-out-file=/dev/null",
                           *command, question, str(rounds)], check=True, text=True,
                          capture_output=True).stderr
    found = re.search(r"Collected : (\d+)", said)
    assert found, said
    return int(found[1])


def instructions(command: list[str], question: str) -> float:
    calls, _, size = timing_of(command, question, 1)
    once, thrice = (instruction_count(command, question, rounds) for rounds in (1, 3))
    per = (thrice - once) / 2 / max(calls, 1)
    return per * 1e6 / size if question == "open" else per


def first_instructions(command: list[str], question: str) -> float:
    """The instructions of a call in the first round, with nothing cached."""
    calls, _, size = timing_of(command, question, 1)
    none, once = (instruction_count(command, question, rounds) for rounds in (0, 1))
    per = (once - none) / calls
    return per * 1e6 / size if question == "open" else per


def profile(command: list[str], question: str, work: Path) -> None:
    """Prints callgrind's list of the functions in which a question's instructions are."""
    out = work / "callgrind.out"
    subprocess.run(["valgrind", "--tool=callgrind", f"--callgrind-out-file={out}", *command,
                    question, "20"], check=True, capture_output=True)
    said = subprocess.run(["callgrind_annotate", str(out)], check=True, text=True,
                          capture_output=True).stdout
    print(*said.splitlines()[:60], sep="\n")


def cells(command: list[str], question: str, is_first: bool) -> list[str]:
    """The cost of a call in nanoseconds and instructions, or in instructions of the first round;
    empty if there is no such call."""
    if timing_of(command, question, 1)[0] == 0:
        return [""] if is_first else ["", ""]
    if is_first:
        return [f"{first_instructions(command, question):,.0f}"]
    return [f"{nanoseconds(command, question):,.0f}", f"{instructions(command, question):,.0f}"]


def show(commands: dict[str, list[str]], ctf: Path, is_first: bool) -> None:
    """Prints the table of a dictionary, and the machine's load before and after."""
    print(f"{ctf}; load before: {os.getloadavg()[0]:.1f}", file=sys.stderr)
    told = ["first"] if is_first else ["ns", "instructions"]
    heads = [f"{name}: {what}" for name in commands for what in told]
    print(f"| call | {' | '.join(heads)} |", "|---" * (len(heads) + 1) + "|", sep="\n")
    for question, shown in QUESTIONS.items():
        row = [cell for command in commands.values()
               for cell in cells(command, question, is_first)]
        print(f"| {shown} | {' | '.join(row)} |", flush=True)
    print(f"load after: {os.getloadavg()[0]:.1f}", file=sys.stderr)


def main() -> int:
    assert __doc__
    options = argparse.ArgumentParser(usage=__doc__.split("usage: ")[1].split("\n")[0])
    options.add_argument("--profile", choices=QUESTIONS)
    options.add_argument("--no-gnu", action="store_true")
    options.add_argument("--first", action="store_true")
    options.add_argument("ctf", type=Path, nargs="*", default=[TOP / "examples" / "lua.ctf"])
    given = options.parse_args()
    archive = subprocess.run([TOP / "tests/doors/c_library/archive.py", "--kept"], check=True, text=True,
                             capture_output=True).stdout.strip()
    for ctf in given.ctf:
        with tempfile.TemporaryDirectory() as folder:
            work = Path(folder)
            commands = build(work, archive, ctf.resolve(), not given.no_gnu)
            if given.profile:
                profile(commands["ctfd_libctf.h"], given.profile, work)
            else:
                show(commands, ctf, given.first)
    return 0


if __name__ == "__main__":
    sys.exit(main())
