"""Runs every command on damaged files: no crash, no hang, no bug, no wrong answer with status 0.

Tries a sample of the files, and 2,000 with --whole. Answers with status 0 are checked with other
tools: llvm-dwarfdump, readelf and objdump list the structs of the same file, and the service opens
the converted dictionaries.
"""
from __future__ import annotations

import os
import re
import struct
import subprocess
from collections import Counter
from concurrent.futures import ThreadPoolExecutor
from pathlib import Path
from typing import Dict, Iterator, List, NamedTuple, Optional, Set, Tuple

import pytest

from .. import damaged
from ..support import MEGABYTES, SECONDS, SERVICE, TRACE, Outcome, has, run, tool

SHARE, ALL, SEED = 60, 2000, 1
LANES = int(os.environ.get("LANES", min(4, os.cpu_count() or 1)))
ADDRESS_SPACE = 4000  # megabytes
# The name of a command, a word for this form of it, and its arguments: {} is the file, {s} the
# sound one, {o} an output path.
COMMANDS: List[Tuple[str, str, List[str]]] = [
    ("convert", "", ["{}", "{o}.ctf"]), ("types", "", ["{}"]),
    ("types", "sizes", ["--sizes", "{}"]),
    ("types", "c", ["--c", "{}"]), ("types", "json", ["--json", "{}"]),
    ("types", "contains", ["{}", "--contains", "int", "--recursive"]),
    ("types", "names", ["{}", "struct witness", "work", "shown"]),
    ("explore", "", ["{}", "-o", "{o}.html"]), ("debuginfo", "", ["{}", "{o}.debug"]),
    ("diff", "", ["{s}", "{}"]), ("diff", "all", ["--all", "{}", "{s}"]),
]
WRONG = re.compile(TRACE.pattern + "|a bug in ctfd")
ODD = re.compile("[\x00-\x08\x0b-\x1f\x7f]")
PLAIN = re.compile(r"[A-Za-z_]\w*\Z", re.ASCII)
Named = Set[Tuple[str, str, int]]
_TYPE = re.compile(r'^type \d+ (struct|union) "([^"]*)" .*?size=(\d+)', re.M)
_DWARF = re.compile(r"DW_TAG_(structure|union)_type\n((?:\s+DW_AT_.*\n)*)")
_READELF = re.compile(r"\(DW_TAG_(structure|union)_type\)\n((?:\s+<\w+>\s+DW_AT_.*\n)*)")
_GNU = re.compile(r"\(kind [67]\) (struct|union) (\w+) \(size (0x[0-9a-f]+)\)")


class Problem(NamedTuple):
    """A problem, with its file and command."""

    file: str
    what: str
    command: str
    why: str


def without_places(found: Named) -> Named:
    return {one for one in found if PLAIN.match(one[1])}


def of_dump(path: Path) -> Optional[Named]:
    """The structs and unions of a dictionary, from the service's dump."""
    done = run(SERVICE, "dump", path)
    if done.status:
        return None
    found = {(word, name, int(size)) for word, name, size in _TYPE.findall(done.output)}
    return without_places(found)


def of_peer(path: Path, base: str) -> Optional[Named]:
    """The structs and unions of a file according to another reader, or None if it lists none."""
    if base == "gnu.o":
        listed = _output("objdump", "--ctf=.ctf", path)
        return {(word, name, int(size, 16)) for word, name, size in _GNU.findall(listed)} or None
    if "btf" in base:
        return without_places(set(_of_btf(path.read_bytes()))) or None
    if "ctf" in base:
        return None
    listed = _output("llvm-dwarfdump", "--debug-info", path)
    found: Named = set()
    for tag, lines in _DWARF.findall(listed):
        name = re.search(r'DW_AT_name\s+\("(.*)"\)', lines)
        size = re.search(r"DW_AT_byte_size\s+\((\w+)\)", lines)
        if name and size:
            found.add(({"structure": "struct"}.get(tag, tag), name[1], int(size[1], 0)))
    return without_places(found) or None


def of_other_peer(path: Path) -> Named:
    """readelf's structs and unions in debug information; it continues where llvm-dwarfdump
    stops."""
    found: Named = set()
    for tag, lines in _READELF.findall(_output("readelf", "-wi", path)):
        name = re.search(r"DW_AT_name\s+: (?:\(.*\): )?(.*)", lines)
        size = re.search(r"DW_AT_byte_size\s+: (\w+)", lines)
        if name and size:
            found.add(({"structure": "struct"}.get(tag, tag), name[1].strip(), int(size[1], 0)))
    return without_places(found)


def _output(*words: object) -> str:
    try:
        return subprocess.run([str(word) for word in words], capture_output=True, timeout=10,
                              text=True, errors="replace").stdout
    except subprocess.TimeoutExpired:
        return ""


def _of_btf(data: bytes) -> Iterator[Tuple[str, str, int]]:
    """The structs and unions of BTF, by itself or in an otherwise sound ELF file."""
    at = data.find(struct.pack("<HB", 0xEB9F, 1))
    try:
        length, types, end, names, last = struct.unpack_from("<IIIII", data, at + 4)
        here, stop = at + length + types, at + length + types + end
        strings = data[at + length + names:at + length + names + last]
        while at >= 0 and here < stop:
            name, info, size = struct.unpack_from("<III", data, here)
            kind, count = info >> 24 & 31, info & 0xFFFF
            here += 12 + {1: 4, 3: 12, 4: 12 * count, 5: 12 * count, 6: 8 * count, 13: 8 * count,
                          14: 4, 15: 12 * count, 17: 4, 19: 12 * count}.get(kind, 0)
            if kind in (4, 5) and name:
                text = strings[name:strings.index(b"\0", name)].decode("latin-1")
                yield "struct" if kind == 4 else "union", text, size
    except (struct.error, ValueError):
        return


class Judge:
    """Runs the commands on one file, and collects problems."""

    def __init__(self, path: Path, sound: Path, what: str, folder: Path) -> None:
        self.path, self.sound, self.what, self.folder = path, sound, what, folder
        self.problems: List[Problem] = []
        self.done: Dict[Tuple[str, str], Outcome] = {}

    def run(self) -> "Judge":
        for name, form, words in COMMANDS:
            given = [word.replace("{}", str(self.path)).replace("{s}", str(self.sound))
                     .replace("{o}", str(self.folder / "out")) for word in words]
            done = run(tool(name), *given, seconds=2 * SECONDS, megabytes=ADDRESS_SPACE)
            self.done[name, form] = done
            for why in self._wild(done):
                self._tell(f"{name} {form}".strip(), f"{why}: {done.errors[-200:].strip()}")
        self._judge_answers()
        return self

    def _tell(self, command: str, why: str) -> None:
        self.problems.append(Problem(self.path.name, self.what, command, why))

    def _wild(self, done: Outcome) -> Iterator[str]:
        """Problems with how a command ended."""
        if done.status < 0:
            yield f"it was ended by signal {-done.status}"
        if done.seconds > SECONDS:
            yield f"{done.seconds:.1f} seconds"
        if done.megabytes > MEGABYTES:
            yield f"{done.megabytes:.0f} megabytes"
        if WRONG.search(done.text):
            yield "a bug"
        if ODD.search(done.text):
            yield "a control character"

    def _judge_answers(self) -> None:
        """Compares answers with status 0 with those of other tools."""
        convert, ours = self.done["convert", ""], None
        if convert.status in (0, 1):
            ours = of_dump(self.folder / "out.ctf")
            if ours is None:
                self._tell("convert", "the service refuses what was written")
                return
        peer = of_peer(self.path, self.sound.name)
        if convert.status == 0 and ours is not None and peer is not None and ours != peer:
            other = peer if "btf" in self.sound.name or self.sound.name == "gnu.o" \
                else of_other_peer(self.path)
            alone, missing = ours - (peer | other), (peer & other) - ours
            if alone or missing:
                self._tell("convert", f"ours alone {sorted(alone)}, the peers' alone"
                                      f" {sorted(missing)}")
        self._judge_types(ours, convert.status)
        if self.done["diff", "all"].status == 0 and ours is not None:
            there = run(tool("convert"), self.sound, self.folder / "sound.ctf").status
            if there == 0 and of_dump(self.folder / "sound.ctf") != ours:
                self._tell("diff all", "status 0, and the types differ")

    def _judge_types(self, ours: Optional[Named], converted: int) -> None:
        listed = self.done["types", ""]
        if listed.status == 0 and converted == 2:
            self._tell("types", "it answers what is not converted: "
                                + self.done["convert", ""].errors)
        if listed.status == 0 and ours is not None:
            lines = [line.split(None, 2) for line in listed.output.splitlines()]
            found = {(*line[2].split(" ", 1), line[1]) for line in lines
                     if len(line) == 3 and line[1] != "-"
                     and line[2].startswith(("struct ", "union "))}
            wanted = {(word, name, str(size)) for word, name, size in ours}
            named = {one for one in found if PLAIN.match(one[1])}
            if named != wanted:
                self._tell("types", f"it lists {sorted(named ^ wanted)} otherwise than converted")


def judge_all(folder: Path, count: int, first: int = 0) -> Tuple[List[Problem], Counter[str]]:
    """The problems of all commands with a number of files, and the count of each status."""
    listed = damaged.write(folder / "files", first + count, SEED)[first:]
    statuses: Counter[str] = Counter()

    def one(given: Tuple[Path, damaged.DamagedFile]) -> Judge:
        path, told = given
        own = folder / f"of-{path.name}"
        own.mkdir()
        found = Judge(path, path.parent / "sound" / told.base, told.what, own).run()
        subprocess.run(["rm", "-r", str(own)], check=True)
        return found

    with ThreadPoolExecutor(LANES) as lanes:
        problems: List[Problem] = []
        for found in lanes.map(one, listed):
            problems += found.problems
            statuses.update(f"{name} {done.status}" for (name, _), done in found.done.items())
    return problems, statuses


@pytest.mark.skipif(not has("gcc", "llvm-dwarfdump", "objdump"),
                    reason="no gcc, llvm-dwarfdump or objdump here")
def test_damaged(program: str, whole: bool, tmp_path: Path) -> None:
    problems, _ = judge_all(tmp_path, ALL if whole else SHARE)
    assert not problems


@pytest.mark.skipif(not has("gcc"), reason="no gcc here")
def test_the_same_seed_makes_the_same_files() -> None:
    first, again = (list(damaged.files(40, SEED)) for _ in range(2))
    assert first == again
    assert first != list(damaged.files(40, SEED + 1))
