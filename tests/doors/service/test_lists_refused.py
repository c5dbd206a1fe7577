"""Gives the lists that stored runs have refused to `ctfd dump`, and to the library for C.

Each `check` and `open` of the transcripts that a rule of the format refuses gives three lists, with
the code and place of their fault. `ctfd dump` on files of these lists must report the same fault
and place, and so must `ctfd_open` and `ctfd_open_lent` of the shared library, if it is there
(CTFD_ARCHIVE names the archive beside it). So where enough memory is free, none of them reports
Memory, or another fault, in place of a rule's. Each rule has such a list.
"""
from __future__ import annotations

import ctypes
import json
import subprocess
import tempfile
from dataclasses import dataclass
from pathlib import Path
from typing import Iterator, Optional

import pytest

from house.refusals import RULES, exchanges, names
from parts import library

from .runs import OTHERS, TRANSCRIPTS, stored_runs

SECTIONS = ("ctf", "sym", "str")
# The words that stage lists, check them, or drop them.
WORDS = ("part", "check", "open", "clear", "reset")


class Handle(ctypes.Structure):
    """A handle of ctfd.h."""

    _fields_ = [("full", ctypes.c_bool), ("at", ctypes.c_void_p)]


@dataclass(frozen=True)
class Lists:
    """Three lists; one that no part named is None."""

    ctf: bytes
    sym: Optional[bytes]
    strs: Optional[bytes]


@dataclass(frozen=True)
class Refusal:
    """The code of the rule that lists break, and the place of the fault."""

    code: int
    place: int


def lists_of_stage(stage: dict[str, bytes]) -> Lists:
    return Lists(stage.get("ctf", b""), stage.get("sym"), stage.get("str"))


def refused_lists() -> Iterator[tuple[Lists, Refusal]]:
    """The lists of each `check` and `open` that a rule refuses, with their fault."""
    for path in sorted(TRANSCRIPTS.glob("*.transcript")):
        if path.name == OTHERS:
            continue
        for _, parts in stored_runs(path.name):
            yield from refused_in(exchanges(parts))


def refused_in(lines: Iterator[tuple[bytes, bytes]]) -> Iterator[tuple[Lists, Refusal]]:
    """The lists of each `check` and `open` of one run that a rule refuses, with their fault."""
    stages: dict[int, dict[str, bytes]] = {}
    for request, reply in lines:
        try:
            asked, said = json.loads(request), json.loads(reply)
        except ValueError:
            continue
        word = asked.get("op") if isinstance(asked, dict) else None
        stage = stages.setdefault(said["s"], {}) if word in WORDS else {}
        fault = said.get("fault")
        if word in ("check", "open") and fault and fault["code"] in RULES:
            yield lists_of_stage(stage), Refusal(fault["code"], fault["place"])
        elif word == "part" and not fault:
            section = asked["section"]
            stage[section] = stage.get(section, b"") + bytes.fromhex(asked["bytes"])
        elif word in ("open", "clear", "reset") and not fault:
            stage.clear()


def dump_refusal(program: str, lists: Lists, known: dict[int, str]) -> Optional[Refusal]:
    """The refusal by `ctfd dump` of files with these lists."""
    with tempfile.TemporaryDirectory() as folder:
        words = [program, "dump"]
        for section, data in zip(SECTIONS, (lists.ctf, lists.sym, lists.strs)):
            if data is not None:
                file = Path(folder, section)
                file.write_bytes(data)
                words += [str(file)] if section == "ctf" else [f"--{section}", str(file)]
        ended = subprocess.run(words, capture_output=True, text=True, timeout=60, check=False)
    said = ended.stderr.strip().rpartition(": ")[2].split(" at ")
    codes = {name: code for code, name in known.items()}
    if ended.returncode != 1 or ended.stdout or len(said) != 2 or said[0] not in codes:
        return None
    return Refusal(codes[said[0]], int(said[1]))


def open_refusal(call: ctypes._NamedFuncPointer, lists: Lists) -> Refusal:
    """The refusal of these lists by a call of the library that opens; its status is the code plus
    one."""
    place, handle = ctypes.c_uint64(), Handle(False, None)
    sym, strs = lists.sym or b"", lists.strs or b""
    status = call(ctypes.byref(handle), lists.ctf, ctypes.c_size_t(len(lists.ctf)), sym,
                  ctypes.c_size_t(len(sym)), strs, ctypes.c_size_t(len(strs)),
                  ctypes.c_bool(lists.sym is not None), ctypes.c_bool(lists.strs is not None),
                  ctypes.c_bool(False), ctypes.byref(place))
    return Refusal(status - 1, place.value)


KNOWN = names()
ROWS = sorted(set(refused_lists()), key=lambda row: (row[1].code, row[1].place, repr(row[0])))
TITLES = [f"{KNOWN[wanted.code]} at {wanted.place}" for _, wanted in ROWS]


@pytest.mark.parametrize("lists, wanted", ROWS, ids=TITLES)
def test_dump_refuses(program: str, lists: Lists, wanted: Refusal) -> None:
    assert dump_refusal(program, lists, KNOWN) == wanted


@pytest.fixture(scope="module")
def shared() -> ctypes.CDLL:
    """The library for C."""
    if not library().is_file():
        pytest.skip(f"there is no {library()}")
    return ctypes.CDLL(str(library()))


@pytest.mark.parametrize("call", ("ctfd_open", "ctfd_open_lent"))
@pytest.mark.parametrize("lists, wanted", ROWS, ids=TITLES)
def test_call_refuses(shared: ctypes.CDLL, lists: Lists, wanted: Refusal, call: str) -> None:
    assert open_refusal(getattr(shared, call), lists) == wanted


def test_each_rule_has_a_list() -> None:
    assert {wanted.code for _, wanted in ROWS} >= set(RULES)
