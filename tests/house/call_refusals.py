"""The refusals of each public call below the words that may also run out of memory.

The list is made from the contracts: a `pub fn` of crates/*/src whose clauses include out of memory,
with every fault that the definitions in its `err` clauses lead to (tests/house/definitions.py). A
word of the protocol reaches each of these calls, so a stored run in which that word is refused with
the fault covers the call too: a body that reported Memory instead would fail there, where enough
memory is free.
"""
from __future__ import annotations

import re
from dataclasses import dataclass
from pathlib import Path
from typing import Iterator, Mapping

from house import word_refusals
from house.definitions import CONSTANTS, CRATES, Body, Word, bodies_of, file_of, reachable

FUNCTION = re.compile(r"^( *)pub fn (\w+)\b.*?^\1\{", re.MULTILINE | re.DOTALL)
CLAUSE = re.compile(r"ensures\s+(\w*)\s*\{(.*?)\}\s*(?=ensures|requires|//|\Z|\{)", re.DOTALL)
USE = re.compile(r"ghost use Rattle\.([\w.]+)\.\{([^}]*)\};")
NAMED = re.compile(r"[A-Za-z_]\w*")
MEMORY = "out_of_memory"

ADDED = ("add type", "add member", "add enumerator", "add label")

# The words of the protocol that reach each call. LISTS stands for the calls that open borrowed
# lists, which tests/doors/service/test_lists_refused.py reaches; STATED for ctfd_add_member_at,
# whose refusals are in clients/rust/ctfd/tests/drafts.rs; AS_A_SESSION for ctfd_line_as, whose
# refusals are in tests/doors/c_library/sessions.c.
LISTS = "lists"
AS_A_SESSION = "a line as a session's"
STATED = "a member at a stated place"
ELSEWHERE = {LISTS, STATED, AS_A_SESSION}
REACHED_BY: Mapping[str, tuple[str, ...]] = {
    "ctf_check check": ("check",),
    "ctf_check judge_chains": ("check",),
    "ctf_check build": ("open",),
    "ctf_check findings": ("update",),
    "ctf_check of_faultless": ("update",),
    "ctf_check judge": (LISTS,),
    "ctf_draft new": ("create",),
    "ctf_draft add": ("add type",),
    "ctf_draft member": ("add member",),
    "ctf_draft member_at": (STATED,),
    "ctf_draft enumerator": ("add enumerator",),
    "ctf_draft label": ("add label",),
    "ctf_library open": ("open",),
    "ctf_library check": ("check",),
    "ctf_library add": ("part",),
    "ctf_lines read_as": (AS_A_SESSION,),
    "ctf_names spell": ("name",),
    "ctf_names unroll": ("name",),
    "ctf_open add": ADDED,
    "ctf_open add_part": ADDED,
    "ctf_open create": ("create",),
    "ctf_open create_within": ("create",),
    "ctf_open create_sharing": ("create",),
    "ctf_open update": ("update",),
    "ctf_open update_within": ("update",),
    "ctf_open over": ("import",),
    "ctf_open build": ("open",),
    "ctf_open of_faultless": ("update",),
    "ctf_open load_lent": (LISTS,),
    "ctf_open name": ("name",),
    "ctf_open show": ("show",),
    "ctf_print show": ("show",),
    "ctf_writer write": ("update",),
    "ctf_writer update": ("update",),
    "ctf_writer write_over": ("update",),
}


@dataclass(frozen=True)
class Call:
    """A public function that may run out of memory, and its clauses about faults."""

    name: str
    file: Path
    clauses: tuple[str, ...]


def imports_of(file: Path) -> dict[str, Word | str]:
    """The meanings of the names in a file's contracts: a definition, or the constant of a fault."""
    found: dict[str, Word | str] = {}
    for module, names in USE.findall(file.read_text(encoding="utf-8")):
        for name in filter(None, map(str.strip, names.split(","))):
            given, _, alias = name.partition(" as ")
            path = file_of(module)
            if module.endswith(CONSTANTS):
                found[alias or given] = given
            elif path:
                found[alias or given] = Word(path, given)
    return found


def calls() -> Iterator[Call]:
    """Each public function whose contract names the fault for out of memory."""
    for file in sorted(CRATES.glob("ctf_*/src/**/*.rt")):
        for function in FUNCTION.finditer(file.read_text(encoding="utf-8")):
            clauses = [text for label, text in CLAUSE.findall(function[0] + "\n")
                       if "IfErr" in text or "err" in label]
            if any(MEMORY in clause for clause in clauses):
                crate = file.relative_to(CRATES).parts[0]
                yield Call(f"{crate} {function[2]}", file, tuple(clauses))


def faults_of(call: Call) -> set[str]:
    """The constants of the faults that the clauses of a call lead to, and the numbers of rules."""
    words = imports_of(call.file)
    bodies: list[Body] = []
    constants: set[str] = set()
    seen: set[Word] = set()
    for name in NAMED.findall(" ".join(call.clauses)):
        meant = words.get(name)
        if isinstance(meant, str):
            constants.add(meant)
        elif meant:
            seen.add(meant)
            bodies += bodies_of(meant)
    more, below = reachable(bodies, word_refusals.reading())
    if word_refusals.RULES in below | seen:
        more |= {str(code) for code in word_refusals.FIRST_RULES}
    return (constants | more) - {"MEMORY"}


def pairs(known: Mapping[int, str]) -> dict[str, set[str]]:
    """Each call with the names of its refusals."""
    named = {name.lower(): name for name in known.values()}
    found: dict[str, set[str]] = {}
    for call in calls():
        faults = {known[int(code)] if code.isdigit() else named[code.replace("_", "").lower()]
                  for code in faults_of(call)}
        found.setdefault(call.name, set()).update(faults)
    return found


def without_rows(rows: set[tuple[str, str]], known: Mapping[int, str]) -> tuple[int, list[str]]:
    """The number of pairs, and a line for each call or pair that no run covers."""
    never = set().union(*word_refusals.NEVER.values())
    found = pairs(known)
    count = 0
    told = [f"tests/house/call_refusals.py names `{call}`, which has no such contract"
            for call in sorted(set(REACHED_BY) - set(found))]
    for call, faults in sorted(found.items()):
        words = REACHED_BY.get(call)
        if words is None:
            told.append(f"tests/house/call_refusals.py does not say which word reaches `{call}`")
            continue
        count += len(faults)
        told += [f"no stored run has `{call}` refused with {fault}" for fault in sorted(faults)
                 if not ELSEWHERE & set(words)
                 and not any((word, fault) in rows | never for word in words)]
    return count, told
