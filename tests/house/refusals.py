#!/usr/bin/env python3
"""Reports refusals of words that no stored run has, and differences between page and definitions.

usage: tests/house/refusals.py [-v] [PAGE]

docs/PROTOCOL.md, or PAGE, has the refusals of each word in its table of words, and those of
additions below `## add`. They must be the refusals in the definitions that the contracts of the
library cite (tests/house/word_refusals.py finds them). For each of them, the transcripts of
crates/test_service/data, or the run of tests/doors/service/full_session.py, must have a row: a
request of this word with the reply that refuses it, its code, name and place. So a program that
reports Memory, or another fault, in place of one of these fails where enough memory is free. The
same holds for the refusals of each call below the words (tests/house/call_refusals.py). `1 to 19`
stands for each rule of the format. Prints refusals without a row, and those that only the page or
only the definitions have; the status is then 1. With -v prints each pair, and the number of its
rows.
"""
from __future__ import annotations

import argparse
import json
import re
import sys
from collections import Counter
from pathlib import Path
from typing import Iterator

sys.path.insert(0, str(Path(__file__).resolve().parents[1]))
from doors.service import full_session  # noqa: E402
from doors.service.runs import OTHERS, TOP, TRANSCRIPTS, TranscriptLine, stored_runs  # noqa: E402
from house import call_refusals, word_refusals  # noqa: E402

FAULTS = TOP / "crates" / "ctf_model" / "src" / "faults.rt"
CODE = re.compile(r"pub const (\w+): u16 = (\d+);")
NAME = re.compile(r"Fault::(\w+) => \"(\w+)\"")
WORD = re.compile(r"^\| \[`(\w+)`\]\(#\w+\) \|([^|]*)\|([^|]*)\|([^|]*)\|$")
ADDED = re.compile(r"^- an? (type|member|enumerator|label): (.*)$")
FAULT = re.compile(r"\b[A-Z][a-z]\w+")
RULES = range(1, 20)
# Additions that are not types.
PARTS = ("member", "enumerator", "label")

Pair = tuple[str, str]


def names() -> dict[int, str]:
    """The name of each fault, by its code."""
    text = FAULTS.read_text(encoding="utf-8")
    written = dict(NAME.findall(text))
    return {int(code): written[constant] for constant, code in CODE.findall(text)}


def faults_in(refusals: str, known: dict[int, str]) -> set[str]:
    """The faults in a text that lists refusals."""
    found = set(FAULT.findall(refusals)) & set(known.values())
    return found | {known[code] for code in RULES} if "1 to 19" in refusals else found


def of_words(page: str, known: dict[int, str]) -> set[Pair]:
    """Each word of the table with each of its refusals; a question on a type also has those of
    `kind`."""
    pairs: set[Pair] = set()
    of_kind: set[str] = set()
    for word, fields, _, refusals in filter(None, map(cells, page.splitlines())):
        faults = faults_in(refusals, known)
        if word == "kind":
            of_kind = faults
        pairs |= {(word, fault) for fault in faults | (of_kind if "`t`" in fields else set())}
    return pairs


def cells(line: str) -> tuple[str, ...] | None:
    """The cells of a row of the table of words."""
    row = WORD.match(line)
    return row.groups() if row else None


def of_additions(page: str, known: dict[int, str]) -> set[Pair]:
    """Each kind of addition with each of its refusals; a line after `- then` continues the one
    above."""
    pairs: set[Pair] = set()
    added = ""
    for line in page.partition("\n## add\n")[2].partition("\n## ")[0].splitlines():
        item = ADDED.match(line)
        added = item[1] if item else added if line.startswith("- then ") else ""
        if added:
            pairs |= {(f"add {added}", fault) for fault in faults_in(line, known)}
    return pairs


def exchanges(parts: list[list[TranscriptLine]]) -> Iterator[tuple[bytes, bytes]]:
    """Each request of a run with its reply; replies are in the order of the requests."""
    waiting: list[bytes] = []
    for told in (it for part in parts for it in part):
        if told.is_request:
            waiting.append(told.line)
        elif waiting:
            yield waiting.pop(0), told.line


def rows() -> Iterator[tuple[str | bytes, str | bytes]]:
    """Each request with its reply, of all stored runs."""
    for path in sorted(TRANSCRIPTS.glob("*.transcript")):
        if path.name != OTHERS:
            for _, parts in stored_runs(path.name):
                yield from exchanges(parts)
    yield from full_session.rows()


def request_words(request: str | bytes) -> list[str]:
    """The word of a request, if it has one, and what it adds."""
    try:
        fields = json.loads(request)
    except ValueError:
        return []
    word = fields.get("op") if isinstance(fields, dict) else None
    if word != "add":
        return [word] if isinstance(word, str) else []
    what = fields.get("what")
    return ["add", f"add {what if what in PARTS else 'type'}"]


def refusal_counts() -> Counter[Pair]:
    """The number of times that each word is refused with each fault in the stored runs."""
    found: Counter[Pair] = Counter()
    for request, reply in rows():
        fault = json.loads(reply).get("fault")
        if fault:
            found.update((word, fault["name"]) for word in request_words(request))
    return found


def main() -> int:
    assert __doc__
    options = argparse.ArgumentParser(description=__doc__.split("\n\n")[0])
    options.add_argument("-v", action="store_true", dest="all", help="prints each pair")
    options.add_argument("page", nargs="?", type=Path, default=TOP / "docs" / "PROTOCOL.md")
    given = options.parse_args()
    page, known = given.page.read_text(encoding="utf-8"), names()
    words, additions = of_words(page, known), of_additions(page, known)
    found = refusal_counts()
    for word, fault in sorted(words | additions) if given.all else ():
        print(f"{word} {fault}: {found[word, fault]}")
    missing = sorted((words | additions) - set(found))
    for word, fault in missing:
        print(f"no stored run has `{word}` refused with {fault}")
    differing = word_refusals.differences(words | additions, known)
    calls, untold = call_refusals.without_rows(set(found), known)
    for line in (*differing, *untold):
        print(line)
    print(f"refusals: {len(words)} of words, {len(additions)} of additions, {calls} of calls:"
          f" {len(missing) + len(untold)} without a row,"
          f" {len(differing)} by page or definitions alone")
    return 1 if missing or differing or untold or not (words and additions and calls) else 0


if __name__ == "__main__":
    sys.exit(main())
