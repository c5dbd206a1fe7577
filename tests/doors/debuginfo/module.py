#!/usr/bin/env python3
"""Compares gdb's answers about a kernel's module, with two kinds of debug information.

usage: module.py MODULE ORIGINAL OURS

ORIGINAL and OURS are dump.py's answers with the compiler's debug information and with a
dictionary's. Prints for each question how many answers are equal, how many differ for each known
reason, and those that differ without one; the status is then 1.
"""
from __future__ import annotations

import json
import re
import subprocess
import sys
from collections import Counter
from pathlib import Path


def symbols(path: str) -> set[str]:
    """The names of a file's symbols."""
    said = subprocess.run(["nm", path], check=True, capture_output=True, text=True).stdout
    return {line.split()[-1] for line in said.splitlines()}


def flat(answer: str) -> str:
    """An answer without what CTF or BTF cannot distinguish: `[0]` from `[]`, and nested arrays from
    simple ones."""
    return re.sub(r"(\[\d*\])+", "[]", answer)


class Reasons:
    """The reasons why answers about a module's names differ."""

    def __init__(self, module: str) -> None:
        self.names = symbols(module)
        self.copied = {name.split(".")[0] for name in self.names if "." in name}

    def of(self, kind: str, name: str, theirs: str, ours: str) -> str:
        """A known reason, or ""."""
        if kind == "tags":
            if "[" in theirs and flat(theirs) == flat(ours):
                return "dimensions of arrays"
            return "declared alone" if theirs == "0" or "{}" in theirs.replace("\n", "") else ""
        if kind == "functions" and name in self.copied:
            return "a function that the compiler divided"
        return "no symbol" if name not in self.names else ""


def main() -> int:
    reasons = Reasons(sys.argv[1])
    original, ours = (json.loads(Path(path).read_text().replace("()", "(void)"))
                      for path in sys.argv[2:4])
    wrong = []
    for kind, asked in original.items():
        for question, answers in asked.items():
            counts: Counter[str] = Counter()
            for name, theirs in answers.items():
                said = ours[kind][question].get(name, "")
                why = "same" if said == theirs else reasons.of(kind, name, theirs, said)
                counts[why or "for no reason that is known"] += 1
                wrong += [] if why else [(question.format(name), theirs, said)]
            print(f"{kind}, {question}: {len(answers)} asked, {dict(counts)}")
    print(*(f"{one}\n  the compiler's: {theirs[:400]!r}\n  the dictionary's: {said[:400]!r}"
            for one, theirs, said in wrong), sep="\n")
    return 1 if wrong else 0


if __name__ == "__main__":
    sys.exit(main())
