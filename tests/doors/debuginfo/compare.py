#!/usr/bin/env python3
"""Compares gdb's answers about a program, with two kinds of debug information.

usage: compare.py KNOWN ORIGINAL AGAIN OURS

ORIGINAL and AGAIN are dump.py's answers with the compiler's debug information, in two runs, and
OURS those with a dictionary's. Answers that vary from run to run are not compared. `()` counts as
`(void)`, since CTF does not distinguish them. KNOWN has a line `NAME: REASON` for each name whose
answers may differ. Prints the number of equal answers, each difference that is not known, and each
known name without a difference; the status is 1 if there is one.
"""
from __future__ import annotations

import json
import sys
from pathlib import Path
from typing import NamedTuple


class Question(NamedTuple):
    """A question, with {} in place of the name."""

    text: str
    name: str


def answers(path: str) -> dict[Question, str]:
    """The answers in a file, in the form in which they are compared."""
    kinds = json.loads(Path(path).read_text())
    return {Question(text, name): answer.replace("()", "(void)")
            for asked in kinds.values() for text, named in asked.items()
            for name, answer in named.items()}


def known_differences(path: str) -> set[str]:
    """The names whose answers may differ."""
    lines = Path(path).read_text().splitlines()
    return {line.partition(": ")[0] for line in lines if line and not line.startswith("#")}


def main() -> int:
    original, again, ours = map(answers, sys.argv[2:5])
    allowed = known_differences(sys.argv[1]) & {question.name for question in original}
    firm = {question for question, answer in original.items() if again.get(question) == answer}
    differ = {question for question in firm if ours.get(question) != original[question]}
    wrong = sorted(question for question in differ if question.name not in allowed)
    for question in wrong:
        print(f"{question.text.format(question.name)}\n  the compiler's: {original[question]!r}\n"
              f"  the dictionary's: {ours.get(question)!r}")
    same = sorted(allowed - {question.name for question in differ})
    print(*(f"{name}: known to differ, and does not" for name in same), sep="\n", end="")
    print(f"{len(firm - differ)} answers the same, {len(differ) - len(wrong)} known to differ,"
          f" {len(wrong)} differ; {len(original) - len(firm)} vary from run to run")
    return 1 if wrong or same or not firm else 0


if __name__ == "__main__":
    sys.exit(main())
