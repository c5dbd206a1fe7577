#!/usr/bin/env python3
"""Counts, by kind and question, gdb's answers about a program with two kinds of debug information.

usage: count.py ORIGINAL AGAIN OURS

The arguments are those of compare.py. Prints for each question how many answers are equal, of how
many that do not vary from run to run, how many are missing, and the names of the missing and the
different ones.
"""
from __future__ import annotations

import json
import sys
from pathlib import Path
from typing import Optional


def is_none(answer: Optional[str]) -> bool:
    """Whether gdb has no answer."""
    return answer is None or answer.startswith("error: ")


def main() -> None:
    original, again, ours = (json.loads(Path(path).read_text().replace("()", "(void)"))
                             for path in sys.argv[1:4])
    for kind, asked in original.items():
        for question, answers in asked.items():
            firm = [name for name, answer in answers.items()
                    if again[kind][question].get(name) == answer]
            others = [name for name in firm if ours[kind][question].get(name) != answers[name]]
            untold = [name for name in others if is_none(ours[kind][question].get(name))]
            told = [name for name in others if name not in untold]
            print(f"{kind}, {question}: {len(firm) - len(others)} of {len(firm)} the same,"
                  f" {len(untold)} not told", *untold[:12],
                  *(["other:", *told[:12]] if told else []))


if __name__ == "__main__":
    sys.exit(main() if len(sys.argv) == 4 else __doc__)
