#!/usr/bin/env python3
"""Compares ctfd-show's answers with gdb's.

usage: beside.py COMMAND ASKED WORD..

COMMAND is ctfd-show, and ASKED the file that ask.py wrote. The WORDs are arguments of ctfd-show for
a process or a core file. All expressions are asked in one run, also after a refusal. Prints each
expression whose answers differ, and counts; the status is 1 if an answer is missing.
"""
from __future__ import annotations

import json
import subprocess
import sys
from pathlib import Path
from typing import List

REFUSED = "ctfd-show: "
# The beginning of a message about a file, not about an expression.
NOTICE = "ctfd-show: /"


def answers(command: str, words: List[str], expressions: List[str]) -> List[str]:
    """ctfd-show's answer or refusal for each expression."""
    done = subprocess.run([command, "--keep-going", *words, "--", *expressions], check=False,
                          stdout=subprocess.PIPE, stderr=subprocess.STDOUT, text=True,
                          errors="backslashreplace")
    return [line for line in done.stdout.splitlines() if not line.startswith(NOTICE)]


def main() -> int:
    pairs = json.loads(Path(sys.argv[2]).read_text())
    listed = answers(sys.argv[1], sys.argv[3:], [expression for expression, _ in pairs])
    same = both = untold = other = 0
    for (expression, gdbs), ours in zip(pairs, listed):
        is_refused = ours.startswith(REFUSED)
        same += ours == gdbs
        both += is_refused and gdbs.startswith("refused: ")
        if ours != gdbs and not (is_refused and gdbs.startswith("refused: ")):
            untold += is_refused
            other += not is_refused
            print(f"{expression}\n  gdb:       {gdbs[:400]}\n  ctfd-show: {ours[:400]}")
    print(f"{len(pairs)} asked, {len(listed)} answered: {same} the same, {both} refused by both,"
          f" {untold} by ctfd-show alone, {other} differ")
    return 0 if len(listed) == len(pairs) else 1


if __name__ == "__main__":
    sys.exit(main())
