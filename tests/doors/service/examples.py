#!/usr/bin/env python3
"""Compares the replies to each examples/*.jsonl with the .replies file of the same name.

usage: tests/doors/service/examples.py PROGRAM

For meeting.jsonl, the service is started with the dictionary of first.jsonl as `base`. Each request
in docs/PROTOCOL.md must be a line of an example, and the reply below it the reply to that line;
`..` stands for the middle of long bytes. Prints each example with other replies, with the first
difference, and each request of the page that is in no example, or has another reply; the status is
then 1. `make` runs this without pytest; test_examples.py has a test for each example.
"""
from __future__ import annotations

import contextlib
import itertools
import json
import re
import subprocess
import sys
import tempfile
from pathlib import Path
from typing import Iterator

EXAMPLES = Path(__file__).resolve().parents[3] / "examples"
PAGE = EXAMPLES.parent / "docs" / "PROTOCOL.md"
LONGEST_SECONDS = 600


def wrong(program: str, requests: Path, words: list[str]) -> Iterator[str]:
    """Errors in the replies to an example."""
    wanted = requests.with_suffix(".replies")
    if not wanted.exists():
        yield f"there is no {wanted.name}"
        return
    with requests.open("rb") as given:
        ended = subprocess.run([program, "serve", *words], stdin=given, capture_output=True,
                               timeout=LONGEST_SECONDS, check=False)
    if ended.returncode != 0 or ended.stderr:
        yield f"status {ended.returncode}, {ended.stderr!r}"
    lines = itertools.zip_longest(ended.stdout.split(b"\n"), wanted.read_bytes().split(b"\n"))
    for number, (seen, line) in enumerate(lines, 1):
        if seen != line:
            yield f"reply {number} is {seen!r}, wanted {line!r}"
            return


def not_shown_right() -> Iterator[str]:
    """The requests of the page that no example has, or not with this reply."""
    told = [pair for requests in sorted(EXAMPLES.glob("*.jsonl"))
            for pair in zip(requests.read_text(encoding="ascii").splitlines(),
                            requests.with_suffix(".replies").read_text("ascii").splitlines())]
    lines = re.findall(r'^\{"(?:s|ok|fault)":.*', PAGE.read_text(encoding="utf-8"), re.MULTILINE)
    for request, reply in zip(lines[0::2], lines[1::2]):
        wanted = re.compile(re.escape(request).replace(re.escape(".."), "[0-9a-f]*"))
        if not any(wanted.fullmatch(line) and seen == reply for line, seen in told):
            yield f"{PAGE.name} shows what no example has: {request} {reply}"


@contextlib.contextmanager
def base() -> Iterator[str]:
    """A file with the dictionary of first.jsonl."""
    first, *_ = (EXAMPLES / "first.jsonl").read_text(encoding="ascii").splitlines()
    with tempfile.NamedTemporaryFile() as file:
        file.write(bytes.fromhex(json.loads(first)["bytes"]))
        file.flush()
        yield file.name


def wrong_of(program: str, name: str, of_base: str) -> Iterator[str]:
    """Errors in the replies to the example of this name."""
    words = [f"base={of_base}"] if name == "meeting" else []
    yield from wrong(program, EXAMPLES / f"{name}.jsonl", words)


NAMES = [path.stem for path in sorted(EXAMPLES.glob("*.jsonl"))]


def main(program: str) -> int:
    with base() as of_base:
        failed = [f"{name}.jsonl: {why}" for name in NAMES
                  for why in wrong_of(program, name, of_base)]
    failed += not_shown_right()
    print(*failed, f"examples: {len(NAMES)} compared, {len(failed)} times wrong", sep="\n")
    return 1 if failed or not NAMES else 0


if __name__ == "__main__":
    sys.exit(main(sys.argv[1]) if len(sys.argv) == 2 else __doc__)
