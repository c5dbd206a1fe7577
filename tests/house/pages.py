#!/usr/bin/env python3
"""Checks that pages are short: each page, all of docs/ together, and each sentence for users.

usage: tests/house/pages.py

Words of a page are counted as by `wc -w`. `MOST` has the limit of each page; a page that it does
not name is an error, and so is a name without a page.

A sentence of a page for users has at most 35 words, one of another page 40, and the mean of a page
is at most 25. No text outside crates/ has one of the phrases in `RIDDLES`. Blocks of code, tables,
headings and comments are skipped. Each paragraph and each item of a list is a separate text,
however its lines are broken. A sentence ends at `.`, `!` or `?`, with the quote or parenthesis that
closes after it, at the end of the text or before a blank and no small letter. A link counts as its
text, and code in backquotes as one word; a word has a letter or a digit, and ends at a blank.

Prints each page, sentence and phrase that is wrong; the status is 1 if there is one.
"""
from __future__ import annotations

import re
import subprocess
import sys
from pathlib import Path
from typing import Iterator

from links import CODE, LINK, TOP, prose

FOR_USERS = {
    "README.md": 1290,
    "clients/gdb/README.md": 3170,
    "clients/python/README.md": 3800,
    "docs/C.md": 4920,
    "docs/COMING-FROM.md": 2880,
    "docs/COOKBOOK.md": 4320,
    "docs/DUMP.md": 1150,
    "docs/FAULTS.md": 3170,
    "docs/FORMAT.md": 2160,
    "docs/GLOSSARY.md": 890,
    "docs/LIMITS.md": 1620,
    "docs/PROTOCOL.md": 7200,
    "docs/SERVING.md": 3920,
    "docs/STORE.md": 1500,
    "docs/THEOREM.md": 1880,
}
FOR_MAINTAINERS = {
    "docs/ARCHITECTURE.md": 5330,
    "docs/CONTRIBUTING.md": 2460,
    "docs/DECISIONS.md": 6800,
    "docs/GATE.md": 1370,
    "docs/PERFORMANCE.md": 5140,
    "docs/PROMISES.md": 3170,
    "docs/PROVING.md": 4320,
    "docs/READING.md": 1010,
}
MOST = {**FOR_USERS, **FOR_MAINTAINERS}
MOST_OF_A_CRATE = 200
MOST_OF_DOCS = 60_000
MOST_OF_A_SENTENCE = {**dict.fromkeys(FOR_USERS, 35), **dict.fromkeys(FOR_MAINTAINERS, 40)}
MOST_IN_THE_MEAN = 25
# Phrases that readers would have to guess at; each was in a text once.
RIDDLES = (
    "want of memory", "what a name of an enum stands for", "is told of it", "a body is turned",
    "cut at its first", "hangs on its own", "of the second sort alone", "lead round", "leads round",
    "can't be got", "is said later what", "declared and not told", "to which the way is halved",
    "are answered, in one round", "no type of C with a name", "it was not run beside",
)
TEXTS = (".md", ".py", ".rs", ".c", ".h", ".sh", ".1", ".toml", ".js", ".html")

LEFT_OUT = re.compile(r"\||#|<!--|!\[")
ITEM = re.compile(r"^\s*(?:[-*]|\d+\.)\s+")
END = re.compile(r"(?<=[.!?])[\"')\]*_]*\s+(?![a-z])")


def words(page: Path) -> int:
    """The number of words of a page, as by `wc -w`."""
    return len(page.read_text(encoding="utf-8").split())


def too_long() -> Iterator[str]:
    """The pages that are too long, and errors in the limits."""
    seen = {str(page.relative_to(TOP)): words(page)
            for page in (*TOP.glob("*.md"), *(TOP / "docs").glob("*.md"),
                         TOP / "clients/gdb/README.md", TOP / "clients/python/README.md")}
    seen.pop("CHANGELOG.md", None)
    for name in sorted({*seen, *MOST}):
        if name not in MOST:
            yield f"{name}: no number of words is given for it in tests/house/pages.py"
        elif name not in seen:
            yield f"{name}: there is no such page"
        elif seen[name] > MOST[name]:
            yield f"{name}: {seen[name]} words, and at most {MOST[name]}"
    for page in sorted((TOP / "crates").glob("*/README.md")):
        if words(page) > MOST_OF_A_CRATE:
            yield f"{page.relative_to(TOP)}: {words(page)} words, and at most {MOST_OF_A_CRATE}"
    of_docs = sum(count for name, count in seen.items() if name.startswith("docs/"))
    if of_docs > MOST_OF_DOCS:
        yield f"docs/*.md: {of_docs} words, and at most {MOST_OF_DOCS}"


def texts(page: Path) -> Iterator[tuple[int, str]]:
    """The paragraphs and list items of a page, each with its first line's number."""
    began, text, last = 0, "", 0
    for number, line in prose(page):
        goes_on = bool(text) and number == last + 1 and not ITEM.match(line)
        last = number
        if line.strip() and not LEFT_OUT.match(line) and goes_on:
            text += " " + line.strip()
            continue
        if text:
            yield began, text
        is_text = bool(line.strip()) and not LEFT_OUT.match(line)
        began, text = number, ITEM.sub("", line.strip(), count=1) if is_text else ""
    if text:
        yield began, text


def sentences(text: str) -> Iterator[tuple[int, str]]:
    """The sentences of a text, each with its number of words."""
    plain = LINK.sub(lambda link: link[0].split("](")[0][1:], CODE.sub("Code", text))
    for sentence in END.split(plain):
        yield sum(any(map(str.isalnum, word)) for word in sentence.split()), sentence


def long_sentences() -> Iterator[str]:
    """The sentences that are too long, and the pages whose mean is."""
    for name, most in MOST_OF_A_SENTENCE.items():
        counts = []
        for number, text in texts(TOP / name):
            for count, sentence in sentences(text):
                counts.append(count)
                if count > most:
                    yield f"{name}:{number}: {count} words: {sentence}"
        if sum(counts) > MOST_IN_THE_MEAN * len(counts):
            yield f"{name}: {sum(counts) / len(counts):.1f} words a sentence in the mean"


def riddles() -> Iterator[str]:
    """The phrases of `RIDDLES` that occur in a text, with the text."""
    listed = subprocess.run(["git", "ls-files"], cwd=TOP, capture_output=True, text=True, check=True)
    for name in listed.stdout.splitlines():
        if name.startswith("crates/") or not name.endswith(TEXTS) or name == "tests/house/pages.py":
            continue
        text = " ".join((TOP / name).read_text("utf-8", errors="replace").split())
        yield from (f"{name}: {phrase!r}" for phrase in RIDDLES if phrase in text)


def main() -> int:
    wrong = [*too_long(), *long_sentences(), *riddles()]
    print(*wrong, sep="\n", end="\n" if wrong else "")
    print(f"pages: {len(MOST)} have a number of words, {len(wrong)} texts are wrong")
    return 1 if wrong else 0


if __name__ == "__main__":
    sys.exit(main())
