#!/usr/bin/env python3
"""Checks the links in all Markdown of this repository: each file and each anchor must exist.

usage: tests/house/links.py

Links with a scheme, such as https:, are skipped. Prints each broken link, and counts; the status is
1 if one is broken.
"""
from __future__ import annotations

import re
import sys
from functools import cache
from pathlib import Path
from typing import Iterator
from urllib.parse import unquote

TOP = Path(__file__).resolve().parents[2]
FENCE = re.compile(r"^\s*(```|~~~)")
CODE = re.compile(r"(`+)(?:(?!\1).)*\1")
HEADING = re.compile(r"^#{1,6}\s+(.*?)\s*#*\s*$")
LINK = re.compile(r"\[(?:[^\][]|\[[^\][]*\])*\]\(\s*<?([^)\s>]*)>?(?:\s+\"[^\"]*\")?\s*\)")
PASSED_OVER = {"out", ".git"}
SCHEME = re.compile(r"[a-z][a-z0-9+.-]*:")


def prose(page: Path) -> Iterator[tuple[int, str]]:
    """The numbered lines of a page outside blocks of code."""
    is_code = False
    for number, line in enumerate(page.read_text(encoding="utf-8").splitlines(), 1):
        if FENCE.match(line):
            is_code = not is_code
        elif not is_code:
            yield number, line


@cache
def anchors(page: Path) -> frozenset[str]:
    """The anchors of a page: its headings, as the usual viewers turn them into anchors."""
    found: dict[str, int] = {}
    for _, line in prose(page):
        if heading := HEADING.match(line):
            text = LINK.sub(lambda link: link[0].split("](")[0][1:], heading[1]).replace("`", "")
            name = re.sub(r"[^\w\- ]", "", text.lower()).replace(" ", "-")
            again = found.get(name, 0)
            found[name] = again + 1
            if again:
                found[f"{name}-{again}"] = 1
    return frozenset(found)


def wrong(page: Path, target: str) -> str:
    """The reason why a link in a page is broken, or ""."""
    path, _, anchor = unquote(target).partition("#")
    file = (page.parent / path).resolve() if path else page
    if not file.exists():
        return "no such file"
    if not file.is_relative_to(TOP):
        return "outside of the repository"
    if anchor and (file.suffix != ".md" or anchor not in anchors(file)):
        return "no such heading"
    return ""


def main() -> int:
    """Checks all links of all pages, except in build output."""
    pages = sorted(page for page in TOP.rglob("*.md")
                   if not PASSED_OVER & {*page.relative_to(TOP).parts})
    links = dead = 0
    for page in pages:
        for number, line in prose(page):
            for target in LINK.findall(CODE.sub("", line)):
                if SCHEME.match(target):
                    continue
                links += 1
                if why := wrong(page, target):
                    dead += 1
                    print(f"{page.relative_to(TOP)}:{number}: {target}: {why}")
    print(f"links: {links} in {len(pages)} pages, {dead} lead nowhere")
    return 1 if dead or not links else 0


if __name__ == "__main__":
    sys.exit(main())
