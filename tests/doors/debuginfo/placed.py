#!/usr/bin/env python3
"""Prints gdb's options that place each section of an object file at a different address.

usage: placed.py FILE

As a kernel does with a module's sections, it places them one after the other, each on pages of its
own.
"""
from __future__ import annotations

import re
import subprocess
import sys

FIRST, PAGE = 0xffffffffc0a00000, 4096
SECTION = re.compile(r" *\[ *\d+\] (\S+) +[A-Z_]+ +\w+ \w+ (\w+) \w+ +[A-Zop]*A")


def main() -> None:
    headers = subprocess.run(["readelf", "-SW", sys.argv[1]], check=True, capture_output=True,
                             text=True).stdout
    place, text, words = FIRST, FIRST, []
    for name, size in SECTION.findall(headers):
        if name == ".text":
            text = place
        elif int(size, 16):
            words.append(f"-s {name} {place:#x}")
        place += (int(size, 16) + PAGE - 1) // PAGE * PAGE
    print(f"{text:#x}", *words)


if __name__ == "__main__":
    main()
