#!/usr/bin/env python3
"""Writes a dictionary of COUNT types of a program that has more, for bench/c_library.py.

usage: bench/fewer_types.py COUNT IN OUT

IN is a file for ctfd-convert, such as /sys/kernel/btf/vmlinux. Types are taken in their order, each
with all that it reaches, as long as there is room. Prints the number of types in OUT; the status is
1 if it is not COUNT. Needs ctfd (CTFD in the environment, or on the PATH) and the compiled
commands.
"""
from __future__ import annotations

import sys
from pathlib import Path

TOP = Path(__file__).resolve().parents[1]
sys.path.insert(0, str(TOP / "clients" / "python"))
import ctfd  # noqa: E402
from ctfd.layout.records import Table  # noqa: E402
from tests.whole.from_ctf import table_of  # noqa: E402
from tests.whole.written import section_of  # noqa: E402


def chosen(table: Table, count: int) -> list[int]:
    """The numbers of at most `count` types, with all that these reach."""
    found: set[int] = set()
    for number in table.numbers():
        own, todo = set(), [number]
        while todo:
            here = todo.pop()
            if here and here not in found and here not in own:
                own.add(here)
                todo += table[here].references
        if len(found) + len(own) <= count:
            found |= own
    return sorted(found)


def main() -> int:
    if len(sys.argv) != 4:
        print(__doc__, file=sys.stderr)
        return 2
    count, program, out = sys.argv[1:]
    table = table_of(ctfd.read(program).ctf)
    table.objects, table.functions, table.labels = [], [], []
    Path(out).write_bytes(section_of(table.subset(chosen(table, int(count)))))
    with ctfd.connect() as client:
        types = client.session().open(Path(out).read_bytes())["types"]
    print(f"{types} types, {Path(out).stat().st_size / 1e6:.3f} MB")
    return int(types != int(count))


if __name__ == "__main__":
    sys.exit(main())
