#!/usr/bin/env python3
"""Writes each list of faults from docs/faults.toml.

usage: scripts/faults.py [--check]

A fault has a number, a name, a sentence that says what is wrong, and advice. C's header, the layer
for libctf's callers, the Rust crate, the Python client, a page and a manual page each have a list
of them, which this script writes between fixed lines. With --check it writes nothing and prints
each list that differs; the status is then 1. In both cases, the numbers and names must be those of
the program's source and of the definitions.
"""
from __future__ import annotations

import re
import sys
import textwrap
import tomllib
from dataclasses import dataclass
from pathlib import Path
from typing import Callable, Iterable

TOP = Path(__file__).resolve().parents[1]
# The faults 1 to this one are rules of dictionaries.
LAST_RULE = 19


@dataclass(frozen=True)
class Fault:
    """A row of docs/faults.toml."""

    code: int
    name: str
    sentence: str
    advice: str
    columns: list[str]

    @property
    def constant(self) -> str:
        """The name as a constant: BAD_MAGIC for BadMagic."""
        return re.sub(r"(?<=[a-z])(?=[A-Z])", "_", self.name).upper()


@dataclass(frozen=True)
class Place:
    """A list in a file: the text before and after it ("": the end of the file), and the function
    that writes it for some faults."""

    path: str
    before: str
    behind: str
    text: Callable[[list[Fault]], str]
    chosen: Callable[[Fault], bool] = lambda fault: True

    def content_with(self, content: str, faults: Iterable[Fault]) -> str:
        """The file's content with the list as it should be."""
        front, rest = content.split(self.before, 1)
        end = rest.index(self.behind) if self.behind else len(rest)
        own = self.text([fault for fault in faults if self.chosen(fault)])
        return front + self.before + own + rest[end:]


def read(path: str) -> str:
    return (TOP / path).read_text(encoding="utf-8")


def all_faults() -> list[Fault]:
    faults = [Fault(**row) for row in tomllib.loads(read("docs/faults.toml"))["fault"]]
    source = read("crates/ctf_model/src/faults.rt")
    code = {int(number): name
            for name, number in re.findall(r"pub const ([A-Z_]+): u16 = (\d+);", source)}
    named = dict(re.findall(r'Fault::([A-Z_]+) => "(\w+)"', source))
    defined = {int(number): name for number, name in re.findall(
        r'\((\d+), codes "(\w+)"\)', read("crates/ctf_model/specs/rules/FaultNames.antt"))}
    if [fault.code for fault in faults] != list(range(len(faults))):
        sys.exit("docs/faults.toml: faults are numbered from 0 on, in order")
    if {fault.code: fault.constant for fault in faults} != code:
        sys.exit("docs/faults.toml has other faults than crates/ctf_model/src/faults.rt")
    if any(named.get(fault.constant) != fault.name for fault in faults):
        sys.exit("docs/faults.toml has other names than crates/ctf_model/src/faults.rt")
    if {fault.code: fault.name for fault in faults} != defined:
        sys.exit("docs/faults.toml has other faults than specs/rules/FaultNames.antt")
    return faults


def quotation(text: str) -> str:
    return '"' + text.replace("\\", "\\\\").replace('"', '\\"') + '"'


def wrap(words: Iterable[str], indent: str, width: int) -> str:
    return textwrap.fill(" ".join(words), width, initial_indent=indent, subsequent_indent=indent,
                         break_long_words=False, break_on_hyphens=False)


# ---- the text of each list

def statuses(faults: list[Fault]) -> str:
    """The statuses of ctfd.h: each is 1 more than its fault's number."""
    rows = [f"    CTFD_{it.constant} = {it.code + 1}{',' if it.code + 1 < len(faults) else ''}"
            f" /* {it.sentence} */\n" for it in faults]
    return "\n    CTFD_OK = 0,\n" + "".join(rows)


def status_names(faults: list[Fault]) -> str:
    words = ['"Ok"', *(quotation(it.name) for it in faults)]
    return "\n" + wrap([", ".join(words)], 8 * " ", 100) + "\n    "


def messages(faults: list[Fault]) -> str:
    rows = [f"        {quotation(f'{it.name}: {it.sentence}')},\n" for it in faults]
    return '\n        "no error",\n' + "".join(rows) + "    "


def variants(faults: list[Fault]) -> str:
    rows = [f"    /// {it.sentence[:1].upper()}{it.sentence[1:]}.\n    {it.name} = {it.code},\n"
            for it in faults]
    return "\n" + "".join(rows)


def constants(faults: list[Fault]) -> str:
    return "\n" + "".join(f"    Fault::{it.name},\n" for it in faults)


def texts(faults: list[Fault]) -> str:
    rows = [f"    (\n        {quotation(it.sentence)},\n        {_rust(it.advice)},\n    ),\n"
            for it in faults]
    return "\n" + "".join(rows)


def _rust(text: str) -> str:
    """A string in lines of at most 100 characters, joined by backslashes."""
    lines = textwrap.wrap(text, 88, drop_whitespace=False, break_on_hyphens=False)
    if len(lines) == 1:
        return quotation(text)
    return quotation(" \n".join(line.strip() for line in lines)).replace(
        " \n", " \\\n" + 9 * " ")


def advices(faults: list[Fault]) -> str:
    return "\n" + "".join(f"    {_python(it)},\n" for it in faults)


def _python(fault: Fault) -> str:
    """A row of a dict, in lines of at most 100 characters."""
    begin = f"{quotation(fault.name)}: "
    lines = textwrap.wrap(fault.advice, 93 - len(begin), drop_whitespace=False,
                          break_on_hyphens=False)
    if len(lines) > 1:
        lines = textwrap.wrap(fault.advice, 90, drop_whitespace=False, break_on_hyphens=False)
        begin = f"{quotation(fault.name)}:\n        "
    return begin + "\n        ".join(quotation(line) for line in lines)


def rows(faults: list[Fault]) -> str:
    lines = [" | ".join([f"| {it.code}", it.name, *it.columns]) + " |" for it in faults]
    return "".join(re.sub(r"  +\|", " |", line) + "\n" for line in lines)


def numbered_lines(faults: list[Fault]) -> str:
    return "\n" + wrap([", ".join(f"{it.code}~{it.name}" for it in faults)], "", 80).replace(
        "~", " ") + ".\n"


def _in(*codes: int) -> Callable[[Fault], bool]:
    return lambda fault: fault.code in codes


def _is_rule(fault: Fault) -> bool:
    return 1 <= fault.code <= LAST_RULE


# The faults of drafts, which have their own table in FAULTS.md.
DRAFTS = (39, 40, 41, 42, 43, 44, 45, 46, 47, 52, 55, 62)
TABLE = "| code | name | when | what to do |\n|---|---|---|---|\n"
RULES = "| code | name | broken if | place |\n|---|---|---|---|\n"
PLACES = (
    Place("clients/c/ctfd.h", "enum ctfd_status {", "};", statuses),
    Place("clients/c/ctfd.h", "static const char *const names[] = {", "};", status_names),
    Place("clients/c/libctf/errors.c", "static const char *const messages[] = {", "};", messages),
    Place("clients/rust/ctfd/src/faults.rs", "pub enum Fault {", "}", variants),
    Place("clients/rust/ctfd/src/faults.rs", "const FAULTS: [Fault; 63] = [", "];", constants),
    Place("clients/rust/ctfd/src/faults.rs", "const TEXTS: [(&str, &str); 63] = [", "];", texts),
    Place("clients/python/ctfd/client/faults.py", "ADVICE: Dict[str, str] = {",
          '    "ConnectionsFull"', advices),
    Place("docs/FAULTS.md", f"## Memory\n\n{TABLE}", "\n## ", rows, _in(0)),
    Place("docs/FAULTS.md", RULES, "\nSymbols count", rows, _is_rule),
    Place("docs/FAULTS.md", f"## Requests\n\n{TABLE}", "\n## ", rows,
          lambda it: it.code > LAST_RULE and it.code not in DRAFTS),
    Place("docs/FAULTS.md", f"## Drafts\n\n{TABLE}", "", rows, _in(*DRAFTS)),
    Place("docs/man/ctfd-protocol.5", "Rules of a dictionary, tested in this order:",
          "The place is", numbered_lines, _is_rule),
    Place("docs/man/ctfd-protocol.5", "Others:", "The place of 22", numbered_lines,
          lambda it: not _is_rule(it)),
)


def main() -> None:
    faults = all_faults()
    is_check = sys.argv[1:] == ["--check"]
    if sys.argv[1:] and not is_check:
        sys.exit(str(__doc__).split("\n\n")[1])
    contents = {place.path: read(place.path) for place in PLACES}
    wrong = 0
    for place in PLACES:
        content = place.content_with(contents[place.path], faults)
        if content != contents[place.path]:
            wrong += 1
            print(f"{place.path}: the list behind `{place.before.splitlines()[0]}` is another one")
        contents[place.path] = content
    if is_check:
        print(f"{len(faults)} faults in {len(PLACES)} lists, {wrong} wrong"
              + (": scripts/faults.py writes them" if wrong else ""))
        sys.exit(1 if wrong else 0)
    for path, content in contents.items():
        (TOP / path).write_text(content, encoding="utf-8")


if __name__ == "__main__":
    main()
