#!/usr/bin/env python3
"""Prints the public functions whose contracts differ between two trees.

usage: contracts.py BEFORE AFTER

BEFORE and AFTER are top folders of the repository, for example from `git worktree add` or `git
archive`. A line that begins with - or + is a function of one of them, with its signature and its
clauses. White space, comments and the crate of a function do not count. Crates with tests are
skipped.
"""
import pathlib
import re
import sys

PASSED_OVER = re.compile(r"(_rows|ctf_runs|ctf_transcripts|ctfd|test_format|test_service)$")
BLOCK = re.compile(r"^(?:pub )?(?:impl|trait)\b(.*)\{\s*$")
FUNCTION = re.compile(r"^(\s*)(pub )?fn (\w+)")


def heads(lines):
    """Each function that others can call: its owner, its name, and its text up to the body."""
    owner = ""
    for number, line in enumerate(lines):
        if block := BLOCK.match(line):
            owner = re.sub(r"<.*?>", "", block.group(1)).strip()
        elif line == "}":
            owner = ""
        elif function := FUNCTION.match(line):
            indent, public, name = function.groups()
            in_trait = indent and (" for " in owner or line.rstrip().endswith(";"))
            if public or in_trait:
                yield owner, name, head(lines, number, indent)


def head(lines, number, indent):
    """The lines of a function's head, joined into one."""
    taken = []
    for line in lines[number:]:
        line = re.sub(r"//.*", "", line).rstrip()
        if line in (indent + "{", indent + "{}"):
            break
        taken.append(line)
        if line.startswith(indent) and (line.endswith(";") or re.search(r"(\)|>|\w) \{$", line)):
            break
    text = re.sub(r"\s+", " ", " ".join(taken)).strip()
    return re.sub(r"\{$", "", re.sub(r", \)", ")", re.sub(r"\( ", "(", text))).strip()


def contracts(top):
    """All contracts of a tree."""
    found = set()
    for crate in sorted(pathlib.Path(top, "crates").iterdir()):
        if not PASSED_OVER.search(crate.name):
            for path in sorted((crate / "src").rglob("*.rt")):
                found.update(heads(path.read_text().split("\n")))
    return found


def main():
    if len(sys.argv) != 3:
        sys.exit(__doc__)
    before, after = (contracts(top) for top in sys.argv[1:])
    print(f"{len(before)} before, {len(after)} after, {len(before & after)} the same")
    for owner, name, text in sorted(before ^ after):
        print("-" if (owner, name, text) in before else "+",
              f"{owner}::{name}:" if owner else f"{name}:", text)


if __name__ == "__main__":
    main()
