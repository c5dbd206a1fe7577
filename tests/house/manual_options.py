#!/usr/bin/env python3
"""Compares the options of the compiled commands with those of their manual pages.

usage: tests/house/manual_options.py FOLDER

FOLDER has the commands. Each option that --help lists must be an item of the page, each item of the
page must be an option that the command accepts, and both must agree on whether it takes a value.
Completions ask the commands, so they always match --help. Prints each difference; the status is 1
if there is one.
"""
from __future__ import annotations

import re
import subprocess
import sys
from pathlib import Path

PAGES = Path(__file__).resolve().parents[2] / "docs" / "man"
COMMANDS = ("ctfd-convert", "ctfd-debuginfo", "ctfd-diff", "ctfd-explore", "ctfd-front", "ctfd-show",
            "ctfd-store", "ctfd-types")
# The first words of a command that has different options for each.
ACTIONS = {"ctfd-store": ("add", "check", "fetch", "list", "missing", "remove", "stats")}
# In a help text: an option, and whether a value follows it. In a page: an item that begins with
# one.
HELPED = re.compile(r"^ +(?:-\w, )?--([a-z][\w-]*)( <)?", re.MULTILINE)
PAGED = re.compile(r"Fl -([a-z][\w-]*)( (?:Op )?Ar)?")
ITEM = re.compile(r"^\.It Fl .*$", re.MULTILINE)
OF_CLAP = {"help"}
UNKNOWN = "no option"


def options_in(pattern: re.Pattern[str], text: str) -> dict[str, bool]:
    """The options in a text, and whether each takes a value."""
    return {name: bool(value) for name, value in pattern.findall(text) if name not in OF_CLAP}


def is_taken(command: Path, name: str, has_value: bool) -> bool:
    """Whether a command accepts an option, which its help may omit."""
    word = f"--{name}=0" if has_value else f"--{name}"
    for value in ([word], [f"--{name}", "0"]):
        done = subprocess.run([command, *value, "--help"], capture_output=True, text=True, check=False)
        if done.returncode == 0 or UNKNOWN not in done.stderr:
            return True
    return False


def differences(command: Path) -> list[str]:
    """The differences between a command's page and its help."""
    helps = [subprocess.run([command, *words, "--help"], capture_output=True, text=True, check=True)
             for words in ((), *((action,) for action in ACTIONS.get(command.name, ())))]
    helped = options_in(HELPED, "\n".join(done.stdout for done in helps))
    items = ITEM.findall((PAGES / f"{command.name}.1").read_text("utf-8"))
    paged = options_in(PAGED, "\n".join(items))
    found = [f"the page lacks --{name}" for name in helped if name not in paged]
    found += [f"--{name} has a value {'in the help' if value else 'on the page'} alone"
              for name, value in helped.items() if paged.get(name, value) != value]
    found += [f"the page has --{name}, which it does not take" for name, value in paged.items()
              if name not in helped and not is_taken(command, name, value)]
    return [f"{command.name}: {line}" for line in found]


def main() -> int:
    if len(sys.argv) != 2:
        print(__doc__, file=sys.stderr)
        return 2
    found = [line for name in COMMANDS for line in differences(Path(sys.argv[1], name))]
    print("\n".join(found) or f"the options of {len(COMMANDS)} manual pages are those of the commands")
    return int(bool(found))


if __name__ == "__main__":
    sys.exit(main())
