"""Writes gdb's answers about a program's types, variables and functions.

usage: NAMES=FILE OUT=FILE [FOUND=FILE] gdb -batch -nx .. -x dump.py PROGRAM

NAMES is a file of names from an earlier run. If it does not exist, gdb's `info types`, `info
variables` and `info functions` list the names, which are written to it. OUT gets an answer for each
question about each name, as JSON.
"""
import json
import os
import re
from pathlib import Path

import gdb

TAGGED = re.compile(r"((?:struct|union|enum) \w+)")
TYPEDEF = re.compile(r"typedef .*?(\w+);$")
VARIABLE = re.compile(r"\(\*+(?:const )?(\w+)(?:\[\d*\])*\)|(\w+)(?:\[\d*\])*;$")
FUNCTION = re.compile(r"(\w+)\(")
QUESTIONS = {
    "tags": ("ptype/o {}", "output sizeof({})"),
    "typedefs": ("whatis {}", "ptype/o {}", "output sizeof({})"),
    "variables": ("whatis {}", "output {}", "output &{}"),
    "functions": ("whatis {}", "output {}"),
}


def answer(question):
    try:
        return gdb.execute(question, to_string=True)
    except gdb.error as error:
        return f"error: {error}"


def lines_of(question):
    """The lines of an `info` command below a file's name, without line numbers."""
    text = answer(question).partition("\nNon-debugging symbols:")[0]
    lines = (re.sub(r"^\d+:", "", line) for line in text.splitlines())
    return [line.strip() for line in lines if line[:1] in ("\t", " ") and line.strip()]


def listed_names():
    """The names that gdb lists, by kind."""
    types = lines_of("info types")
    names = {
        "tags": [TAGGED.match(line) for line in types],
        "typedefs": [TYPEDEF.match(line) for line in types],
        "variables": [VARIABLE.search(line) for line in lines_of("info variables")],
        "functions": [FUNCTION.search(line) for line in lines_of("info functions")],
    }
    return {kind: sorted({next(filter(None, one.groups())) for one in matches if one})
            for kind, matches in names.items()}


for setting in ("pagination off", "width 0", "confirm off", "print symbol on",
                "max-completions unlimited", "max-value-size unlimited"):
    gdb.execute(f"set {setting}")
place = Path(os.environ["NAMES"])
if not place.exists():
    place.write_text(json.dumps(listed_names()))
names = json.loads(place.read_text())
answers = {kind: {asked: {name: answer(asked.format(name)) for name in names[kind]}
                  for asked in QUESTIONS[kind]} for kind in QUESTIONS}
Path(os.environ["OUT"]).write_text(json.dumps(answers, indent=1))
