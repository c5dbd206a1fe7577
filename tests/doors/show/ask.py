"""Writes gdb's values of a program's variables and of their parts.

usage: OUT=FILE gdb -batch -nx -p PID -x ask.py PROGRAM

OUT gets pairs of an expression and gdb's answer, as JSON: each global or static variable with a
unique name, its address, what it points to, the first members of a struct and of what it points to,
and an element of an array.
"""
import json
import os
import re
from pathlib import Path

import gdb

MEMBERS, MOST = 4, 4000
VARIABLE = re.compile(r"^\d+:.*?\(\*+(?:const )?(\w+)(?:\[\d*\])*\)|"
                      r"^\d+:.*?(\w+)(?:\[\d*\])*;$", re.M)
RECORDS = (gdb.TYPE_CODE_STRUCT, gdb.TYPE_CODE_UNION)


def parts(expression, dot):
    """Expressions for the first members of an expression, with this operator."""
    found = gdb.parse_and_eval(f"*({expression})" if dot == "->" else expression)
    named = [one.name for one in found.type.strip_typedefs().fields() if one.name]
    return [f"{expression}{dot}{name}" for name in named[:MEMBERS]]


def inside(name):
    """The other expressions for a variable."""
    made = [f"&{name}"]
    t = gdb.parse_and_eval(name).type.strip_typedefs()
    if t.code in RECORDS:
        made += parts(name, ".")
    elif t.code == gdb.TYPE_CODE_ARRAY:
        made.append(f"{name}[1]")
    elif t.code == gdb.TYPE_CODE_PTR:
        made.append(f"*{name}")
        if t.target().strip_typedefs().code in RECORDS and int(gdb.parse_and_eval(name)):
            made += parts(name, "->")
    return made


for setting in ("pagination off", "width 0", "max-value-size unlimited"):
    gdb.execute(f"set {setting}")
text = gdb.execute("info variables", to_string=True).partition("\nNon-debugging symbols:")[0]
listed = [one or other for one, other in VARIABLE.findall(text)]
answers = []
for name in sorted(one for one in set(listed) if listed.count(one) == 1):
    try:
        asked = [name, *inside(name)]
    except gdb.error:
        asked = [name]
    for expression in asked[:MOST - len(answers)]:
        try:
            said = gdb.execute(f"output {expression}", to_string=True)
        except gdb.error as error:
            said = f"refused: {error}"
        answers.append((expression, said))
Path(os.environ["OUT"]).write_text(json.dumps(answers, indent=1))
