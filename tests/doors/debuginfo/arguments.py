"""Writes gdb's values of the arguments of each function of a program at its first call.

usage: NAMES=FILE OUT=FILE gdb -batch -nx .. -x arguments.py PROGRAM, which stands in main

NAMES is the file that dump.py wrote. Each function gets a breakpoint at its first instruction,
where it stops once; OUT gets the values of its arguments in their order, as JSON. Ends with the
program, or after MOST functions.
"""
import json
import os
from pathlib import Path

import gdb

MOST = 1500


def values():
    """The arguments of the function in the selected frame, as text."""
    frame = gdb.selected_frame()
    block = frame.block()
    while block.function is None:
        block = block.superblock
    return [frame.read_var(one, block).format_string(symbols=True, max_elements=20)
            for one in block if one.is_argument]


gdb.execute("set pagination off")
gdb.execute("set confirm off")
points = {}
for name in json.loads(Path(os.environ["NAMES"]).read_text())["functions"]:
    try:
        points[gdb.Breakpoint(f"*{name}", internal=True).number] = name
    except gdb.error:
        pass
found = {}


def on_stop(event):
    for one in getattr(event, "breakpoints", ()):
        name = points.get(one.number)
        if name:
            try:
                found[name] = values()
            except (gdb.error, RuntimeError) as error:
                found[name] = [f"error: {error}"]
            one.enabled = False


gdb.events.stop.connect(on_stop)
while len(found) < MOST and gdb.selected_inferior().pid:
    seen = len(found)
    try:
        gdb.execute("continue", to_string=True)
    except gdb.error:
        break
    if len(found) == seen:
        break
Path(os.environ["OUT"]).write_text(json.dumps(
    {"arguments": {"as a function begins": {
        f"{name} {number}": value for name, listed in found.items()
        for number, value in enumerate(listed) if "optimized out" not in value}}}, indent=1))
