"""Asks the plug-in about each expression on a program without debug information, then gdb itself.

usage: BUILD=WORDS TWIN=FILE EXPRESSIONS=FILE KNOWN=FUNCTION=ADDRESS [POINTED=FILE] \
    gdb -batch -nx -x compare.py PROGRAM

The program is stopped. TWIN is the same program with debug information, which is loaded only after
the plug-in has answered everything. A line of EXPRESSIONS is a command, `print`, `print/x` or
`whatis`, and an expression; after ` | ` there may be another question for gdb. If names have no
types, POINTED lists those to which the program's object `every` has a pointer each, and the plug-in
is asked about what these point to. Everything is asked with several of gdb's print settings. Prints
the differences, and, after BUILD, the number of equal answers and values; the status is 1 if there
is a difference.
"""
import os
import pathlib
import re

import gdb

USUAL = {"elements": 200, "repeats": 10, "max-depth": 20, "symbol": "on"}
SETTINGS = ({}, {"elements": 4, "repeats": 2}, {"max-depth": 1, "symbol": "off"},
            {"max-depth": 2}, {"max-depth": 0},
            {"elements": "unlimited", "repeats": "unlimited", "max-depth": "unlimited"})


def answer(command):
    """gdb's output for a command, without the number in its value history."""
    try:
        told = gdb.execute(command, to_string=True).strip()
    except gdb.error as error:
        return f"error: {error}"
    return without_blanks(re.sub(r"^\$\d+ = ", "", told))


def without_blanks(told):
    """An answer without the blanks that gdb puts beside the qualifiers of pointers."""
    return re.sub(r"\b(const|volatile)\[", r"\1 [", re.sub(r"\* (const|volatile)", r"*\1", told))


def questions():
    """Each line as a question for the plug-in and one for gdb."""
    names = lines_of("POINTED") if "POINTED" in os.environ else []
    for line in lines_of("EXPRESSIONS"):
        if line and not line.startswith("#"):
            asked, _, other = line.partition(" | ")
            command, _, expression = asked.partition(" ")
            yield (f"{command} {with_pointers(expression, names)}",
                   f"{command} {other or expression}")


def lines_of(variable):
    """The lines of the file that an environment variable names."""
    return pathlib.Path(os.environ[variable]).read_text().splitlines()


def with_pointers(expression, names):
    """An expression in which some names are replaced by what the pointers of `every` point to."""
    if not names:
        return expression
    name = rf"(?<![\w.>$])(?<!struct )(?<!union )(?<!enum )({'|'.join(names)})\b"
    return re.sub(name, r"(*((struct every *) &every)->\1)", expression)


def slide():
    """The offset of the running program from the addresses in its file, by the function KNOWN."""
    name, address = os.environ["KNOWN"].split("=")
    return int(gdb.parse_and_eval(f"(unsigned long) &{name}")) - int(address, 16)


def answers(commands):
    """The answers to the commands, with each of the settings."""
    told = []
    for settings in SETTINGS:
        for name, value in settings.items():
            gdb.execute(f"set print {name} {value}")
        told += [answer(command) for command in commands]
        for name in settings:
            gdb.execute(f"set print {name} {USUAL[name]}")
    return told


def main():
    lines = list(questions())
    by_ctf = answers([f"ctf {asked}" for asked, _ in lines])
    gdb.execute(f"add-symbol-file {os.environ['TWIN']} -o {slide()}", to_string=True)
    by_gdb = answers([other for _, other in lines])
    same = [told for told, known in zip(by_ctf, by_gdb) if told == known]
    for number, (told, known) in enumerate(zip(by_ctf, by_gdb)):
        if told != known:
            asked, settings = lines[number % len(lines)][0], SETTINGS[number // len(lines)]
            print(f"{asked} {settings or ''}\n  ctf {told}\n  gdb {known}")
    leaves = sum(told.count(",") + 1 for told in same)
    print(f"{os.environ['BUILD']}: {len(same)} of {len(by_ctf)} the same, {leaves} values in them")
    gdb.execute("set confirm off")
    gdb.execute(f"quit {0 if len(same) == len(by_ctf) else 1}")


main()
