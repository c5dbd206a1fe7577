#!/usr/bin/env python3
"""Asks ctfd for a dictionary's types, with the package in clients/python.

Prints the types (number, name in C, size in bytes), or the members of the struct or union with a
name, such as "struct lua_State" or a typedef's (offset in bits, size in bytes, type, name, and for
a bit-field its width). If a type has no size, the name of the refusal is printed instead. With the
program's symbol table, a name is that of a function or an object, and its C declaration is printed.
The status is 1 if ctfd refuses something, or if the name is that of another type.
"""
import argparse
import signal
import sys
from pathlib import Path

sys.path.insert(0, str(Path(__file__).resolve().parents[1] / "clients" / "python"))

import ctfd  # noqa: E402
from ctfd.text import printable  # noqa: E402


def size(t):
    """The size of a type in bytes, or the name of the refusal."""
    try:
        return t.dictionary.answer("size", t.number)["size"]
    except ctfd.Refused as fault:
        return fault.name


def spelled(t):
    """A type as C writes it, or the name of the refusal."""
    try:
        return printable(t.spelled)
    except ctfd.Refused as fault:
        return fault.name


def print_types(types):
    own = types.types()
    types.fetch((word, t.number) for t in own for word in ("name", "size"))  # all in one round trip
    for t in own:
        print(t.number, spelled(t), size(t))


def print_members(types, name):
    for member in types.find(name).gather().resolved.members:
        lies = member.type.bit_field
        offset = member.offset + (lies.offset if lies else 0)
        width = [f":{lies.bits}"] if lies else []
        named = printable(member.name) or "(anon)"
        print(offset, size(member.type), spelled(member.type), named, *width)


def print_symbol(types, name):
    said = types.symbol(name)
    if isinstance(said, ctfd.Type):
        return print(f"{spelled(said)} {name}")
    takes = [spelled(t) for t in said.arguments] + (["..."] if said.varargs else [])
    print(f"{spelled(said.returns)} {name}({', '.join(takes) or 'void'})")


def main():
    parser = argparse.ArgumentParser(
        description=__doc__, formatter_class=argparse.RawDescriptionHelpFormatter)
    parser.add_argument("program", help="a built ctfd")
    parser.add_argument("ctf", help="a file with the bytes of a CTF section, or a program with one")
    parser.add_argument("name", nargs="?", help="a struct or a union, as C names it, or a symbol")
    parser.add_argument("--symbols", metavar="FILE", help="the program's symbol table")
    parser.add_argument("--strings", metavar="FILE", help="the strings of that table")
    words = parser.parse_args()
    signal.signal(signal.SIGPIPE, signal.SIG_DFL)  # so that a reader such as head may leave
    symbols, strings = (path and Path(path).read_bytes() for path in (words.symbols, words.strings))
    try:
        with ctfd.Client(words.program) as client:
            types = ctfd.open_file(client.session(), words.ctf, symbols, strings)
            if not words.name:
                print_types(types)
            elif words.symbols:
                print_symbol(types, words.name)
            else:
                print_members(types, words.name)
    except ctfd.Error as error:
        return f"refused: {printable(str(error))}"


if __name__ == "__main__":
    sys.exit(main())
