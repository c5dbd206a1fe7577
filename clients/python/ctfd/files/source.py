"""The lists of a dictionary, as they are opened: the inflated section, the symbol table and the
strings.

The compiled `ctfd-convert` reads the file (compiled.py), and converts what is not CTF of version 2.
"""
from __future__ import annotations

from typing import NamedTuple, Optional

from ..client.faults import Unreadable
from ..client.model import Model

# Warnings about the symbols of a file, by `Source.how`.
WARNINGS = {
    "guessed": "the section names no symbol table: if the types were not written for the file's"
               " .symtab, the types of symbols are wrong",
    "refused": "the types were not written for the file's symbol table: symbols are left out",
    "differs": "the file was linked, stripped or changed after its types were written, so they"
               " no longer fit its symbol table: symbols are left out, and ctfd-convert writes the"
               " types anew",
    "stripped": "the symbol table that the types were written for was stripped from the file:"
                " symbols are left out; ctfd-convert --symbols dynsym writes for the one that"
                " strip keeps",
    "unread": "the file's symbol table has 32 bits, which is not read: symbols are left out",
}
TYPES = "ctfd.types="


class Source(NamedTuple):
    """The lists of a dictionary, and the data model of its program.

    `how` says where `sym` and `strings` come from: "named", the table that a label names; "linked",
    the table that the section header names; "guessed", the file's .symtab, which may be another one
    than the types were written for; "given", from the caller; or "none". It is "differs" if the
    table is not the one that the label names, "stripped" if the file has none, and "unread" for a
    table of 32 bits: the service does not read it, and only the strings are given.

    `model` is None if it is unknown, as for a section by itself without a label for it. `label` is
    the name that a child made over this dictionary gives its parent.
    """

    ctf: bytes
    sym: Optional[bytes] = None
    strings: Optional[bytes] = None
    how: str = "none"
    model: Optional[Model] = None
    label: Optional[str] = None


def read(path: str, number: Optional[int] = None) -> Source:
    """The CTF section, symbol table and strings of a dictionary in a file.

    `number` chooses one of several dictionaries in the file. Raises Unreadable.
    """
    from .anyfile import FileOptions, read as read_file  # here: that module imports this

    return read_file(path, FileOptions(number=number)).sources[0]


def judge_parent(label: str, of: Source) -> None:
    """Raises Unreadable if a dictionary is not the parent that a child's label names."""
    from . import compiled  # imported here: that module imports this one

    if label.startswith(TYPES) and label != (of.label or compiled.label(of.ctf)):
        raise Unreadable("these are not the types with which the child was made: name the file that"
                         " was its parent then, or let ctfd-convert make the child again with this"
                         " one")
