"""Types in front of values, spelled as gdb 13 spells them.

gdb has one spelling for each of C's integers, whatever the compiler wrote, and puts blanks on both
sides of a pointer's qualifiers.
"""
from __future__ import annotations

import re
from typing import Dict

from ..client.types import Type
from ..view.declare import declaration

INTEGERS: Dict[str, str] = {
    "short int": "short", "short unsigned int": "unsigned short",
    "long int": "long", "long unsigned int": "unsigned long",
    "long long int": "long long", "long long unsigned int": "unsigned long long",
}
_INTEGER = re.compile(r"\b(?:" + "|".join(sorted(INTEGERS, key=len, reverse=True)) + r")\b")
_QUALIFIER = re.compile(r"\*(?=(?:const|volatile|restrict)\b)")
_ATOMIC = re.compile(r"\b_Atomic\(([\w ]+)\)")


def gdb_spelling(text: str) -> str:
    """The declaration of a type, in gdb's spelling."""
    text = _INTEGER.sub(lambda found: INTEGERS[found[0]], text)
    return _ATOMIC.sub(r"_Atomic \1", _QUALIFIER.sub("* ", text))


def of_type(t: Type) -> str:
    """A type in gdb's spelling."""
    return gdb_spelling(declaration(t))
