"""The exceptions of the package, with the request that failed and advice on what to do."""
from __future__ import annotations

from typing import Any, Dict, Mapping, Type


class Error(Exception):
    """The base class of all exceptions of this package."""


class Gone(Error):
    """The service has ended, or did not answer in time; its client cannot be used any more."""


class Unreadable(Error):
    """A file or its symbol table cannot be read; the text says what it is."""


class Refused(Error):
    """The service answered with a fault.

    `code`, `name` and `place` are those of the fault, `op` and `fields` those of the request. For a
    refused dictionary, `place` is the number of a record or a byte offset; the rule says which.
    """

    def __init__(self, fault: Mapping[str, Any], op: str, fields: Mapping[str, Any]) -> None:
        self.code: int = fault["code"]
        self.name: str = fault["name"]
        self.place: int = fault["place"]
        self.op = op
        self.fields = dict(fields)
        super().__init__(self._text())

    @property
    def advice(self) -> str:
        """What to do about it, or "" for an unknown fault."""
        return ADVICE.get(self.name, "")

    def _text(self) -> str:
        place = f" at {self.place}" if self.place else ""
        fields = [f"{key} {_shorten(value)}" for key, value in self.fields.items()]
        asked = ", ".join([self.op, *fields])
        return f"{self.name}{place} ({asked})" + (f": {self.advice}" if self.advice else "")


class BadDictionary(Refused):
    """The dictionary breaks a rule of the format."""


class BadSymbols(BadDictionary):
    """The dictionary does not fit its symbol table; it may be opened without the table."""


class NotFound(Refused):
    """No type or symbol has the name, or the dictionary has no type for the symbol."""


class NoSuchType(Error, KeyError):
    """No type or member has the name; the text suggests similar names."""

    def __str__(self) -> str:
        return str(self.args[0]) if self.args else ""


class Incomplete(Refused):
    """The type has no size."""


class NoParent(Refused):
    """The type belongs to a parent that was not imported."""


class NoMemory(Refused):
    """The service ran out of memory; another attempt may succeed."""


def exception_for(fault: Mapping[str, Any], op: str, fields: Mapping[str, Any]) -> Refused:
    """The exception for a fault."""
    code = fault["code"]
    if 1 <= code <= 16:
        return BadDictionary(fault, op, fields)
    return _BY_CODE.get(code, Refused)(fault, op, fields)


def _shorten(value: Any) -> str:
    text = str(value)
    return text if len(text) < 60 else text[:57] + "..."


_BY_CODE: Dict[int, Type[Refused]] = {
    0: NoMemory,
    17: BadSymbols,
    18: BadSymbols,
    19: BadSymbols,
    23: NoParent,
    26: Incomplete,
    32: NotFound,
    34: NotFound,
    37: NotFound,
    38: NotFound,
}

ADVICE: Dict[str, str] = {
    "Memory": "ask again, close what is not needed, or start the service with a higher limit",
    "TooShort": "is the file empty?",
    "BadMagic":
        "not the start of a CTF section: f2df is GNU's CTF, 7f454c46 a whole ELF file, cff1 "
        "big-endian CTF, and none of these is read",
    "BadVersion": "only version 2 is read: convert the program's DWARF by a tool that writes it",
    "Compressed": "inflate what follows the header and clear bit 0 of byte 3, as ctfd-convert does",
    "ShortHeader": "the header has 36 bytes: the file is cut off",
    "BadOrder": "the header is damaged, or the body is compressed and its flag was cleared",
    "BadAlign": "the header is damaged, or the body is compressed and its flag was cleared",
    "PastEnd": "the list is cut off, or the body is compressed and its flag was cleared",
    "BadStrings": "the header is damaged, or the body is compressed and its flag was cleared",
    "Truncated": "the bytes at that record are no type: damage, or an extension of the format",
    "BadKind": "the bytes at that record are no type: damage, or an extension of the format",
    "TooMany": "more types than the format has numbers: split it into a parent and a child",
    "BadName":
        "a name is in no string table: hand in the strings of the program's symbol table, .strtab "
        "of the very file that has the section",
    "BadReference": "a record names a type that is not there: damage, or a child without parname",
    "ValueDeep": "a value holds itself, or 512 others in each other: no C program has that",
    "DeclDeep": "a declaration goes on for more than 512 steps: no C program has that",
    "BadFuncs": "is this the symbol table that the section was written for? Else leave it out",
    "BadSymbolType": "is this the symbol table that the section was written for? Else leave it out",
    "BadSymtab":
        "a symbol table has 24 bytes for each symbol: this is another file, is cut off, or has 32 "
        "bits, which is not supported",
    "NotChild": "the dictionary names no parent and needs none: were the two swapped?",
    "ParentIsChild": "a parent has no parent itself: is this the file that the child names?",
    "ParentShort": "the child names more types than this parent has: it is not its parent",
    "NoParent": "open the parent's file too and import it",
    "NoType": "no type has this number",
    "NotReference": "only pointers, typedefs and qualifiers refer to another type",
    "Incomplete": "the type has no size: a forward is declared in full elsewhere, if at all",
    "TooBig": "the number does not fit 64 bits: no program has such a type",
    "NoMember": "the struct has no member of this name; the place is the step",
    "NotAggregate": "only structs and unions have members; the place is the step",
    "WrongKind": "the question is not one for a type of this kind",
    "TooLong": "more than 65,536 bytes of text: ask for its parts",
    "NotFound": "is the word in front right (struct, union, enum or none)?",
    "BadSyntax": "a name with one blank behind struct, union or enum, and stars behind it",
    "NoSymbol": "no such symbol: were the symbol table and its strings handed in?",
    "NotData": "the symbol is not an object",
    "NotFunction": "the symbol is not a function",
    "NoInfo": "the compiler recorded no type for this symbol",
    "NoLabel": "no label has this name",
    "BadRef": "add that type first; 0 means no type",
    "Full": "make a second dictionary, with this one as its parent",
    "Duplicate": "a member, an enumerator or a label has its name once",
    "Settled": "members and enumerators are added before the update",
    "VlenFull": "the format has room for 1,023 members, enumerators or arguments",
    "DeepMember": "a struct can't contain itself: did you mean a pointer to it?",
    "BadOffset":
        "64 bits do not hold the member's place or the new size, or a member begins behind a stated"
        " size",
    "NameHasZero": "a name ends at its first zero byte",
    "DictTooBig": "make a second dictionary, with this one as its parent",
    "ShortMemory": "pass as many bytes as the type's size",
    "NoSlot": "the dictionary was closed, or was opened in another session",
    "SlotsFull": "a session has 1023 slots: close a dictionary that is not needed",
    "StageFull": "a list may have at most 67,108,864 bytes",
    "ReadOnly": "the slot has no draft: a dictionary that was opened or taken is read-only",
    "NameTaken": "the session has a publication of this name: choose another, or withdraw that",
    "NotPublished": "that session has published nothing by this name, or has withdrawn it",
    "NotUpdated": "something is pending: update or discard first",
    "LongReply": "ask for fewer items with count",
    "NotJson": "the request is not JSON",
    "BadRequest": "the service does not know this word, or a field is missing or out of range",
    "LongLine": "a request has at most 1,048,576 bytes: hand in a list by several parts",
    "ModelDiffers":
        "child and parent are of programs whose pointers differ in size: open both with the data "
        "model of the one that they belong to",
    "QuotaFull": "a session holds 268,435,456 bytes at most: close, clear or withdraw something",
    "FixedParent": "a draft's parent is chosen when the draft is created",
    "ConnectionsFull": "there are too many connections to ctfd-front, of this user or of all: close"
    " one, or raise --connections and --user-connections",
    "SessionsFull": "this user has made too many sessions within the hour: use one for longer, or"
    " raise --user-sessions",
    "HeldFull": "ctfd-front holds too much for this user or for all: read replies while writing,"
    " or raise --memory and --user-memory",
}

# The faults that a front reports before it closes a connection.
FRONT_REFUSES = ("ConnectionsFull", "SessionsFull", "HeldFull")
