"""An open dictionary: its types, names and symbols, with a cache of the answers."""
from __future__ import annotations

from typing import Any, Callable, Dict, Iterable, Iterator, List, Optional, Tuple, Union

from ..files import source
from ..files.source import Source
from .. import text
from . import aliases
from .faults import BadSymbols, NoSuchType, NotFound, Refused, Unreadable
from .model import Model, POINTER_SIZES
from .nearest import suggestion
from ..text import Name
from .types import PointerTo, QUALIFIERS, Signature, Type
from .session import Answer, Session
from .told import Told

OWN_OF_CHILD = 0x8000

# Spellings that C allows, with the names that compilers write to a dictionary.
WORDS = {
    "unsigned": "unsigned int", "signed": "int", "signed int": "int",
    "long": "long int", "signed long": "long int",
    "unsigned long": "long unsigned int", "unsigned long int": "long unsigned int",
    "long unsigned": "long unsigned int",
    "long long": "long long int", "unsigned long long": "long long unsigned int",
    "unsigned long long int": "long long unsigned int",
    "short": "short int", "unsigned short": "short unsigned int",
    "unsigned short int": "short unsigned int", "bool": "_Bool",
}


def open_file(session: Session, path: str, sym: Optional[bytes] = None,
              strings: Optional[bytes] = None, model: Optional[Model] = None,
              number: Optional[int] = None) -> Dictionary:
    """Opens the dictionary of a file, converting the file if needed (see `ctfd.files.source`).

    `sym`, `strings` and `model` replace the symbol table, strings and data model of the file.
    `number` chooses one of several dictionaries in the file. Raises Unreadable, also if the
    dictionary's labels name another model.
    """
    # imported here: a caller that has the lists does not need them
    from ..files.anyfile import FileOptions, read

    found = read(path, FileOptions(model=model, number=number)).sources[0]
    if sym is not None or strings is not None:
        beside = found.strings if strings is None else strings
        found = found._replace(sym=sym, strings=beside, how="given")
    return open_source(session, found)


def open_source(session: Session, found: Source) -> Dictionary:
    """Opens a dictionary that was read from a file. Raises BadDictionary and BadSymbols.

    If guessed symbols do not fit, it is opened without symbols, and `how` is "refused".
    """
    try:
        opened = session.open(found.ctf, found.sym, found.strings, found.model)
    except BadSymbols:
        if found.how != "guessed":
            raise
        opened = session.open(found.ctf, None, found.strings, found.model)
        found = found._replace(sym=None, how="refused")
    return Dictionary(session, opened["d"], found.how, found)


def taken(session: Session, owner: int, name: str) -> Dictionary:
    """The dictionary that another session published under `name`; owner 0 is the operator."""
    return Dictionary(session, session.ask("take", owner=owner, name=name)["d"])


def withdraw(session: Session, name: str) -> None:
    """Withdraws what the session published under `name`. Sessions that took it keep it."""
    session.ask("withdraw", name=name)


class Dictionary:
    """An open dictionary, in slot `slot` of a session.

    `how` says where the symbols come from (see `Source`), or is "refused" if guessed symbols did
    not fit. `handed_in` is the `Source` that it was opened from, or None. `model` is the data
    model, which gives the size of pointers. `len` gives the number of types, iteration yields them,
    and `d["struct x"]` finds one by name. Keep the parent of a child open: the child uses the
    parent's slot.
    """

    def __init__(self, session: Session, slot: int, how: str = "none",
                 handed_in: Optional[Source] = None) -> None:
        self.session = session
        self.slot = slot
        self.how = how
        self.handed_in = handed_in
        self.parent: Optional[Dictionary] = None
        self.ends: Optional[Callable[[], object]] = None
        self._told: Optional[Told] = None
        self._copies: Dict[int, bool] = {}
        info = session.ask("info", d=slot)
        self.is_child: bool = info["child"]
        self.own: int = info["types"]
        self.parent_name = text.name(info["parname"])
        self.parent_label = text.name(info["parlabel"])
        self.model: Model = session.ask("model", d=slot)["model"]

    def import_parent(self, parent: Dictionary) -> None:
        """Gives a child its parent, a dictionary of the same session. Raises Unreadable if the
        child's label names another parent."""
        if self.is_child and parent.handed_in:
            source.judge_parent(self.parent_label, parent.handed_in)
        self.session.ask("import", d=self.slot, parent=parent.slot)
        self.parent = parent
        self._told = None

    @property
    def pointer_size(self) -> int:
        """The size of a pointer in bytes."""
        return POINTER_SIZES[self.model]

    def address(self, number: int) -> int:
        """A number as an address: cut to the width of a pointer."""
        return number & (1 << 8 * self.pointer_size) - 1

    def publish(self, name: str) -> None:
        """Publishes the dictionary, without its parent, for all sessions to take."""
        self.session.ask("publish", d=self.slot, name=name)

    def close(self) -> None:
        """Closes the slot. For a dictionary of `ctfd.open`, closes its service too."""
        if self.ends is None:
            self.session.ask("close", d=self.slot)
        else:
            self.ends()

    def __enter__(self) -> Dictionary:
        return self

    def __exit__(self, *_: object) -> None:
        self.close()

    def __repr__(self) -> str:
        child = f", a child of {self.parent_name}" if self.is_child else ""
        return f"<Dictionary of {self.own} types, {self.model}{child}>"

    def __len__(self) -> int:
        return self.own

    def __bool__(self) -> bool:
        return True

    def __iter__(self) -> Iterator[Type]:
        return iter(self.types())

    def __getitem__(self, name: Union[Name, int]) -> Type:
        """The type with a name as C writes it, or with a number. Raises NoSuchType, a KeyError
        whose text suggests similar names."""
        if isinstance(name, int):
            if name not in self.numbers and not self._is_parents(name):
                raise NoSuchType(f"no type has the number {name}")
            return self.type(name).gather()
        try:
            return self.find(name).gather()
        except NotFound as fault:
            told = text.name(text.escape(name))
            raise NoSuchType(text.printable(
                f"no type is called {told}{suggestion(told, self.names())}")) from fault

    def __contains__(self, name: Name) -> bool:
        try:
            self.find(name)
        except Refused:
            return False
        return True

    @property
    def first(self) -> int:
        """The number of the first type."""
        return OWN_OF_CHILD + 1 if self.is_child else 1

    @property
    def numbers(self) -> range:
        """The numbers of the dictionary's own types."""
        return range(self.first, self.first + self.own)

    def _is_parents(self, number: int) -> bool:
        return self.parent is not None and 0 < number <= self.parent.own

    # Answers about types.

    @property
    def told(self) -> Told:
        """The answers on the types of this dictionary and its parent, by type number."""
        if self._told is None:
            self._told = self.session.told(self)
        return self._told

    def home(self, t: int) -> Dictionary:
        """The dictionary that has type `t`: this one or its parent."""
        return self.parent if self.parent is not None and 0 < t < OWN_OF_CHILD else self

    def fetch(self, questions: Iterable[Tuple[str, int]]) -> None:
        """Asks `(word, type number)` questions in one round trip, if they need one."""
        self.told.fetch(questions)

    def answer(self, op: str, t: int) -> Answer:
        """The service's answer to a word for type `t`. Raises Refused."""
        said: Answer = self.home(t).told.answer(op, t)
        return said

    def gather(self, numbers: Iterable[int], named: Iterable[int] = ()) -> None:
        """Fetches all that the declarations and layouts of these types need, in a few round trips;
        for `named` types, only what their declarations need."""
        self.told.gather(numbers, named)

    # Types, by number and by name.

    def type(self, t: int) -> Type:
        """The type with a number; 0 is void."""
        return Type(self.home(t), t)

    def types(self) -> List[Type]:
        """The dictionary's own types, in order."""
        return [self.type(t) for t in self.numbers]

    def find(self, name: Name) -> Type:
        """The type with a name as C writes it, such as "struct x **". Raises NotFound.

        If several visible types have the name, it is the one with the least number, a child's own
        types first; `struct x__17` is the `struct x` that is type 17. Qualifiers are ignored.
        Pointer types that the dictionary does not have are created here.
        """
        base, stars = normal(name)
        found = self.type(0) if base == "void" else self._find(base)
        for _ in range(stars):
            found = PointerTo(found)
        return found

    def _find(self, base: str) -> Type:
        """The type of a name, trying each spelling that C allows."""
        asked = [{"d": self.slot, "text": text.escape(one)} for one in spellings(base)]
        outcomes = self.session.ask_all([("find", fields) for fields in asked])
        found = next((one for one in outcomes if not isinstance(one, Refused)), outcomes[0])
        if isinstance(found, Refused):
            other = self._numbered_type(base)
            if other is None:
                raise found
            return other
        return self.type(found["t"])

    def _numbered_type(self, base: str) -> Optional[Type]:
        """The type of a name followed by two underscores and a number, or None."""
        name, number = aliases.parse_alias(base) or ("", 0)
        if not name or number not in self.numbers and not self._is_parents(number):
            return None
        found = self.type(number)
        return found if _tag_and_name(found) in spellings(WORDS.get(name, name)) else None

    def find_all(self, name: Name) -> List[Type]:
        """All of the dictionary's own types with a name, also hidden ones.

        A name with `*` has none.
        """
        base, stars = normal(name)
        if stars:
            return []
        types = self.types()
        self.fetch([("record", t.number) for t in types])
        return [t for t in types if _tag_and_name(t) in spellings(base)]

    def is_copy(self, integer: Type) -> bool:
        """Whether an integer is a hidden copy of one that look-ups find."""
        known = self._copies.get(integer.number)
        if known is None:
            known = self._copies[integer.number] = self._is_copy(integer)
        return known

    def _is_copy(self, integer: Type) -> bool:
        if integer.is_root:
            return False
        try:
            seen = self.find(integer.raw_name)
        except Refused:
            return False
        return (seen.kind == "integer" and seen.number != integer.number
                and (seen.size, seen.encoding) == (integer.size, integer.encoding))

    def names(self) -> List[str]:
        """The names by which types can be found, also those of the parent."""
        own = self.types() + (self.parent.types() if self.parent else [])
        self.fetch([("record", t.number) for t in own])
        return list(dict.fromkeys(_tag_and_name(t) for t in own if t.name and t.is_root))

    # Symbols.

    def symbol(self, name: Name) -> Union[Type, Signature]:
        """The type of the first symbol with a name: an object's type, or a function's signature.

        Raises Unreadable if the service cannot read the symbols of the file.
        """
        found = self._ask_symbols("symbol", name=text.escape(name))
        if found["class"] == "object":
            return self.object(found["sym"])
        return self.function(found["sym"])

    def object(self, number: int) -> Type:
        """The type of an object, by its number in the symbol table."""
        return self.type(self._ask_symbols("object", sym=number)["t"])

    def function(self, number: int) -> Signature:
        """The signature of a function, by its number in the symbol table."""
        return self.signature(self._ask_symbols("function", sym=number))

    def _ask_symbols(self, op: str, **fields: Any) -> Answer:
        if self.how in ("unread", "differs", "stripped"):
            raise Unreadable(source.WARNINGS[self.how])
        said: Answer = self.session.ask(op, d=self.slot, **fields)
        return said

    def signature(self, said: Answer) -> Signature:
        """The signature in a reply to `args` or `function`."""
        return self.signed(said["return"], said["args"], said["varargs"])

    def signed(self, returns: int, taken: List[int], varargs: bool) -> Signature:
        """A signature from the numbers of its types."""
        return Signature(self.type(returns), [self.type(t) for t in taken], varargs)

    def labels(self) -> List[Tuple[str, int]]:
        """The labels, each with the number of the last type that it covers."""
        said = self.session.ask("labels", d=self.slot)["labels"]
        return [(text.name(label["name"]), label["last"]) for label in said]


def normal(name: Name) -> Tuple[str, int]:
    """A name without qualifiers and stars, spelled as in a dictionary, and the number of stars."""
    words = text.raw(name).decode("utf-8", "surrogateescape")
    kept = [word for word in words.replace("*", " ").split() if word not in QUALIFIERS]
    base = " ".join(kept)
    return WORDS.get(base, base), words.count("*")


def spellings(base: str) -> List[str]:
    """A name and its other spellings in C."""
    return [base, *(other for other, usual in WORDS.items() if usual == base)]


def _tag_and_name(t: Type) -> str:
    word = t.tag if t.kind == "forward" else t.kind
    return f"{word} {t.name}" if word in ("struct", "union", "enum") else t.name
