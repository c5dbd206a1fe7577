"""Programs with more types than one dictionary can have: a parent and its children, used as one.

`ctfd-convert` writes them into one `ar` archive, whose first member is the parent. A type that
several children need is in each of them, under a different number.
"""
from __future__ import annotations

from typing import Iterator, List, Optional, Sequence, Union

from .. import text
from ..text import Name
from .dictionary import OWN_OF_CHILD, Dictionary
from .faults import NoSuchType, NotFound, Refused
from .model import Model
from .nearest import suggestion
from .types import Signature, Type


class Parts:
    """The dictionaries of one program; `parts` lists them, the parent first."""

    def __init__(self, parts: Sequence[Dictionary]) -> None:
        self.parts = list(parts)
        self.ends: Optional[object] = None

    @property
    def model(self) -> Model:
        """The data model of the program."""
        return self.parts[0].model

    def __repr__(self) -> str:
        return f"<Parts: {len(self)} types in {len(self.parts)} dictionaries, {self.model}>"

    def __len__(self) -> int:
        return sum(map(len, self.parts))

    def __bool__(self) -> bool:
        return True

    def __iter__(self) -> Iterator[Type]:
        return iter(self.types())

    def __getitem__(self, name: Name) -> Type:
        """The type with a name as C writes it. Raises NoSuchType, whose text suggests similar
        names; also for a number, since each dictionary has its own."""
        if isinstance(name, int):
            raise NoSuchType("a program in parts has types of one number in each: ask by name")
        try:
            return self.find(name).gather()
        except NotFound as fault:
            told = text.name(text.escape(name))
            raise NoSuchType(text.printable(
                f"no type is called {told}{suggestion(told, self.names())}")) from fault

    def __contains__(self, name: Name) -> bool:
        try:
            self.find(name)
        except Refused:
            return False
        return True

    def find(self, name: Name) -> Type:
        """The type of a name, from the first part that has it. Raises NotFound."""
        for part in self.parts[:-1]:
            try:
                return part.find(name)
            except NotFound:
                pass
        return self.parts[-1].find(name)

    def find_all(self, name: Name) -> List[Type]:
        """All types of a name; those of the parent once."""
        return [one for place, part in enumerate(self.parts) for one in part.find_all(name)
                if place == 0 or one.number > OWN_OF_CHILD]

    def symbol(self, name: Name) -> Union[Type, Signature]:
        """The type of a function or variable, from the first part that has it. Raises NotFound."""
        for part in self.parts[:-1]:
            try:
                return part.symbol(name)
            except NotFound:
                pass
        return self.parts[-1].symbol(name)

    def types(self) -> List[Type]:
        """The types of all parts. A type that several children need occurs once for each of
        them."""
        return [one for part in self.parts for one in part.types()]

    def names(self) -> List[str]:
        """The names of all types, without duplicates."""
        return list(dict.fromkeys(name for part in self.parts for name in part.names()))

    def close(self) -> None:
        """Closes all parts, and the service that was started for them."""
        for part in reversed(self.parts):
            part.close()
        if callable(self.ends):
            self.ends()

    def __enter__(self) -> Parts:
        return self

    def __exit__(self, *_: object) -> None:
        self.close()
