"""The names that people use for the types of a catalog, and look-ups by name or pattern."""
from __future__ import annotations

from typing import Dict, Iterable, List, Sequence, Set

from ctfd.client.nearest import suggestion
from ctfd.text import printable
from ctfd.view.declare import declaration
from .catalog import Catalog
from .patterns import Meaning, Unknown, pattern_of
from ctfd.layout.records import TAGGED


class Names:
    """The names of a catalog's types: a tag, a name, or the typedef of a type without a tag."""

    def __init__(self, catalog: Catalog) -> None:
        self.catalog = catalog
        self._typedefs: Dict[int, List[str]] = {}
        self._spelled: Dict[int, str] = {}
        for number in catalog.numbers:
            record = catalog[number]
            if record.kind == "typedef":
                named = catalog.resolve(record.type)
                if catalog[named].kind in TAGGED:
                    self._typedefs.setdefault(named, []).append(record.name)

    def has_name(self, number: int) -> bool:
        """Whether the type has a name or a typedef; otherwise only its place identifies it."""
        return bool(self.catalog[number].name) or number in self._typedefs

    def label(self, number: int) -> str:
        """The printable name in outputs."""
        record = self.catalog[number]
        word = record.tag if record.kind == "forward" else record.kind
        if record.kind in TAGGED:
            if record.name:
                return f"{word} {printable(record.name)}"
            if number in self._typedefs:
                return printable(self._typedefs[number][0])
            return f"{word} (anon {number})"
        return printable(record.name) if record.name else printable(self.spelling(number))

    def spelling(self, number: int) -> str:
        """The spelling in C, computed once."""
        if number not in self._spelled:
            self._spelled[number] = declaration(self.catalog.type(number))
        return self._spelled[number]

    def names_of(self, number: int) -> List[str]:
        """All names that find a type: its tag with and without `struct` or the like, and its
        typedefs."""
        record = self.catalog[number]
        names = list(self._typedefs.get(number, []))
        if record.name:
            names.append(record.name)
            if record.kind in TAGGED:
                names.append(record.name_with_tag)
        return names

    def matching(self, patterns: Sequence[str], among: Iterable[int]) -> List[int]:
        """The types that match one of the patterns. Raises Unknown if there are none."""
        meets = Meaning(one for pattern in patterns for one in pattern_of(pattern)).meets
        found = [n for n in among if any(map(meets, self.names_of(n)))]
        if not found:
            raise Unknown(self.nothing(patterns))
        return found

    def types_named(self, name: str) -> Set[int]:
        """The types that a name finds; for a typedef of a struct, union or enum also that type."""
        meets = Meaning(pattern_of(name)).meets
        found = {n for n in self.catalog.numbers if any(map(meets, self.names_of(n)))}
        if not found:
            raise Unknown(self.nothing([name]))
        return found

    def nothing(self, patterns: Sequence[str]) -> str:
        """The message that no type matches, with a similar name."""
        known = (name for n in self.catalog.numbers for name in self.names_of(n))
        advice = suggestion(patterns[0], known) if len(patterns) == 1 else ""
        return printable(f"no type is called {' or '.join(patterns)}{advice}")
