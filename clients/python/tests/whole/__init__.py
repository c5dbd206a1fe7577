"""All types of an open dictionary with derived data, which tests compare with the output of
commands."""
from __future__ import annotations

from typing import Iterable, List, NamedTuple

from ctfd.client.dictionary import Dictionary
from ctfd.client.gather import LISTS

from .catalog import Catalog
from .naming import Names
from .sizes import Sizes


class WholeFile(NamedTuple):
    """A file's types with derived data; `cut` lists what was left out of that."""

    path: str
    catalog: Catalog
    names: Names
    sizes: Sizes
    cut: List[str]


def whole_of(types: Dictionary, path: str, lists: Iterable[str] = LISTS) -> WholeFile:
    """All types of an open dictionary."""
    catalog = Catalog(types, lists)
    names = Names(catalog)
    return WholeFile(path, catalog, names, Sizes(catalog, names), [])
