"""Names and patterns of names, as a person writes them."""
from __future__ import annotations

import re
from fnmatch import translate
from typing import Iterable, List

from ctfd.client.dictionary import normal, spellings
from ctfd.client.faults import Error

_PATTERN = re.compile(r"[*?\[]")
_STARS = re.compile(r"\s[\s*]*\Z")
_WORDS = re.compile(r"(struct|union|enum)\s+(.*)\Z", re.S)


class Unknown(Error):
    """Nothing has the name."""


def pattern_of(written: str) -> List[str]:
    """The patterns for a written name: base types have several spellings."""
    found = _WORDS.match(written.strip())
    if found:
        return [f"{found[1]} {found[2].strip()}"]
    if is_pattern(written):
        return [written]
    return [written, *spellings(normal(written)[0])]


def is_pattern(written: str) -> bool:
    """Whether it may match several names. Stars after a blank belong to a pointer."""
    return bool(_PATTERN.search(_STARS.sub("", written)))


class Meaning:
    """A matcher for written names and patterns."""

    def __init__(self, written: Iterable[str]) -> None:
        self._names = frozenset(written)
        self._patterns = [re.compile(translate(one)).match for one in self._names
                          if is_pattern(one)]

    def meets(self, name: str) -> bool:
        """Whether a name matches."""
        return name in self._names or any(match(name) for match in self._patterns)
