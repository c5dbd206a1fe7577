"""Suggestions for a name that was not found."""
from __future__ import annotations

from typing import Iterable, List

WORDS = ("struct", "union", "enum")
MOST = 3


def without_tag(name: str) -> str:
    """A name without `struct`, `union` or `enum`."""
    word, _, rest = name.partition(" ")
    return rest.strip() if word in WORDS else name


def nearest(name: str, names: Iterable[str]) -> List[str]:
    """At most three similar names. Those that differ only in `struct`, `union` or `enum` come
    first."""
    import difflib  # imported here: only needed if a name was not found

    known = list(dict.fromkeys(names))
    same = [one for one in known if one != name and without_tag(one) == without_tag(name)]
    close = difflib.get_close_matches(name, known, MOST + len(same))
    return [*same, *(one for one in close if one not in same)][:MOST]


def suggestion(name: str, names: Iterable[str]) -> str:
    """Text for a message: `; did you mean a, b or c?`, or "" if no name is similar."""
    *others, last = nearest(name, names) or [""]
    if not last:
        return ""
    return f"; did you mean {', '.join(others)}{' or ' if others else ''}{last}?"
