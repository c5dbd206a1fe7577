"""Messages about what CTF cannot represent of a file."""
from __future__ import annotations

import re
from collections import Counter
from typing import List, Sequence

_GRAVE = re.compile(r"\d+ (types|functions|units?) |.*: symbols are left out")


def told_once(losses: Sequence[str]) -> List[str]:
    """Each line once, with its count if it occurs more often."""
    return [line if count == 1 else f"{line} ({count} times)"
            for line, count in Counter(losses).items()]


def notice(losses: Sequence[str], most: int, how: str) -> List[str]:
    """The lines to show a user. Lines about left-out types, symbols or files come first. If
    there are more than `most` others, the rest becomes one line with their number and `how` to
    list them."""
    lines = told_once(losses)
    first = [line for line in lines if _GRAVE.match(line)]
    others = [line for line in lines if not _GRAVE.match(line)]
    if len(others) > most:
        left = len(others) - most + 1
        others = others[:most - 1] + [f"{left} constructs more that CTF cannot represent were"
                                      f" changed or left out: {how}"]
    return first + others
