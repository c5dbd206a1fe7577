"""The data model of a program: the number of bytes of its pointers.

All other sizes, such as that of a `long`, are in the dictionary.
"""
from __future__ import annotations

from typing import Dict, Literal, Optional

Model = Literal["lp64", "ilp32"]

POINTER_SIZES: Dict[Model, int] = {"lp64": 8, "ilp32": 4}


def of_pointers(size: int) -> Optional[Model]:
    """The model whose pointers have `size` bytes, or None."""
    return next((model for model, known in POINTER_SIZES.items() if known == size), None)
