"""The interface that answers questions about the types of a dictionary."""
from __future__ import annotations

from typing import Any, Iterable, List, Optional, Protocol, Tuple


class Told(Protocol):
    """Answers by type number. Each method raises Refused if the service refuses; 0 is no type
    here."""

    def kind(self, t: int) -> str:
        """The kind, in the service's words."""

    def name(self, t: int) -> str:
        """The name, "" if it has none."""

    def is_root(self, t: int) -> bool:
        """Whether look-ups by name find the type."""

    def spelled(self, t: int) -> str:
        """The type as C writes it in a cast."""

    def size(self, t: int) -> int:
        """The size in bytes."""

    def align(self, t: int) -> int:
        """The alignment in bytes."""

    def reference(self, t: int) -> int:
        """The type that a pointer points to, or that a typedef or qualifier applies to."""

    def tag(self, t: int) -> str:
        """What a forward declares: `struct`, `union` or `enum`."""

    def members(self, t: int) -> List[Tuple[str, int, int]]:
        """The name, type and offset in bits of each member."""

    def enumerators(self, t: int) -> List[Tuple[str, int]]:
        """The name and value of each enumerator."""

    def arguments(self, t: int) -> Tuple[int, List[int], bool]:
        """The return type and argument types of a function, and whether it is variadic."""

    def array(self, t: int) -> Tuple[int, int, int]:
        """The types of an array's elements and index, and the number of elements."""

    def encoding(self, t: int) -> Tuple[int, int, int]:
        """The flags, offset in bits and width in bits of an integer or float."""

    def fetch(self, questions: Iterable[Tuple[str, int]]) -> None:
        """Asks `(word, type number)` questions in one round trip, if they need one."""

    def gather(self, numbers: Iterable[int], named: Iterable[int]) -> None:
        """Fetches all that the declarations and layouts of types need, in a few round trips; for
        `named` types, only what their declarations need."""

    def answer(self, op: str, t: int) -> Any:
        """The reply of the service to a word."""

    def known(self, op: str, t: int) -> Optional[Any]:
        """As `answer`, but only if it was asked before; None otherwise, and if it was refused."""
