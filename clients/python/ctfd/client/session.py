"""Sessions, which are asked by the words of the protocol. The library in this process and a service
behind pipes or a socket have the same interface."""
from __future__ import annotations

import abc
from types import TracebackType
from typing import (TYPE_CHECKING, Any, Dict, List, Literal, Optional, Sequence, Tuple, Type,
                    TypeVar, Union, overload)

from .. import text
from .faults import Refused
from .model import Model
from ..text import Name

if TYPE_CHECKING:
    from .. import replies
    from .dictionary import Dictionary
    from .told import Told

Answer = Dict[str, Any]
Request = Tuple[str, Dict[str, Any]]
Outcome = Union[Answer, Refused]
Self = TypeVar("Self", bound="Service")


class Service(abc.ABC):
    """An object that has sessions: a Client, or the library in this process. A `with` block closes
    it."""

    @property
    @abc.abstractmethod
    def where(self) -> str:
        """Where the service is, as text."""

    @property
    @abc.abstractmethod
    def pid(self) -> Optional[int]:
        """The process ID of the service, or None if it was not started here."""

    @abc.abstractmethod
    def session(self) -> Session:
        """A new session."""

    @abc.abstractmethod
    def close(self) -> None:
        """Closes the service and all that its sessions have open."""

    def __enter__(self: Self) -> Self:
        return self

    def __exit__(self, kind: Optional[Type[BaseException]], error: Optional[BaseException],
                 trace: Optional[TracebackType]) -> None:
        self.close()


class Session(abc.ABC):
    """A session of a service, by its number. Its slots are its own."""

    def __init__(self, client: Service, number: int) -> None:
        self.client = client
        self.number = number

    @abc.abstractmethod
    def ask_all(self, requests: Sequence[Request]) -> List[Outcome]:
        """Sends requests in one round trip.

        Returns one result per request, in order; a refused request yields its `Refused`.
        """

    @abc.abstractmethod
    def open(self, ctf: bytes, sym: Optional[bytes] = None, strings: Optional[bytes] = None,
             model: Optional[Model] = None) -> replies.Opened:
        """Hands in the lists of a dictionary and opens it. Returns `d` and `types`. The default
        model is "lp64"."""

    @abc.abstractmethod
    def told(self, types: Dictionary) -> Told:
        """The answers about the types of a dictionary that is open in this session."""

    @overload
    def ask(self, op: Literal["open", "take"], **fields: Any) -> replies.Opened: ...

    @overload
    def ask(self, op: Literal["create"], **fields: Any) -> replies.Made: ...

    @overload
    def ask(self, op: Literal["kind"], **fields: Any) -> replies.Kind: ...

    @overload
    def ask(self, op: Literal["record"], **fields: Any) -> replies.Record: ...

    @overload
    def ask(self, op: Literal["members"], **fields: Any) -> replies.Members: ...

    @overload
    def ask(self, op: Literal["enumerators"], **fields: Any) -> replies.Enumerators: ...

    @overload
    def ask(self, op: Literal["args", "function"], **fields: Any) -> replies.Arguments: ...

    @overload
    def ask(self, op: Literal["array"], **fields: Any) -> replies.Array: ...

    @overload
    def ask(self, op: Literal["encoding"], **fields: Any) -> replies.Encoded: ...

    @overload
    def ask(self, op: Literal["size"], **fields: Any) -> replies.Size: ...

    @overload
    def ask(self, op: Literal["align"], **fields: Any) -> replies.Align: ...

    @overload
    def ask(self, op: Literal["name"], **fields: Any) -> replies.Name: ...

    @overload
    def ask(self, op: Literal["path"], **fields: Any) -> replies.Path: ...

    @overload
    def ask(self, op: Literal["show"], **fields: Any) -> replies.Shown: ...

    @overload
    def ask(self, op: Literal["symbol"], **fields: Any) -> replies.Symbol: ...

    @overload
    def ask(self, op: Literal["labels"], **fields: Any) -> replies.Labels: ...

    @overload
    def ask(self, op: Literal["label"], **fields: Any) -> replies.Last: ...

    @overload
    def ask(self, op: Literal["info"], **fields: Any) -> replies.Info: ...

    @overload
    def ask(self, op: Literal["model"], **fields: Any) -> replies.ModelOf: ...

    @overload
    def ask(self, op: Literal["bytes"], **fields: Any) -> replies.Bytes: ...

    @overload
    def ask(self, op: Literal["reference", "resolve", "pointer", "find", "object"],
            **fields: Any) -> replies.Number: ...

    @overload
    def ask(self, op: str, **fields: Any) -> Any: ...

    def ask(self, op: str, **fields: Any) -> Any:
        """The reply to one request. Raises Refused."""
        outcome = self.ask_all([(op, fields)])[0]
        if isinstance(outcome, Refused):
            raise outcome
        return outcome

    def create(self, parent: Optional[int] = None, parname: Name = "", parlabel: Name = "",
               model: Optional[Model] = None) -> replies.Made:
        """Creates a draft in a new slot, `d`.

        A draft over the dictionary in slot `parent` needs a `parname`. The default model is the
        parent's, or "lp64" without a parent.
        """
        named = {"parname": text.escape(parname), "parlabel": text.escape(parlabel)}
        return self.ask("create", **named, **_without_none(parent=parent, model=model))


def _without_none(**fields: Any) -> Answer:
    """The fields that are not None: a request must omit them, since null is refused."""
    return {name: value for name, value in fields.items() if value is not None}
