"""The fields of the service's reply to each word, as `TypedDict`s that mypy can check."""
from __future__ import annotations

from typing import List, TypedDict

from .client.model import Model

Returned = TypedDict("Returned", {"return": int})


class Opened(TypedDict):
    d: int
    types: int


class Made(TypedDict):
    d: int


class Kind(TypedDict):
    kind: str


class Own(TypedDict):
    kind: str
    name: str
    root: bool
    vlen: int


class Record(Own, total=False):
    """The record of a type. Its kind decides which of `size`, `type` and `tag` it has."""

    size: int
    type: int
    tag: str


class MemberOf(TypedDict):
    name: str
    offset: int
    type: int


class Members(TypedDict):
    members: List[MemberOf]
    total: int


class EnumeratorOf(TypedDict):
    name: str
    value: int


class Enumerators(TypedDict):
    enumerators: List[EnumeratorOf]
    total: int


class Arguments(Returned):
    """The type that a function returns (under the key `return`) and the types of its arguments."""

    args: List[int]
    varargs: bool


class Array(TypedDict):
    contents: int
    count: int
    index: int


class Encoded(TypedDict):
    bits: int
    encoding: int
    offset: int


class Number(TypedDict):
    t: int


class Size(TypedDict):
    size: int


class Align(TypedDict):
    align: int


class Name(TypedDict):
    name: str


class Path(TypedDict):
    offset: int
    t: int


class Shown(TypedDict):
    text: str


Symbol = TypedDict("Symbol", {"class": str, "sym": int})


class LabelOf(TypedDict):
    last: int
    name: str


class Labels(TypedDict):
    labels: List[LabelOf]
    total: int


class Last(TypedDict):
    last: int


class Info(TypedDict):
    child: bool
    draft: bool
    imported: bool
    labels: int
    parlabel: str
    parname: str
    pending: int
    types: int


class ModelOf(TypedDict):
    model: Model


class Bytes(TypedDict):
    bytes: str
    length: int
