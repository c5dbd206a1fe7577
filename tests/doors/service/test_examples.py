"""A test for each examples/*.jsonl, and one for the requests in docs/PROTOCOL.md."""
from __future__ import annotations

from typing import Iterator

import pytest

from . import examples


@pytest.fixture(scope="module")
def base() -> Iterator[str]:
    with examples.base() as name:
        yield name


@pytest.mark.parametrize("name", examples.NAMES)
def test_example(program: str, base: str, name: str) -> None:
    assert not list(examples.wrong_of(program, name, base))


def test_page() -> None:
    assert not list(examples.not_shown_right())
