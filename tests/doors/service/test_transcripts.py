"""A test for each run of the transcripts, named by its file and title: alone, and between
others."""
from __future__ import annotations

import pytest

from .transcripts import RUNS, Others, exchange, others, wrong


@pytest.mark.parametrize("run", RUNS)
def test_alone(program: str, run: str) -> None:
    assert not list(wrong(program, exchange(RUNS[run], Others())))


@pytest.mark.parametrize("run", RUNS)
def test_between_others(program: str, run: str) -> None:
    assert not list(wrong(program, exchange(RUNS[run], others())))
