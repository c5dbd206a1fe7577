"""Options and fixtures of all tests: the program under test, and how many cases to try.

usage: pytest [--program PROGRAM] [--whole] FOLDER-OR-FILE.. [-k NAME]

PROGRAM is a built ctfd; by default the one that CTFD names, else crates/ctfd/out/ctfd. With
--whole, tests that try only some of their cases try all.
"""
from __future__ import annotations

import os
from pathlib import Path

import pytest

TOP = Path(__file__).resolve().parents[1]
BUILT = TOP / "crates" / "ctfd" / "out" / "ctfd"


def pytest_addoption(parser: pytest.Parser) -> None:
    parser.addoption("--program", default=os.environ.get("CTFD", str(BUILT)),
                     help="the built ctfd that is judged")
    parser.addoption("--whole", action="store_true", help="all cases, where else a share is tried")


def pytest_configure(config: pytest.Config) -> None:
    """Tells the modules, and the processes that they start, which program to test."""
    os.environ["CTFD"] = str(Path(config.getoption("--program")).resolve())


@pytest.fixture(scope="session")
def program() -> str:
    """The built ctfd."""
    named = os.environ["CTFD"]
    if not os.access(named, os.X_OK):
        pytest.skip(f"there is no {named}: `make` builds it")
    return named


@pytest.fixture(scope="session")
def whole(request: pytest.FixtureRequest) -> bool:
    """Whether to try all cases."""
    return bool(request.config.getoption("--whole"))
