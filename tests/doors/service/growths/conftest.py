"""Compiles the library that refuses memory to a service."""
from __future__ import annotations

import shutil
import subprocess
from pathlib import Path

import pytest


@pytest.fixture(scope="session")
def refusing(tmp_path_factory: pytest.TempPathFactory) -> str:
    """The compiled refuse.c, to be preloaded."""
    if not shutil.which("cc"):
        pytest.skip("no C compiler here")
    made = tmp_path_factory.mktemp("growths") / "refuse.so"
    subprocess.run(["cc", "-O2", "-Wall", "-Wextra", "-shared", "-fPIC", "-o", str(made),
                    str(Path(__file__).with_name("refuse.c"))], check=True)
    return str(made)
