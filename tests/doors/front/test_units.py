"""Checks the units in docs/SERVING.md with systemd-analyze.

Each block below a line that names a file in /etc/systemd/system is a unit. The programs that they
start are replaced, since they are installed in another place here.
"""
from __future__ import annotations

import re
import shutil
import subprocess
from pathlib import Path
from typing import Iterator

import pytest

from .support import TOP

UNIT = re.compile(r"^`/etc/systemd/system/([\w@.-]+)`:\n\n<!-- [^\n]* -->\n```\n(.*?)^```$",
                  re.MULTILINE | re.DOTALL)
WANTED = {"ctfd.socket", "ctfd@.service", "ctfd-front.socket", "ctfd-front.service"}


def units() -> Iterator[tuple[str, str]]:
    """The names and texts of the units."""
    for unit in UNIT.finditer((TOP / "docs" / "SERVING.md").read_text()):
        yield unit[1], re.sub(r"ExecStart=/usr/local/bin/\S+", "ExecStart=/bin/true", unit[2])


FOUND = dict(units())


def test_page_shows_all() -> None:
    assert set(FOUND) == WANTED


@pytest.mark.skipif(not shutil.which("systemd-analyze"),
                    reason="not possible here: no systemd-analyze judges the units")
def test_units(tmp_path: Path) -> None:
    for name, text in FOUND.items():
        (tmp_path / name.replace("@", "@one")).write_text(text)
        (tmp_path / name).write_text(text)
    names = [name.replace("@", "@one") for name in FOUND]
    judged = subprocess.run(["systemd-analyze", "verify", "--man=no",
                             *(str(tmp_path / name) for name in names)],
                            capture_output=True, text=True)
    assert not [line for line in judged.stderr.splitlines()
                if any(name.split(".")[0] in line for name in names)]
    assert judged.returncode == 0
