"""Runs the compiled ctfd-convert, for these tests."""
from __future__ import annotations

import os
import subprocess
import tempfile
from pathlib import Path
from typing import List

TOP = Path(__file__).resolve().parents[3]
FOLDER = Path(os.environ.get("CARGO_TARGET_DIR") or TOP / "clients/rust/target", "release")
COMMAND = FOLDER / "ctfd-convert"
WRITTEN = (0, 1)
LOST = "lost: "


class Refusal(Exception):
    """The command wrote nothing; the text says why."""


def convert(*words: str) -> List[str]:
    """Runs the command. Returns one line for each loss. Raises Refusal."""
    with tempfile.TemporaryDirectory() as folder:
        report = Path(folder, "report")
        done = subprocess.run([COMMAND, *words, "--report", report], capture_output=True, text=True,
                              errors="backslashreplace")
        if done.returncode not in WRITTEN:
            raise Refusal(f"{' '.join(words)}: status {done.returncode}: {done.stderr}")
        lines = report.read_text(errors="backslashreplace").splitlines()
    return [line[len(LOST):] for line in lines if line.startswith(LOST)]
