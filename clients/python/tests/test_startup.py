"""Python modules that the package imports late are imported early if modules may come from `.`."""
from __future__ import annotations

import ast
import subprocess
import sys
import unittest
from pathlib import Path
from typing import Iterator

CLIENT = Path(__file__).resolve().parents[1]
PACKAGE = CLIENT / "ctfd"
ELSEWHERE = {"gdb", "drgn", "pycparser"}


def names() -> Iterator[str]:
    """For each module of the package, the modules of others that it imports."""
    for path in PACKAGE.rglob("*.py"):
        for node in ast.walk(ast.parse(path.read_text(encoding="utf-8"))):
            if isinstance(node, ast.Import):
                yield from (one.name.split(".")[0] for one in node.names)
            elif isinstance(node, ast.ImportFrom) and not node.level and node.module:
                yield node.module.split(".")[0]


class Startup(unittest.TestCase):
    def test_what_is_imported_late(self) -> None:
        code = "import ctfd, sys; print(*sys.modules); print('' in sys.path)"
        said = subprocess.run([sys.executable, "-c", code], cwd=CLIENT, capture_output=True,
                              text=True, check=True).stdout.splitlines()
        self.assertEqual(set(names()) - set(said[0].split()) - ELSEWHERE - {"ctfd"}, set())
        self.assertEqual(said[1], "True")


if __name__ == "__main__":
    unittest.main()
