"""Shells complete each command that has a manual page."""
from __future__ import annotations

import unittest
from pathlib import Path

TOP = Path(__file__).resolve().parents[3]
PAGES = TOP / "docs" / "man"
COMPLETIONS = TOP / "clients" / "completions"
COMMANDS = sorted(page.stem for page in PAGES.glob("ctfd-*.1"))


class Pages(unittest.TestCase):
    def test_shells_complete_each_command(self) -> None:
        self.assertIn("ctfd-types", COMMANDS)
        for name in ("_ctfd", "ctfd.bash"):
            words = (COMPLETIONS / name).read_text(encoding="utf-8").split()
            for command in COMMANDS:
                with self.subTest(command=command, shell=name):
                    self.assertIn(command, words)


if __name__ == "__main__":
    unittest.main()
