"""The structure of the package: its public names and its subpackages."""
from __future__ import annotations

import re
import subprocess
import sys
import types
import unittest
from pathlib import Path

import ctfd

CLIENT = Path(__file__).resolve().parents[1]
PACKAGE = CLIENT / "ctfd"
# Modules outside subpackages are public.
PUBLIC = {"drgn", "expressions", "formats", "replies", "text"}


class Package(unittest.TestCase):
    def test_public_names_are_there(self) -> None:
        for name in ctfd.__all__:
            self.assertIsNotNone(getattr(ctfd, name), name)
        with self.assertRaisesRegex(AttributeError, "no attribute 'nothing'"):
            getattr(ctfd, "nothing")

    def test_public_modules(self) -> None:
        """The public modules are imported at their first use, and `layout` is the function."""
        code = ("import ctfd;"
                " print(ctfd.values.Bounds().elements, ctfd.build.Types('lp64').names(),"
                " ctfd.formats.Style().repeats, ctfd.expressions.evaluate.__name__,"
                " ctfd.replies.Opened.__name__, ctfd.text.raw('x'), ctfd.layout.__name__);"
                " from ctfd import *; print(values.__name__, layout.__name__)")
        said = subprocess.run([sys.executable, "-c", code], cwd=CLIENT, capture_output=True,
                              text=True)
        self.assertEqual(said.stderr, "")
        self.assertEqual(said.stdout, "200 [] 10 evaluate Opened b'x' layout\n"
                         "ctfd.values layout\n")

    def test_nothing_else_stands_at_the_top(self) -> None:
        found = {path.stem for path in PACKAGE.glob("*.py")}
        self.assertEqual(found, PUBLIC | {"__init__", "commands", "version"})
        modules = {name for name in ctfd.__all__
                   if isinstance(getattr(ctfd, name), types.ModuleType)}
        self.assertEqual(modules, PUBLIC - {"drgn"} | {"build", "values"})

    def test_each_package_is_installed_and_says_what_it_has(self) -> None:
        listed = re.search(r"packages = \[\n(.*?)\]", (CLIENT / "pyproject.toml").read_text(),
                           re.DOTALL)
        assert listed
        there = {".".join(path.parent.relative_to(CLIENT).parts)
                 for path in PACKAGE.rglob("__init__.py")}
        self.assertEqual(set(re.findall(r'"([\w.]+)"', listed[1])), there)
        for path in PACKAGE.rglob("*.py"):
            self.assertTrue(path.read_text(encoding="utf-8").startswith('"""'), path)


if __name__ == "__main__":
    unittest.main()
