"""The compiled converter: only our own version is used, wherever it is installed."""
from __future__ import annotations

import os
import shutil
import subprocess
import tempfile
import unittest
import zlib
from pathlib import Path
from unittest import mock

import ctfd
from ctfd.client import trust
from ctfd.files import anyfile, compiled
from ctfd.files.anyfile import FileOptions
from ctfd.files.source import judge_parent

from .support import CONVERT, EXAMPLES, run

CODE = "struct point { int x, y : 3; struct point *next; } first; enum wide { A = 1L << 40 } w;\n"


class CompiledCommands(unittest.TestCase):
    def setUp(self) -> None:
        made = tempfile.TemporaryDirectory()
        self.addCleanup(made.cleanup)
        self.folder = Path(made.name)

    def program(self, *words: str) -> str:
        if shutil.which("gcc") is None or compiled.find() is None:
            self.skipTest("no gcc here, or the compiled commands are not built")
        path = self.folder / "made.o"
        subprocess.run(["gcc", "-g", "-w", *words, "-x", "c", "-c", "-", "-o", path], check=True,
                       input=CODE, text=True)
        return str(path)

    def test_what_the_command_writes(self) -> None:
        path, out = self.program(), self.folder / "out"
        found = anyfile.read(path, FileOptions(form="dwarf"))
        self.assertEqual(run(path, str(out), command=CONVERT).returncode, 1)
        self.assertEqual((found.sources[0].ctf, found.sources[0].model), (out.read_bytes(), "lp64"))
        self.assertEqual([line[:24] for line in found.losses], ["enum wide: its enumerator"[:24]])

    def test_why_nothing_is_made(self) -> None:
        with self.assertRaisesRegex(ctfd.Unreadable, r"made\.o: it has no section \.BTF .*leave"):
            anyfile.read(self.program(), FileOptions(form="btf"))

    def test_what_is_not_ours(self) -> None:
        script = self.folder / "ctfd-convert"
        script.write_text("#!/bin/sh\necho ctfd-convert 0\n")
        script.chmod(0o755)
        with mock.patch.object(trust, "folder_of_command", return_value=str(self.folder)), \
                mock.patch.object(trust, "folder_of_clone", return_value=None):
            self.assertIsNone(compiled.find())
            shutil.copy("/bin/true", script)
            self.assertIsNone(compiled.find())

    def test_what_others_could_write(self) -> None:
        found = compiled.find()
        if found is None:
            self.skipTest("the compiled commands are not built")
        with mock.patch.object(trust, "folder_of_command", return_value=str(self.folder)), \
                mock.patch.object(trust, "folder_of_clone", return_value=None):
            copy = self.folder / "ctfd-convert"
            shutil.copy(os.path.realpath(found), copy)
            self.assertEqual(compiled.find(), str(copy))
            self.folder.chmod(0o777)
            self.assertIsNone(compiled.find())

    def test_without_it(self) -> None:
        path = self.program()
        with mock.patch.object(compiled, "find", return_value=None), \
                self.assertRaisesRegex(ctfd.Unreadable, r"made\.o: .*ctfd-convert .*: install it"):
            anyfile.read(path, FileOptions())

    def test_a_dictionary_without_it(self) -> None:
        """Without ctfd-convert, a plain dictionary is read, and other files are refused."""
        whole = (EXAMPLES / "lua.ctf").read_bytes()
        packed = whole[:3] + b"\1" + whole[4:36] + zlib.compress(whole[36:])
        path = self.folder / "types.ctf"
        with mock.patch.object(compiled, "find", return_value=None):
            for data in (whole, packed, whole + b"ctfd.model=ilp32", whole + b"ctfd.symbols=names,",
                         b"\xf1\xcf\3" + whole[3:], b"\x7fELF"):
                path.write_bytes(data)
                if data == whole:
                    self.assertEqual(ctfd.read(str(path)), ctfd.Source(whole))
                    with self.assertRaisesRegex(ctfd.Unreadable, "install it"):
                        ctfd.read(str(path), 1)
                    continue
                with self.assertRaisesRegex(ctfd.Unreadable, "install it"):
                    ctfd.read(str(path))

    def test_beside_the_program_that_is_named(self) -> None:
        found = compiled.find()
        if found is None:
            self.skipTest("the compiled commands are not built")
        copy = self.folder / "ctfd-convert"
        shutil.copy(os.path.realpath(found), copy)
        with mock.patch.object(trust, "folder_of_clone", return_value=None), \
                mock.patch.dict(os.environ, {"CTFD": str(self.folder / "ctfd"), "PATH": "/"}):
            self.assertEqual(compiled.find(), str(copy))

    def test_what_a_child_names_its_parent_by(self) -> None:
        if compiled.find() is None:
            self.skipTest("the compiled commands are not built")
        lua = EXAMPLES / "lua.ctf"
        self.assertEqual(compiled.label(lua.read_bytes()), ctfd.read(str(lua)).label)
        known = ctfd.Source(lua.read_bytes())
        judge_parent(f"{ctfd.read(str(lua)).label}", known)
        judge_parent("of others", known)
        with self.assertRaisesRegex(ctfd.Unreadable, "not the types with which the child was made"):
            judge_parent("ctfd.types=00000000", known)


if __name__ == "__main__":
    unittest.main()
