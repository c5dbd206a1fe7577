"""Tests of cached debug files: a damaged one is written again, whatever its name."""
from __future__ import annotations

import os
import subprocess
import time
from pathlib import Path
from typing import List

from ..support import CLIENTS, SERVICE, Case, Outcome, run, tool

CODE = """
struct point { long x, y, z; } first = { 1, 2, 3 };
int main(void) { return (int) first.x; }
"""
ANSWER = "$1 = {x = 1, y = 2, z = 3}"


class KeptFiles(Case):
    def setUp(self) -> None:
        super().setUp()
        self.needs("gdb", "objcopy")
        whole = self.compile(CODE, "-g", name="whole.exe")
        self.program = self.folder / "program"
        subprocess.run([tool("convert"), "--section", str(whole), str(self.program)],
                       check=True, env={**os.environ, "CTFD": SERVICE}, capture_output=True)
        subprocess.run(["objcopy", "-g", str(self.program)], check=True)
        self.cache = self.folder / "cache/ctfd"

    def ask_gdb(self) -> Outcome:
        """gdb's own answer with the debug file that `ctf load` gives it."""
        return run("gdb", "-batch", "-nx", "-ex", f"source {CLIENTS}/gdb/ctfgdb.py",
                   "-ex", "ctf load", "-ex", "print first", self.program,
                   environment={"XDG_CACHE_HOME": str(self.cache.parent)}, seconds=30)

    def files(self) -> List[Path]:
        return sorted(self.cache.glob("*.debug"))

    def kept_file(self) -> Path:
        """The file that a first load leaves."""
        self.assertIn(ANSWER, self.ask_gdb().output)
        self.assertEqual(len(self.files()), 1)
        return self.files()[0]

    def test_it_is_used_again(self) -> None:
        made = self.kept_file()
        before = made.stat()
        self.assertIn(ANSWER, self.ask_gdb().output)
        self.assertEqual(made.stat().st_ino, before.st_ino)
        subprocess.run(["objdump", "-h", str(made)], check=True, capture_output=True)

    def test_a_truncated_one(self) -> None:
        made = self.kept_file()
        whole = made.read_bytes()
        for length in (len(whole) - 1, len(whole) // 2, 64, 8, 0):
            made.write_bytes(whole[:length])
            done = self.ask_gdb()
            self.assertIn(ANSWER, done.output, (length, done.text))
            self.assertEqual(made.read_bytes(), whole, length)

    def test_a_changed_one(self) -> None:
        made = self.kept_file()
        whole = made.read_bytes()
        for at in (0, 20, len(whole) // 3, len(whole) - 1):
            made.write_bytes(whole[:at] + bytes([whole[at] ^ 0xFF]) + whole[at + 1:])
            done = self.ask_gdb()
            self.assertIn(ANSWER, done.output, (at, done.text))
            self.assertEqual(made.read_bytes(), whole, at)
        made.write_bytes(whole + b"more")
        self.assertIn(ANSWER, self.ask_gdb().output)
        self.assertEqual(made.read_bytes(), whole)

    def test_no_room(self) -> None:
        """If a file cannot be written completely, no part of it stays, and gdb still has its
        types."""
        self.cache.mkdir(mode=0o700, parents=True)
        if subprocess.run(["mount", "-t", "tmpfs", "-o", "size=4k,mode=700", "tmpfs",
                           str(self.cache)], capture_output=True).returncode:
            self.skipTest("no file system can be mounted here")
        self.addCleanup(lambda: subprocess.run(["umount", str(self.cache)], check=True))
        done = self.ask_gdb()
        self.assertIn(ANSWER, done.output, done.text)
        self.assertEqual([path.name for path in self.cache.iterdir()], [])

    def test_no_room_for_a_dictionary(self) -> None:
        """The results of the commands' conversions are cached there too."""
        self.cache.mkdir(mode=0o700, parents=True)
        if subprocess.run(["mount", "-t", "tmpfs", "-o", "size=4k,mode=700", "tmpfs",
                           str(self.cache)], capture_output=True).returncode:
            self.skipTest("no file system can be mounted here")
        self.addCleanup(lambda: subprocess.run(["umount", str(self.cache)], check=True))
        (self.cache / "fills").write_bytes(bytes(4096))
        done = run(tool("types"), self.folder / "whole.exe", "struct point", seconds=30,
                   environment={"XDG_CACHE_HOME": str(self.cache.parent)})
        self.assertIn("size: 24", done.output, done.text)
        self.assertEqual([path.name for path in self.cache.iterdir()], ["fills"])

    def test_what_a_crash_has_left(self) -> None:
        """An unfinished file is removed when it is so old that nobody can be writing it."""
        self.kept_file().unlink()
        old, new = self.cache / ".new-old", self.cache / ".new-new"
        for path in (old, new):
            path.write_bytes(b"half")
        day = time.time() - 86_400
        os.utime(old, (day, day))
        self.kept_file()
        self.assertFalse(old.exists())
        self.assertTrue(new.exists())
