"""A file that is cut off while a command reads it: no command is killed by a signal.

Each command is given a pipe beside the file. When it opens the pipe, it has begun to read the file,
which is cut off then, before anything comes from the pipe.
"""
from __future__ import annotations

import contextlib
import errno
import os
import shutil
import subprocess
import threading
import time
from pathlib import Path
from typing import List

from ..support import CLIENTS, EXAMPLES, SERVICE, Case, Outcome, Word, run, tool

CODE = "struct point { long x, y, z; } first = { 1, 2, 3 }; int main(void) { return 0; }"
LIMIT = 30


class TruncatedFiles(Case):
    def setUp(self) -> None:
        super().setUp()
        self.needs("gcc", "objcopy")
        self.whole = self.compile(CODE, "-g", name="whole.exe")
        self.program = self.folder / "program"
        subprocess.run([tool("convert"), "--section", str(self.whole),
                        str(self.program)], check=True, env={**os.environ, "CTFD": SERVICE},
                       capture_output=True)
        subprocess.run(["objcopy", "-g", str(self.program)], check=True)
        self.pipe = self.folder / "pipe"
        os.mkfifo(self.pipe)

    def around(self) -> dict[str, str]:
        return {"XDG_CACHE_HOME": str(self.folder / "cache")}

    def cut(self, path: Path, data: bytes, *words: Word, length: int = 0, times: int = 1
            ) -> Outcome:
        """The outcome of a command whose file is cut off when it has opened the pipe `times` times.
        Each time, the pipe delivers `data`."""
        saved = path.read_bytes()
        made: List[Outcome] = []
        door = threading.Thread(target=lambda: made.append(
            run(*words, environment=self.around(), seconds=LIMIT)))
        door.start()
        for time_of_it in range(times):
            handle = self.open_pipe(door)
            if handle is None:
                break
            if time_of_it == times - 1:
                os.truncate(path, length)
            self.fill(handle, data, door)
        while door.is_alive():  # serves further reads of the pipe
            handle = self.open_pipe(door)
            if handle is not None:
                self.fill(handle, data, door)
        path.write_bytes(saved)
        return made[0]

    def fill(self, handle: int, data: bytes, door: threading.Thread) -> None:
        """Writes to the pipe, as far as it is read, and waits until the command has closed it."""
        os.set_blocking(handle, True)
        with contextlib.suppress(BrokenPipeError), open(handle, "wb") as file:
            file.write(data)
        while door.is_alive():
            time.sleep(0.005)
            try:
                os.close(os.open(self.pipe, os.O_WRONLY | os.O_NONBLOCK))
            except OSError:
                return

    def open_pipe(self, door: threading.Thread) -> "int | None":
        """The pipe, when the command has opened it; None if the command has ended."""
        while door.is_alive():
            try:
                return os.open(self.pipe, os.O_WRONLY | os.O_NONBLOCK)
            except OSError as error:
                if error.errno != errno.ENXIO:
                    raise
                time.sleep(0.005)
        return None

    def assert_ends(self, path: Path, data: bytes, *words: Word, times: int = 1) -> None:
        for length in (0, 100, 4096):
            done = self.cut(path, data, *words, length=length, times=times)
            self.assertGreaterEqual(done.status, 0, (words, length, done.text[-300:]))
            self.assert_tame(done, (words, length), seconds=LIMIT)

    def test_debuginfo(self) -> None:
        out = self.folder / "out"
        data = self.whole.read_bytes()
        self.assert_ends(self.program, data, tool("debuginfo"), self.program, out,
                         "--symbols", self.pipe)
        self.assert_ends(self.program, (EXAMPLES / "lua.ctf").read_bytes(), tool("debuginfo"),
                         self.pipe, out, "--program", self.program)

    def test_diff(self) -> None:
        for path in (self.program, self.whole):
            data = path.read_bytes()
            self.assert_ends(path, data, tool("diff"), path, self.pipe)
            self.assert_ends(path, data, tool("diff"), "--no-cache", path, self.pipe)

    def test_types(self) -> None:
        data = self.program.read_bytes()
        for path in (self.program, self.whole):
            self.assert_ends(path, data, tool("types"), path, self.pipe)
            self.assert_ends(path, data, tool("types"), "--parent", self.pipe, path)

    def test_convert(self) -> None:
        types = (EXAMPLES / "zlib.ctf").read_bytes()
        self.assert_ends(self.whole, types, tool("convert"), "--parent", self.pipe, self.whole,
                         self.folder / "out")
        self.assert_ends(self.whole, self.whole.read_bytes(), tool("convert"), self.whole,
                         self.pipe, self.folder / "out")

    def test_show(self) -> None:
        """A core file, with the types from a pipe."""
        self.needs("gdb")
        core = self.folder / "core"
        subprocess.run(["gdb", "-batch", "-nx", "-ex", "break main", "-ex", "run",
                        "-ex", f"generate-core-file {core}", str(self.whole)],
                       check=True, capture_output=True)
        if not core.exists():
            self.skipTest("gdb writes no core file here")
        done = run(tool("show"), "--core", core, "--types", self.program, "first",
                   environment=self.around(), seconds=LIMIT)
        self.assertIn("x = 1", done.output, done.text)
        self.assert_ends(core, self.program.read_bytes(), tool("show"), "--core", core,
                         "--types", self.pipe, "first")
        self.assert_ends(self.whole, self.program.read_bytes(), tool("show"), "--core", core,
                         "--types", self.pipe, "first")

    def test_gdb(self) -> None:
        """gdb reads the program itself; the plug-in reads it too, and its parent from the pipe."""
        self.needs("gdb")
        parent, child = self.folder / "parent", self.folder / "child"
        asked: List[List[Word]] = [[self.whole, parent],
                                   ["--parent", parent, "--section", self.whole, child]]
        for words in asked:
            done = run(tool("convert"), *words, environment=self.around(), seconds=LIMIT)
            self.assertEqual(done.status, 0, done.text)
        subprocess.run(["objcopy", "-g", str(child)], check=True)
        data = parent.read_bytes()
        for times in (1, 2, 3, 4):
            self.assert_ends(child, data, "gdb", "-batch", "-nx",
                             "-ex", f"source {CLIENTS}/gdb/ctfgdb.py", "-ex",
                             f"ctf load {child} {self.pipe}", "-ex", "echo still here\\n",
                             child, times=times)
            shutil.rmtree(self.folder / "cache", ignore_errors=True)
        done = run("gdb", "-batch", "-nx", "-ex", f"source {CLIENTS}/gdb/ctfgdb.py",
                   "-ex", f"ctf load {child} {parent}", "-ex", "print first", child,
                   environment=self.around(), seconds=LIMIT)
        self.assertIn("$1 = {x = 1, y = 2, z = 3}", done.output, done.text)
