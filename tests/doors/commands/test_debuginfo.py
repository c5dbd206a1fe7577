"""Tests of `ctfd-debuginfo`: its names contain no control characters for the terminal."""
from __future__ import annotations

import shutil
from pathlib import Path

from ..support import EXAMPLES, Case, run, tool

NAMES = {b"luaL_Reg": b"lua\x1b[7m", b"lua_Number": b"lua\r\n\x07\x9b\x7f_x",
         b"CallInfo": b"\xc2\x9b31m\xff_"}


class Names(Case):
    def hostile(self) -> Path:
        """The types of Lua, with some names replaced."""
        data = (EXAMPLES / "lua.ctf").read_bytes()
        for name, other in NAMES.items():
            self.assertIn(b"\0" + name + b"\0", data)
            data = data.replace(b"\0" + name + b"\0", b"\0" + other.ljust(len(name), b"x") + b"\0")
        made = self.folder / "hostile.ctf"
        made.write_bytes(data)
        return made

    def test_control_characters(self) -> None:
        out = self.folder / "out.debug"
        done = run(tool("debuginfo"), "--compress-debug-sections=none", self.hostile(), out)
        self.assert_tame(done)
        self.assertEqual(done.status, 0, done.text)
        data = out.read_bytes()
        for name in NAMES.values():
            self.assertNotIn(name, data)
        self.assertIn(b"lua\\x1b[7m", data)
        if shutil.which("gdb"):
            done = run("gdb", "-batch", "-nx", "-ex", "info types lua", "-ex", "info types x", out,
                       seconds=20)
            self.assertNotRegex(done.output, "[\x00-\x08\x0b-\x1f\x7f-\x9f\ufffd]")
            self.assertIn("\\x1b[7m", done.output)
