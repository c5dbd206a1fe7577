"""Tests of the debuggers: which of several types a name finds, and the width of pointers.

The program has two source files with different types of the same name. In a function of a library,
no source file of the program is the current one, and a debugger uses any type of a name.
"""
from __future__ import annotations

import os
import re
import shutil
import subprocess
from pathlib import Path
from typing import Dict, List, Optional

from ..support import CLIENTS, EXAMPLES, SERVICE, Case, Outcome, run, tool

FIRST = """
struct dict { long used[7]; };
enum mode { OFF, ON };
typedef int word;
struct own { struct dict dict; enum mode mode; word word; unsigned bits : 3, whole : 32; } own;
extern int other(int);
int main(void) { own.dict.used[0] = 7; own.mode = ON; return other(1); }
"""
SECOND = """
#include <unistd.h>
struct dict { int table; char *name; long more[4]; };
enum mode { LOW = 5, ON = 7 };
typedef long word;
struct holder { struct dict *inner; enum mode mode; word word; } holder;
static struct dict theirs = { 3, "three", { 1, 2, 3, 4 } };
int other(int n) { holder.inner = &theirs; holder.mode = ON; return write(1, "", 0) + n; }
"""
ASKED = ("print sizeof(struct dict)", "print sizeof(word)", "print (int) ON",
         "print sizeof(((struct dict *) 0)->used)")
VISIBLE = ["56", "4", "1", "56"]


class Debuggers(Case):
    def setUp(self) -> None:
        super().setUp()
        self.needs("gcc", "objcopy")
        (self.folder / "first.c").write_text(FIRST)
        (self.folder / "second.c").write_text(SECOND)
        whole = self.folder / "whole"
        subprocess.run(["gcc", "-g", "-O0", "-o", str(whole), "first.c", "second.c"],
                       cwd=self.folder, check=True)
        self.program = self.folder / "program"
        subprocess.run([tool("convert"), "--section", str(whole), str(self.program)],
                       check=True, env={**os.environ, "CTFD": SERVICE}, capture_output=True)
        subprocess.run(["objcopy", "-g", str(self.program)], check=True)

    def around(self, more: Optional[Dict[str, str]] = None) -> Dict[str, str]:
        return {"XDG_CACHE_HOME": str(self.folder / "cache"), **(more or {})}

    def gdb(self, *lines: str, program: Optional[Path] = None) -> Outcome:
        """The output of gdb with the plug-in."""
        self.needs("gdb")
        words = [word for line in (f"source {CLIENTS}/gdb/ctfgdb.py", *lines)
                 for word in ("-ex", line)]
        return run("gdb", "-batch", "-nx", *words, *([program] if program else []),
                   environment=self.around(), seconds=30)

    def numbers(self, done: Outcome) -> List[str]:
        return re.findall(r"^\$\d+ = (.*)", done.output, re.MULTILINE)


class Gdb(Debuggers):
    def test_a_section_without_a_program(self) -> None:
        """gdb's default is a 32-bit machine, and a section by itself has no machine."""
        done = self.gdb(f"ctf load {EXAMPLES}/lua.ctf", "ctf ptype struct luaL_Reg")
        self.assertIn("lp64", done.output)
        self.assertRegex(done.output, r"name; +/\* +0 +8 \*/")
        self.assertRegex(done.output, r"func; +/\* +8 +8 \*/")
        done = self.gdb("set architecture i386", f"ctf load {EXAMPLES}/lua.ctf",
                        "ctf ptype struct luaL_Reg")
        self.assertIn("ilp32", done.output)
        self.assertRegex(done.output, r"name; +/\* +0 +4 \*/")
        done = self.gdb(f"ctf load {EXAMPLES}/lua.ctf", "ctf ptype struct luaL_Reg",
                        program=self.program)
        self.assertRegex(done.output, r"name; +/\* +0 +8 \*/")

    def test_which_names_stand_for_several_types(self) -> None:
        done = self.gdb("ctf load", program=self.program)
        line = next(line for line in done.output.splitlines() if "several types" in line)
        self.assertRegex(line, r"\b3 names\b")
        for name in (r"struct dict \(also dict__\d+\)", r"enum mode \(also mode__\d+\)",
                     r"word \(also word__\d+\)"):
            self.assertRegex(line, name)
        self.assertNotIn("unsigned", line)

    def test_a_name_means_the_visible_type(self) -> None:
        """Before the program runs, in its own functions, and in a function of libc."""
        places: List[List[str]] = [[], *([f"break {name}", "run"]
                                         for name in ("main", "other", "write"))]
        for place in places:
            done = self.gdb("ctf load", *place, *ASKED, program=self.program)
            self.assertEqual(self.numbers(done), VISIBLE, (place, done.text))

    def test_whatever_was_asked_before(self) -> None:
        """Other types that gdb has read before make no difference."""
        done = self.gdb("ctf load", "break write", "run", "ptype holder", "ptype holder.inner",
                        *ASKED, program=self.program)
        self.assertEqual(self.numbers(done), VISIBLE, done.text)

    def test_the_others_have_a_name(self) -> None:
        done = self.gdb("ctf load", "ctf find dict", program=self.program)
        found = re.search(r"^struct (dict__\d+), 48 bytes$", done.output, re.MULTILINE)
        assert found, done.text
        self.assertIn("struct dict, 56 bytes", done.output)
        name = found[1]
        done = self.gdb("ctf load", f"ctf ptype struct {name}",
                        f"ctf print *(struct {name} *) &theirs", "break write", "run",
                        f"print sizeof(struct {name})", "print *holder.inner",
                        f"print ((struct {name} *) holder.inner)->table", "ptype holder",
                        program=self.program)
        self.assertIn("size: 48", done.output)
        self.assertIn(f"struct {name} *inner;", done.output)
        self.assertRegex(done.output, r"\{table = 3, name = 0x[0-9a-f]+ ")
        values = self.numbers(done)
        self.assertEqual((values[0], values[2]), ("48", "3"), done.text)
        self.assertIn('"three"', values[1])

    def test_bit_fields_keep_their_types(self) -> None:
        done = self.gdb("ctf load", "ptype struct own", program=self.program)
        self.assertIn("unsigned int bits : 3;", done.output)
        self.assertRegex(done.output, r"unsigned int whole( : 32)?;")

    def test_the_plug_in_s_own_commands(self) -> None:
        done = self.gdb("set ctf-debuginfo off", "ctf load", "ctf ptype struct dict",
                        "ctf whatis (struct dict *) 0", "ctf ptype word", program=self.program)
        self.assertIn("used[7]", done.output)
        self.assertIn("typedef int word", done.output)


class Others(Debuggers):
    def test_lldb(self) -> None:
        packages = ":".join(map(str, Path("/usr/lib").glob("llvm-*/lib/python3*/dist-packages")))
        around = self.around({"PYTHONPATH": packages, "PATH": f"/usr/bin:{os.environ['PATH']}"})
        self.needs("lldb")
        if "SBTarget" not in run("lldb", "-b", "-o", "script print(lldb.SBTarget)", seconds=30,
                                 environment=around).output:
            self.skipTest("lldb has no Python")
        places: List[List[str]] = [[], ["breakpoint set -n write", "run"]]
        for place in places:
            lines = [f"command script import {CLIENTS}/lldb/ctfdlldb.py",
                     f"target create {self.program}", "ctfload", *place,
                     "expression (int) sizeof(struct dict)", "expression (int) sizeof(word)",
                     "kill"]
            done = run("lldb", "-b", *[word for line in lines for word in ("-o", line)],
                       environment=around, seconds=60)
            self.assertEqual(re.findall(r"^\(int\) \$\d+ = (\d+)", done.output, re.MULTILINE),
                             ["56", "4"], (place, done.text))
            found = re.search(r"struct dict \(also (dict__\d+)\)", done.output)
            assert found, done.text
            lines[-2] = f"expression (int) sizeof(struct {found[1]})"
            done = run("lldb", "-b", *[word for line in lines for word in ("-o", line)],
                       environment=around, seconds=60)
            self.assertIn("= 48", done.output)

    def test_drgn(self) -> None:
        python = "/usr/bin/python3"
        if subprocess.run([python, "-c", "import drgn"], capture_output=True).returncode:
            self.skipTest("drgn is not here")
        code = f"""
import re, sys
sys.path.insert(0, {str(CLIENTS / "python")!r})
import ctfd, ctfd.drgn, drgn
with ctfd.open({str(self.program)!r}) as types:
    program = drgn.Program(drgn.host_platform)
    program.add_type_finder(ctfd.drgn.type_finder(program, types))
    line = ctfd.drgn.names_of_several(types)
    other = re.search(r"struct dict \\(also (dict__[0-9]+)\\)", line)[1]
    names = ("struct dict", "word", f"struct {{other}}")
    print([drgn.sizeof(program.type(name)) for name in names])
    print(program.type("struct holder"))
"""
        done = run(python, "-c", code, seconds=30, environment=self.around())
        self.assertIn("[56, 4, 48]", done.output, done.text)
        self.assertRegex(done.output, r"struct dict__\d+ \*inner;")

    def test_a_debug_file(self) -> None:
        """`ctfd-debuginfo` reports the names too, and its debug file gives any debugger the visible
        types."""
        done = run(tool("debuginfo"), self.program, self.folder / "out.debug")
        self.assertEqual(done.status, 0, done.text)
        self.assertRegex(done.output, r"struct dict \(also dict__\d+\)")
        if shutil.which("gdb"):
            words = [word for line in ASKED for word in ("-ex", line)]
            done = run("gdb", "-batch", "-nx", *words, self.folder / "out.debug", seconds=30)
            self.assertEqual(self.numbers(done), VISIBLE, done.text)
