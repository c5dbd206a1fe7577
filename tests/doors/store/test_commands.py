"""The commands besides ctfd-types, and the Python package, use a store in place of debug
information."""
from __future__ import annotations

import os
import re
import sys
from pathlib import Path
from typing import Tuple

from ..support import TOP, Outcome, tool

from .support import BUILD_IDS, SOURCE, StoreCase, build_id, run

ABSENT = "ab" * 20
OPENS = """
import sys
import ctfd
with ctfd.open(sys.argv[1]) as types:
    print(*(f"{member.name} {member.offset}" for member in types.find("struct packet").members))
"""

# gdb's messages when it begins to look for a program's threads.
THREADS = re.compile(r"^(\[Thread debugging|Using host libthread_db).*\n", re.MULTILINE)


def split_output(output: str) -> Tuple[str, str]:
    """gdb's output before a line of three dashes, and after it."""
    before, _, behind = output.partition("---\n")
    return before, THREADS.sub("", behind)


class Commands(StoreCase):
    def setUp(self) -> None:
        super().setUp()
        changed = SOURCE.replace("short port;", "int port; short more;")
        programs = [self.program("old"), self.program("new", changed)]
        self.old, self.new = (self.split(program)[0] for program in programs)
        self.add(*programs)

    def test_diff(self) -> None:
        done = run(tool("diff"), "--store", self.store, self.old, self.new)
        self.assertEqual(done.errors, "")
        self.assertIn("more added at 20", done.output)

    def test_explore(self) -> None:
        page = self.folder / "page.html"
        done = run(tool("explore"), "--store", self.store, "-o", page, self.new)
        self.assertEqual(done.status, 0, done.text)
        self.assertIn("packet", page.read_text(encoding="utf-8"))

    def gdb(self, *lines: str, **environment: str) -> Outcome:
        """gdb's output about the stripped program, with the plug-in."""
        self.needs("gdb")
        lines = (f"source {TOP / 'clients/gdb/ctfgdb.py'}", *lines)
        return run("gdb", "-batch", "-nx", *(word for line in lines for word in ("-ex", line)),
                   self.new, environment={"XDG_CACHE_HOME": str(self.folder / "cache"),
                                          **environment})

    def test_the_plug_in_of_gdb(self) -> None:
        lines = ("ctf load", "ctf print shade")
        self.assertIn("GREEN", self.gdb(*lines, CTFD_STORE=str(self.store)).output)
        self.assertNotIn("GREEN", self.gdb(*lines).output)

    def test_gdbs_own_commands(self) -> None:
        """gdb's own commands show the same types as with the debug file in the store."""
        lines = ("echo ---\\n", "ptype struct packet", "print shade", "whatis weigh", "print sizeof(first)",
                 "info line weigh", "break weigh if arg1 == 5", "run", "print arg1",
                 "print *arg0", "bt 1")
        there = self.store / BUILD_IDS / build_id(self.new) / "debuginfo"
        told = self.gdb(f"symbol-file {there}", *lines)
        _, wanted = split_output(told.output)
        self.assertIn("$1 = GREEN", wanted, told.errors)
        told = self.gdb("ctf load", *lines, CTFD_STORE=str(self.store))
        said, printed = split_output(told.output)
        self.assertIn("gdb's own commands know these types too: ", said, told.errors)
        self.assertRegex(printed, r"short(?: int)? more;")
        self.assertEqual(printed, wanted)
        told = self.gdb("set ctf-debuginfo off", "ctf load", *lines, CTFD_STORE=str(self.store))
        self.assertNotIn("GREEN", told.output)

    def test_lldbs_own_commands(self) -> None:
        self.needs("lldb")
        packages = ":".join(map(str, Path("/usr/lib").glob("llvm-*/lib/python3*/dist-packages")))
        around = {"PYTHONPATH": packages, "PATH": f"/usr/bin:{os.environ['PATH']}",
                  "CTFD_STORE": str(self.store), "XDG_CACHE_HOME": str(self.folder / "cache")}
        if "SBTarget" not in run("lldb", "-b", "-o", "script print(lldb.SBTarget)",
                                 environment=around).output:
            self.skipTest("lldb has no Python")
        lines = (f"command script import {TOP / 'clients/lldb/ctfdlldb.py'}",
                 f"target create {self.new}", "ctfload", "print shade", "type lookup packet")
        words = [word for line in lines for word in ("-o", line)]
        done = run("lldb", "-b", *words, environment=around)
        self.assertIn("= GREEN", done.output, done.errors)
        self.assertIn("short more", done.output)

    def test_a_debug_file_is_made_here(self) -> None:
        """Debug files for debuggers are written here, from a dictionary that the library
        accepted."""
        made = self.folder / "made.debug"
        for words in (("--store", self.store), ()):
            done = run(tool("debuginfo"), *words, self.new, made,
                       environment={} if words else {"CTFD_STORE": str(self.store)})
            self.assertEqual((done.status, done.errors), (0, ""))
            self.assertRegex(done.output, r"types, 2 objects, 2 functions$")
            self.assertEqual(build_id(made), build_id(self.new))
        done = run(tool("debuginfo"), self.new, made)
        self.assertEqual(done.status, 2)
        self.assertIn("without .SUNW_ctf", done.errors)

    def test_fetch(self) -> None:
        for word in (self.new, build_id(self.new), build_id(self.new).upper()):
            made = self.folder / "made"
            done = self.command("fetch", word, made, environment={"CTFD_STORE": str(self.store)})
            self.assertEqual((done.status, done.text), (0, ""))
            told = run(tool("types"), made, "weigh").output
            self.assertEqual(told, "int weigh(struct packet *, int);\n")
            made.unlink()
        for words, status, why in (
                ((ABSENT, made), 1, f"{ABSENT}: no store has this build"),
                ((self.folder / "new.c", made), 2, "neither a build-id nor an ELF file"),
                ((self.folder / "gone", made), 2, "No such file"),
                ((self.new, self.new), 2, "it is an input"),
                ((self.new, self.folder), 2, "is a directory")):
            done = self.command("fetch", "--store", self.store, *words)
            self.assertEqual(done.status, status, done.text)
            self.assertIn(why, done.errors)
            self.assertFalse(made.exists())
        done = self.command("fetch", self.new, made)
        self.assertEqual(done.errors, "ctfd-store: name a store by CTFD_STORE or --store\n")

    def test_without_a_store(self) -> None:
        for name in ("diff", "explore"):
            done = run(tool(name), self.old, *([self.new] if name == "diff" else []))
            self.assertNotEqual(done.status, 0)
            self.assertIn("no debug information", done.errors)

    def test_python(self) -> None:
        words = {"PYTHONPATH": str(TOP / "clients" / "python"),
                 "XDG_CACHE_HOME": str(self.folder / "cache")}
        asked = (sys.executable, "-c", OPENS, self.new)
        done = run(*asked, environment={**words, "CTFD_STORE": str(self.store)})
        self.assertEqual((done.output, done.errors), ("kind 0 next 64 port 128 more 160\n", ""))
        self.assertNotEqual(run(*asked, environment=words).status, 0)
