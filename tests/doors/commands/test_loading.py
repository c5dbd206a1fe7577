"""No command runs code of other users, neither from the folder in which it is started, nor from one
that another user can write to.

Each command is started in a folder with hostile files around it, which leave a mark when they are
loaded or run. What Python does before our first line is beyond our control: it imports `ctfd`
itself from the folder in which `python3 -c` was started, so these tests name the package's folder.
"""
from __future__ import annotations

import os
import shutil
import subprocess
import sys
from pathlib import Path
from typing import Dict, List, Mapping, Optional, Tuple

from ..support import (CLIENTS, COMMANDS, COMPILED, EXAMPLES, LIBRARY, SERVICE, TOOLS, Case, Outcome,
                      Word, run, tool)

PACKAGE = CLIENTS / "python"
AROUND = (".", "..", "../..", "../lib", "../bin", "../../lib", "../../bin")
LIBRARIES = ("libctfd.so", "libctfd.so.0", "libctfd_elf.so", "libctfd_elf.so.0")
PROGRAMS = ("ctfd", "pkg-config", "objcopy")
MODULES = ("ctfd", "json")
# Modules of Python that may be imported late.
LATER = ("argparse", "array", "bisect", "collections", "contextlib", "copy", "ctypes",
         "dataclasses", "difflib", "enum", "functools", "hashlib", "logging", "math", "mmap",
         "pathlib", "random", "re", "resource", "selectors", "shutil", "socket", "struct",
         "subprocess", "tempfile", "textwrap", "typing", "weakref", "pycparser")
POINT = "struct point { long x, y, z; } first; int main(void) { return 0; }"
RELATIVE = ":.:..:../bin:"
LUA = EXAMPLES / "lua.ctf"
ASKED = "struct luaL_Reg"
ANSWER = "size: 16"
PAGE = "luaL_Reg"
# Prints the names of a file's types, with the package in a given folder.
NAMES = """import sys
sys.path.insert(0, "{package}")
import ctfd
with ctfd.connect() as client:
    types = ctfd.open_file(client.session(), sys.argv[1])
    print(*(one.name for one in types.types()))
"""
CODE = f"""import sys
sys.path.insert(0, {str(PACKAGE)!r})
import ctfd
with ctfd.open({str(LUA)!r}) as types: print(ctfd.listing(types[{ASKED!r}]))

try: ctfd.build.declare("struct own {{ int a; }};")
except ctfd.Error: pass  # there is no pycparser

"""
OF_DRGN = f"""import sys
sys.path.insert(0, {str(PACKAGE)!r})
import ctfd, ctfd.drgn, drgn
program, client = drgn.Program(drgn.host_platform), ctfd.connect()
types = ctfd.open_file(client.session(), {str(LUA)!r})
program.add_type_finder(ctfd.drgn.type_finder(program, types))
print("size:", drgn.sizeof(program.type({ASKED!r})))
client.close()
"""
# The library is searched for if none is named, and the program if "" disables the library.
LOOKS_FOR = {"the library": {"CTFD": ""}, "the program": {"CTFD": "", "CTFD_LIBRARY": ""}}


class Hostile(Case):
    """A test with hostile files, which leave marks when they are run."""

    def setUp(self) -> None:
        super().setUp()
        self.needs("gcc")
        if not LIBRARY.exists():
            self.skipTest("the library is not built: `make`")
        self.marks = self.folder / "marks"
        code = ('#include <stdio.h>\n__attribute__((constructor)) static void mark(void) {'
                f'FILE *file = fopen("{self.marks}", "a");'
                'if (file) fputs("a library\\n", file), fclose(file); }')
        self.library = self.compile(code, "-shared", "-fPIC", name="hostile.so")
        self.cwd = self.folder / "evil/x/a/b"
        self.cwd.mkdir(parents=True)

    def put(self, folder: Path, modules: Mapping[str, object]) -> None:
        """Fills a folder with hostile files."""
        folder.mkdir(parents=True, exist_ok=True)
        for name in LIBRARIES:
            shutil.copy(self.library, folder / name)
        for name in PROGRAMS:
            self.program(folder / name)
        for name in modules:
            (folder / f"{name}.py").write_text(
                f"with open({str(self.marks)!r}, 'a') as file: file.write(__file__ + '\\n')\n")

    def program(self, path: Path) -> None:
        """Writes a hostile program."""
        if not path.is_dir():
            path.write_text(f'#!/bin/sh\necho "$0" >> {self.marks}\nexit 1\n')
            path.chmod(0o755)

    def around(self, *more: str) -> None:
        """Puts hostile files around the folder in which commands are started."""
        for place in AROUND:
            self.put(self.cwd / place, dict.fromkeys((*MODULES, *more)))

    def door(self, *words: Word, looks_for: str = "the library", stdin: str = "",
             environment: Optional[Mapping[str, str]] = None, seconds: float = 20) -> Outcome:
        """Runs a command in that folder."""
        around = {"PATH": RELATIVE + os.environ["PATH"], **LOOKS_FOR[looks_for],
                  "XDG_CACHE_HOME": str(self.folder / "cache"), **(environment or {})}
        return run(*words, stdin=stdin.encode(), folder=self.cwd, environment=around,
                   seconds=seconds)

    def assert_unmarked(self, done: Outcome, what: object, answer: str) -> None:
        """Asserts that nothing hostile was run, and that the command has answered."""
        marks = self.marks.read_text() if self.marks.exists() else ""
        self.marks.unlink(missing_ok=True)
        self.assertEqual(marks, "", f"{what}: {done.text}")
        self.assertIn(answer, done.text, what)


class Folder(Hostile):
    def test_gdb(self) -> None:
        self.needs("gdb")
        self.around()
        for kind in LOOKS_FOR:
            done = self.door("gdb", "-batch", "-nx", "-ex", f"source {CLIENTS}/gdb/ctfgdb.py",
                             "-ex", f"ctf load {LUA}", "-ex", f"ctf ptype {ASKED}", looks_for=kind)
            self.assert_unmarked(done, kind, ANSWER)
            done = self.door("gdb", "-batch", "-nx", "-ex",
                             f"source {os.path.relpath(CLIENTS, self.cwd)}/gdb/ctfgdb.py",
                             "-ex", f"ctf load {LUA}", "-ex", f"ctf ptype {ASKED}", looks_for=kind)
            self.assert_unmarked(done, (kind, "relative"), ANSWER)
            line = f"source {PACKAGE}/ctfd/plugin/ctfgdb.py"
            done = self.door("gdb", "-batch", "-nx", "-ex", line, "-ex", f"ctf load {LUA}",
                             "-ex", f"ctf ptype {ASKED}", looks_for=kind)
            self.assert_unmarked(done, (kind, "installed"), ANSWER)

    def test_lldb(self) -> None:
        self.needs("lldb", "objcopy")
        packages = ":".join(map(str, Path("/usr/lib").glob("llvm-*/lib/python3*/dist-packages")))
        known = {"PYTHONPATH": packages, "PATH": f"/usr/bin:{RELATIVE}{os.environ['PATH']}"}
        if "SBTarget" not in self.door("lldb", "-b", "-o", "script print(lldb.SBTarget)",
                                       environment=known).output:
            self.skipTest("lldb has no Python")
        program = self.with_types()
        self.around()
        for kind in LOOKS_FOR:
            done = self.door("lldb", "-b", "-o",
                             f"command script import {CLIENTS}/lldb/ctfdlldb.py",
                             "-o", f"target create {program}", "-o", "ctfload",
                             "-o", "expression sizeof(struct point)", looks_for=kind,
                             environment=known)
            self.assert_unmarked(done, kind, "$0 = 24")
            shutil.rmtree(self.folder / "cache")

    def with_types(self) -> Path:
        """A program with a section of types, and no debug information."""
        made = self.compile(POINT, "-g", name="whole.exe")
        subprocess.run([tool("convert"), "--section", str(made), str(made) + ".ctf"],
                       check=True, capture_output=True, env={**os.environ, "CTFD": SERVICE})
        subprocess.run(["objcopy", "-g", str(made) + ".ctf"], check=True)
        return Path(str(made) + ".ctf")

    def test_drgn(self) -> None:
        python = "/usr/bin/python3"
        if subprocess.run([python, "-c", "import drgn"], capture_output=True).returncode:
            self.skipTest("drgn is not here")
        self.around()
        waits = subprocess.Popen(["sleep", "100"])
        self.addCleanup(waits.wait)
        self.addCleanup(waits.kill)
        (self.folder / "asks.py").write_text(OF_DRGN)
        for kind in LOOKS_FOR:
            for words, stdin in (((python, "-c", OF_DRGN), ""), ((python, "-"), OF_DRGN),
                                 ((python, str(self.folder / "asks.py")), "")):
                done = self.door(*words, looks_for=kind, stdin=stdin)
                self.assert_unmarked(done, (kind, words), "size: 16")
            if shutil.which("drgn"):
                done = self.door("/usr/bin/drgn", "-q", "-p", str(waits.pid),
                                 str(self.folder / "asks.py"), looks_for=kind)
                self.assert_unmarked(done, (kind, "drgn"), "size: 16")

    def test_c(self) -> None:
        """libctfd.so loads its part for ELF files from its own folder."""
        if not LIBRARY.with_name("libctfd_elf.so.0").exists():
            self.skipTest("the part for ELF files is not built")
        types = self.with_types()
        program = self.compile(f"""
            #include <stdio.h>
            #include "{CLIENTS}/c/ctfd_libctf.h"
            int main(void)
            {{
                int error;
                ctf_file_t *types = ctf_open("{types}", &error);
                if (types == NULL)
                    return puts(ctf_errmsg(error)), 1;
                printf("%zd bytes\\n", ctf_type_size(types, ctf_lookup_by_name(types,
                                                                     "struct point")));
                ctf_close(types);
            }}""", f"-I{CLIENTS}/c", f"-L{LIBRARY.parent}", "-Wl,--no-as-needed", "-lctfd",
                               f"-Wl,-rpath,{LIBRARY.parent}", name="asks.exe")
        self.around()
        self.assert_unmarked(self.door(program), "C", "24 bytes")

    def test_python(self) -> None:
        """Python runs code from a string, from standard input, and interactively; `json` must also
        be Python's own."""
        self.around()
        for kind in LOOKS_FOR:
            for words, stdin in ((("-c", CODE), ""), (("-",), CODE), (("-i", "-q"), CODE)):
                done = self.door(sys.executable, *words, looks_for=kind, stdin=stdin)
                self.assert_unmarked(done, (kind, words), ANSWER)

    def test_modules_that_are_asked_for_late(self) -> None:
        self.around(*LATER)
        for kind in LOOKS_FOR:
            for words, stdin in ((("-c", CODE), ""), (("-",), CODE)):
                done = self.door(sys.executable, *words, looks_for=kind, stdin=stdin)
                self.assert_unmarked(done, (kind, words), ANSWER)

    def test_commands(self) -> None:
        """Each command is started by its absolute path, by a relative one, and from the PATH."""
        program = self.compile(POINT, "-g", name="whole.exe")
        self.around(*LATER)
        whole = {"PATH": f"{TOOLS}:{COMPILED}:{RELATIVE}{os.environ['PATH']}"}
        for name in COMMANDS:
            words, answer = self.question_for(name, program)
            for kind in LOOKS_FOR:
                paths: List[Word] = [tool(name), f"ctfd-{name}",
                                     os.path.relpath(tool(name), self.cwd)]
                for path in paths:
                    done = self.door(path, *words, looks_for=kind, environment=whole)
                    self.assert_unmarked(done, (name, kind, path), answer)
                    if name in ("convert", "debuginfo", "explore"):
                        (self.folder / "out").unlink()

    def question_for(self, name: str, program: Path) -> Tuple[List[Word], str]:
        """The arguments for a command, and a part of its answer."""
        out = self.folder / "out"
        waits = subprocess.Popen(["sleep", "100"]) if name == "show" else None
        if waits:
            self.addCleanup(waits.wait)
            self.addCleanup(waits.kill)
        known: Dict[str, Tuple[List[Word], str]] = {
            "convert": ([program, "--section", out], ""),
            "debuginfo": ([LUA, out], "types"),
            "diff": ([LUA, LUA], ""),
            "explore": ([LUA, "-o", out], ""),
            "front": (["--socket", self.folder / "socket", f"x={self.folder}/none"],
                      "the service ended with status"),
            "show": (["--pid", str(waits.pid if waits else 0), "first"], "has CTF"),
            "store": (["add", self.folder / "store", program], "added"),
            "types": ([LUA, ASKED], ANSWER)}
        return known[name]


class Others(Hostile):
    """Files that another user could have put there."""

    def setUp(self) -> None:
        super().setUp()
        self.clone = self.folder / "clone"
        shutil.copytree(TOOLS, self.clone / "clients/python",
                        ignore=shutil.ignore_patterns("__pycache__", "tests"))
        self.out = self.clone / "crates/ctf_c/out"
        self.built = self.clone / "crates/ctfd/out"
        for folder in (self.out, self.built):
            folder.mkdir(parents=True)
        shutil.copy(self.library, self.out / "libctfd.so")
        self.program(self.built / "ctfd")
        self.open = self.folder / "open"
        self.open.mkdir()
        self.program(self.open / "ctfd")

    def script(self, package: Path) -> Path:
        """A program that uses the package in a folder."""
        made = self.folder / "names.py"
        made.write_text(NAMES.format(package=package))
        return made

    def ask(self, kind: str, path: str) -> Outcome:
        return self.door(sys.executable, self.script(self.clone / "clients/python"), LUA,
                         looks_for=kind, environment={"PATH": path})

    def test_a_folder_that_all_may_write_to(self) -> None:
        whole = f"{Path(SERVICE).parent}:{os.environ['PATH']}"
        for mode, is_mine in ((0o777, False), (0o775, None), (0o1777, True), (0o755, True)):
            for folder in (self.out, self.built, self.open):
                folder.chmod(mode)
            if mode == 0o777:
                self.assert_unmarked(self.ask("the library", whole), oct(mode), PAGE)
                done = self.ask("the program", f"{self.open}:{whole}")
                self.assert_unmarked(done, oct(mode), PAGE)
            elif is_mine:
                self.ask("the library", whole)
                self.assertEqual(self.marks.read_text(), "a library\n", oct(mode))
                self.marks.unlink()

    def test_a_file_that_all_may_write_to(self) -> None:
        whole = f"{Path(SERVICE).parent}:{os.environ['PATH']}"
        (self.out / "libctfd.so").chmod(0o666)
        (self.open / "ctfd").chmod(0o777)
        self.assert_unmarked(self.ask("the library", whole), "the library", PAGE)
        done = self.ask("the program", f"{self.open}:{whole}")
        self.assert_unmarked(done, "the program", PAGE)

    def test_a_folder_of_another(self) -> None:
        if os.geteuid():
            self.skipTest("root alone gives folders away")
        whole = f"{Path(SERVICE).parent}:{os.environ['PATH']}"
        for folder in (self.out, self.open):
            os.chown(folder, 65533, 65533)
        self.assert_unmarked(self.ask("the library", whole), "the library", PAGE)
        done = self.ask("the program", f"{self.open}:{whole}")
        self.assert_unmarked(done, "the program", PAGE)

    def test_a_link_of_another(self) -> None:
        """A folder that all users may write to has a link to one that only its owner may write
        to."""
        whole = f"{Path(SERVICE).parent}:{os.environ['PATH']}"
        link = self.folder / "world"
        link.mkdir()
        (link / "bin").symlink_to(self.open)
        link.chmod(0o777)
        done = self.ask("the program", f"{link / 'bin'}:{whole}")
        self.assert_unmarked(done, "the program", PAGE)

    def test_what_is_above_a_clone(self) -> None:
        """A package outside a clone takes nothing from the folders above it."""
        made = self.folder / "shared/mine"
        shutil.copytree(self.clone / "clients/python", made / "tools")
        shutil.copytree(self.clone / "crates", self.folder / "shared/crates")
        done = self.door(sys.executable, self.script(made / "tools"), LUA,
                         environment={"PATH": f"{Path(SERVICE).parent}:{os.environ['PATH']}"})
        self.assert_unmarked(done, "the library", PAGE)
