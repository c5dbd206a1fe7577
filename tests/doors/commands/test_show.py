"""ctfd-show with hostile processes, core files and programs: an answer, or one line and status
2."""
from __future__ import annotations

import os
import random
import struct
import subprocess
import time
from pathlib import Path
from typing import List, Optional

from .. import damaged
from ..support import Case, Outcome, Word, run, tool

CODE = """
#include <stdio.h>
#include <stdlib.h>
#include <unistd.h>
struct item { int number; struct item *next; char name[8]; double ratio; };
struct item last = {2, 0, "last", 0.5}, first = {1, &last, "first", 1.5};
struct item *head = &first;
unsigned counts[64] = {1, 2, 3};
const char *const text = "a constant text";
int main(int count, char **words)
{
    puts("ready"), fflush(stdout);
    if (count == 2) {
        usleep(1000 * atoi(words[1]));
        return 0;
    }
    for (;;) pause();
}
"""
ASKED = ["first", "*head->next", "head->next->name", "counts", "text", "&first", "main",
         "sizeof first + first.number * 2"]
GONE = ("<not read>", "Cannot access memory", "<cut>", "...")
CORE_CUTS, DAMAGES, FILES, SEED = 80, 150, 120, 3
PT_LOAD, WRITABLE = 1, 2


class Show(Case):
    def program(self, name: str = "program") -> Path:
        """A program with its types as CTF, and without debug information."""
        self.needs("objcopy")
        made = self.compile(CODE, "-g", name="made.exe")
        path = self.folder / name
        done = run(tool("convert"), "--lossy", "--section", made, path)
        self.assertEqual(done.status, 0, done.text)
        subprocess.run(["objcopy", "--strip-debug", str(path)], check=True)
        return path

    def start(self, path: Path, *words: str) -> "subprocess.Popen[str]":
        """Starts a program, and waits until it says that it is ready."""
        door = subprocess.Popen([str(path), *words], stdout=subprocess.PIPE, text=True)
        assert door.stdout
        self.addCleanup(door.stdout.close)
        self.addCleanup(door.wait)
        self.addCleanup(door.kill)
        self.assertEqual(door.stdout.readline(), "ready\n")
        return door

    def core_of(self, path: Path) -> Path:
        """The core file of a running program."""
        self.needs("gdb")
        door, core = self.start(path), self.folder / "core"
        subprocess.run(["gdb", "-batch", "-nx", "-p", str(door.pid), "-ex",
                        f"generate-core-file {core}"], check=True, capture_output=True)
        if not core.exists():
            self.skipTest("gdb writes no core file here")
        return core

    def ask(self, *words: Word, expressions: Optional[List[str]] = None) -> Outcome:
        done = run(tool("show"), *words, "--", *(expressions or ASKED))
        self.assert_tame(done, words)
        self.assertIn(done.status, (0, 2), done.text)
        return done

    def assert_refused(self, pattern: str, *words: Word) -> None:
        """Asserts one line of error, and status 2."""
        done = self.ask(*words, expressions=["first"])
        self.assertEqual((done.status, done.output), (2, ""), done.text)
        self.assertRegex(done.errors, rf"\Actfd-show: [^\n]*{pattern}[^\n]*\n\Z")


class Cores(Show):
    def setUp(self) -> None:
        super().setUp()
        self.path = self.program()
        self.core = self.core_of(self.path)
        self.whole = self.ask("--core", self.core)
        self.assertEqual(self.whole.status, 0, self.whole.text)

    def test_answers(self) -> None:
        lines = self.whole.output.splitlines()
        self.assertEqual(lines[1], '{number = 2, next = 0x0, name = "last\\000\\000\\000", '
                         'ratio = 0.5}')
        self.assertRegex(lines[4], r'\A0x\w+ "a constant text"\Z')
        self.assertEqual(lines[3], "{1, 2, 3, 0 <repeats 61 times>}")
        self.assertEqual(lines[7], "34")

    def judge(self, data: bytes) -> None:
        """Asserts that each answer with status 0 is the same as for the whole file, or says what is
        missing."""
        cut = self.folder / "cut"
        cut.write_bytes(data)
        done = self.ask("--core", cut)
        if done.status == 2:
            self.assertEqual(len(done.errors.splitlines()), 1, done.errors)
        for ours, whole in zip(done.output.splitlines(), self.whole.output.splitlines()):
            self.assertTrue(ours == whole or any(word in ours for word in GONE), (ours, whole))

    def test_cut(self) -> None:
        """A core file is cut at random places, and at each of its headers."""
        data = self.core.read_bytes()
        chance = random.Random(SEED)
        places = {*range(0, 1200, 40), *(chance.randrange(len(data)) for _ in range(CORE_CUTS))}
        for place in sorted(places):
            self.judge(data[:place])

    def test_damaged_headers(self) -> None:
        """With damaged headers and notes, any answer is accepted, but within time and memory."""
        data = self.core.read_bytes()
        chance = random.Random(SEED)
        for number in range(DAMAGES):
            made = bytearray(data)
            for _ in range(1 + number % 4):
                made[chance.randrange(4, 6000)] = chance.choice((0, 1, 0x7F, 0x80, 0xFF))
            damaged_core = self.folder / "damaged"
            damaged_core.write_bytes(made)
            self.ask("--core", damaged_core)

    def test_damaged_programs(self) -> None:
        """Damaged headers and sections of the program, and of a file with its types."""
        data = self.path.read_bytes()
        chance = random.Random(SEED)
        for number in range(DAMAGES):
            change = (damaged.of_headers, damaged.of_head, damaged.of_words, damaged.of_cut)
            made, _ = change[number % 4](data, chance)
            other = self.folder / "other"
            other.write_bytes(made)
            option = "--program" if number % 2 else "--types"
            self.ask("--core", self.core, option, other)

    def test_damaged_types(self) -> None:
        """Files of all forms as the source of types, which casts look up."""
        alone = self.folder / "alone"
        alone.write_bytes(struct.pack("<16sHHIQQQIHHHHHH", b"\x7fELF\2\1\1", 4, 62, 1, 0, 64, 0, 0,
                                      64, 56, 1, 64, 0, 0)
                          + struct.pack("<IIQQQQQQ", PT_LOAD, WRITABLE, 120, 4096, 0, 4096, 4096, 1)
                          + bytes(range(256)) * 16)
        folder = self.folder / "damaged_files"
        folder.mkdir()
        for path, one in damaged.write(folder, FILES, SEED):
            done = run(tool("show"), "--keep-going", "--core", alone, "--types", path, "--",
                       "*(struct witness *) 4096", "sizeof(struct witness)", "(int) 5 + 1",
                       "((struct witness *) 4096)->x", seconds=10)
            self.assert_tame(done, (path, one.what), seconds=10)
            self.assertIn(done.status, (0, 2), done.text)

    def test_symbols_past_the_end(self) -> None:
        """A symbol whose name is not in the strings is ignored; the others are found."""
        self.needs("readelf")
        data = bytearray(self.path.read_bytes())
        listed = subprocess.run(["readelf", "-SW", self.path], capture_output=True, text=True)
        line = next(one for one in listed.stdout.splitlines() if ".symtab" in one)
        at, size = (int(word, 16) for word in line.split(".symtab")[1].split()[2:4])
        for entry in range(at + 24, at + size, 48):
            data[entry:entry + 4] = struct.pack("<I", 0xFFFFFFF0)
        other = self.folder / "other"
        other.write_bytes(data)
        for name in ("first", "last", "head", "counts"):
            self.ask("--core", self.core, "--program", other, expressions=[name])


class Processes(Show):
    def test_odd_names(self) -> None:
        """Names with newlines, blanks, quotes, and the text that the kernel adds for deleted
        files."""
        path = self.program()
        for name in ("a\nname", "a b", "it's \\012 'so'", "x (deleted)", "\x1b[2J", "caf\u00e9"):
            odd = self.folder / name
            odd.write_bytes(path.read_bytes())
            odd.chmod(0o755)
            door = self.start(odd)
            done = self.ask("--pid", str(door.pid), expressions=["first.number"])
            self.assertEqual((done.status, done.output), (0, "1\n"), (name, done.text))
            odd.unlink()
            again = self.ask("--pid", str(door.pid), expressions=["first.number", "main"])
            self.assertEqual((again.status, again.output[:2]), (0, "1\n"), (name, again.text))

    def test_debug_information(self) -> None:
        """A program with the compiler's debug information is converted, and so is a deleted
        library."""
        library = self.compile("struct part { int size; } part = {7}; int of_part(void) "
                               "{ return part.size; }", "-g", "-shared", "-fPIC", name="libpart.so")
        program = self.compile(CODE, "-g", "-Wl,--no-as-needed", str(library),
                               f"-Wl,-rpath,{self.folder}", name="with.exe")
        door = self.start(program)
        for is_deleted in (False, True):
            if is_deleted:
                library.unlink()
            done = self.ask("--pid", str(door.pid),
                            expressions=["head->number", "part", "sizeof(struct part)"])
            if is_deleted and os.geteuid():
                continue  # only root may open it
            self.assertEqual((done.status, done.output), (0, "1\n{size = 7}\n4\n"), done.text)

    def test_one_that_ends(self) -> None:
        door = self.start(self.program(), "400")
        begun = time.monotonic()
        done = self.ask("--pid", str(door.pid), "--watch", "0.05", expressions=["head->number"])
        self.assertEqual((done.status, done.output), (2, "head->number = 1\n"), done.text)
        self.assertRegex(done.errors, r"\Actfd-show: process \d+ has ended\n\Z")
        self.assertLess(time.monotonic() - begun, 4)
        door.wait()
        self.assert_refused("there is no process", "--pid", str(door.pid))

    def test_what_is_no_program(self) -> None:
        """A zombie process exists, but has no memory."""
        ended = subprocess.Popen(["true"])
        self.addCleanup(ended.wait)
        time.sleep(0.3)
        self.assert_refused(f"process {ended.pid}", "--pid", str(ended.pid))
        self.assert_refused("there is no process", "--pid", "4194304")

    def test_another_users(self) -> None:
        """Root runs the command as a user who owns nothing."""
        if os.geteuid():
            self.skipTest("root alone is another user")
        door = self.start(self.program())
        words = [tool("show"), "--pid", str(door.pid), "first"]

        def nobody() -> None:
            os.setgroups([])
            os.setgid(65534)
            os.setuid(65534)

        command = self.folder / "ctfd-show"
        command.write_bytes(Path(words[0]).resolve().read_bytes())
        command.chmod(0o755)
        self.folder.chmod(0o755)
        done = subprocess.run([str(command), *words[1:]], capture_output=True, text=True,
                              preexec_fn=nobody, check=False)
        self.assertEqual((done.returncode, done.stdout), (2, ""), done.stderr)
        self.assertRegex(done.stderr, r"\Actfd-show: process \d+ may not be read: it may be read by "
                         r"its owner, [^\n]* and by root\n\Z")


class DeepValues(Show):
    def test_types_that_double(self) -> None:
        """Arrays of arrays, 60,000 structs, and 16 levels of nesting: the answer is cut."""
        levels = "".join(f"struct s{n} {{ struct s{n - 1} one[200], two[200]; }};"
                         for n in range(1, 4))
        code = CODE.replace("struct item {", "struct s0 { int x, y; };" + levels
                            + "struct item {").replace(
            "int main(", "struct s2 *many; struct s3 *most; int cube[70][70][70]; struct s1 wide[300]; int main(")
        program = self.compile(code.replace('puts("ready")',
                                            'many = calloc(1, sizeof(struct s3)), puts("ready")'),
                               "-g", name="deep.exe")
        door = self.start(program)
        for expression in ("*many", "wide", "cube", "*(struct s3 *) many", "cube[0]@70",
                           "wide[0]@300", "counts[0]@4000000000"):
            done = run(tool("show"), "--elements", "65536", "--pid", str(door.pid), expression)
            self.assert_tame(done, expression)
            self.assertEqual(done.status, 0, done.errors)
