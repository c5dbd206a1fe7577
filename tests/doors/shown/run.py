#!/usr/bin/env python3
"""Runs the examples in README.md and some pages of docs/, and compares their output with the pages.

usage: tests/doors/shown/run.py PROGRAM

Each block that begins with `$ ` is run, in a copy of the repository in which PROGRAM is the built
one, and the library the one that tests/doors/c_library/archive.py finds. Each block begins at the
top folder, and files in /tmp/recipe are put into a folder of this run. The program and the
commands, compiled ones too, are on the PATH, and `python3` is the Python that runs this. A line
that ends in a backslash continues in the next, and one that ends in `<< 'WORD'` up to the line
WORD. The output of a command, on both streams, must be the text below it up to the next `$ `; a
line `...` there stands for any number of lines. If there is no text below a command, it must end
with status 0. Lines that begin with `(gdb) ` are given to the gdb above them, and its output for
all of them is compared. In a block that runs gdb, hexadecimal numbers and the numbers of types and
symbols depend on the compiler, and are not compared.

Blocks that begin with `{"s":` are requests, each line followed by its reply. All of a page are
given to one service, which has examples/lua.ctf as `lua`. `..` stands for the middle of long bytes:
in a request, for those of a file or an example with the length in the reply. Blocks of Python are
run with the client, and must end with status 0 and print the text in the comments after a
`print(..)`. Blocks of C are compiled: a complete program must be one of examples/c, and others are
put into a function that has the bytes `ctf`. A picture on a page must equal the file of its name in
/tmp/recipe, as the page's blocks wrote it. Any other block is an error.

A block is not run below a line `<!-- not run: REASON -->`, or `<!-- NAME: run by tests/FOLDER -->`,
if that folder runs it. It is skipped if it needs something that is not installed, or a file that
another skipped block below the same heading would have made: a line that begins with `skipped: `
says so, or with `not possible here: ` if no package would provide it. Prints each difference, and
counts; the status is 1 if there is one.
"""
from __future__ import annotations

import difflib
import importlib.util
import json
import os
import re
import shlex
import shutil
import subprocess
import sys
import tempfile
from dataclasses import dataclass
from pathlib import Path
from typing import Iterator

TOP = Path(__file__).resolve().parents[3]
LEFT_OUT = re.compile(r"<!-- (not run: |[a-z -]+: run by tests/[\w/]+ -->)")
sys.path.insert(0, str(TOP / "scripts"))

import rust  # noqa: E402

PAGES = ("README.md", "docs/COOKBOOK.md", "docs/C.md", "docs/DUMP.md", "docs/SERVING.md")
COPIED = ("README.md", "Makefile", "HANDLES", "crates.txt", "crates", "clients", "docs", "examples",
          "tests")
RECIPE = "/tmp/recipe"
ARCHIVE = "crates/ctf_c/out/libctfd.a"
COMPILED = "clients/rust/target/release"
COMPILED_ALONE = ("ctfd-convert", "ctfd-diff", "ctfd-explore", "ctfd-types")
TOOLS = ("cc", "gcc", "gdb", "objcopy", "llvm-objcopy", "jq", "man", "rt")
# The Python package that a part of the client needs.
LIBRARIES = {"build.declare": "pycparser"}
LONGEST_SECONDS = 900
GDB = "(gdb) "
STATEMENTS = """#include <ctfd.h>
#include <stdio.h>
void shown(const uint8_t *ctf, size_t ctf_len);
void shown(const uint8_t *ctf, size_t ctf_len)
{{
    (void)ctf, (void)ctf_len;
{}}}
"""
PICTURE = re.compile(r"!\[[^\]]*\]\(([\w./-]+)\)")


@dataclass(frozen=True)
class Block:
    """A block of a page: its place, the heading above it, its language, and its lines."""

    place: str
    heading: str
    language: str
    lines: tuple[str, ...]

    @property
    def text(self) -> str:
        return "\n".join(self.lines)


def blocks(page: str) -> Iterator[Block]:
    """The blocks of a page that are run or asked."""
    lines = (TOP / page).read_text(encoding="utf-8").splitlines()
    held: list[str] | None = None
    began, language, heading = 0, "", ""
    for number, line in enumerate(lines, 1):
        if not line.startswith("```"):
            if held is not None:
                held.append(line)
            elif line.startswith("## "):
                heading = line
        elif held is None:
            held, began, language = [], number, line[3:]
        else:
            if held and not LEFT_OUT.match(lines[began - 2]):
                yield Block(f"{page}:{began}", heading, language, tuple(held))
            held = None


def commands(block: Block) -> list[tuple[str, list[str]]]:
    """Each command of a block, with the lines below it."""
    found: list[tuple[str, list[str]]] = []
    goes_on, last = False, ""
    for line in block.lines:
        if goes_on:
            found[-1] = (f"{found[-1][0]}\n{line}", [])
        elif line.startswith("$ "):
            found.append((line[2:], []))
        elif line.startswith(GDB):
            found[-1] = (told_gdb(found[-1][0], line[len(GDB):]), found[-1][1])
            continue
        else:
            found[-1][1].append(line)
            continue
        if not last:
            given = re.search(r"<< '(\w+)'$", line)
            last = given[1] if given else ""
        elif line == last:
            last = ""
        goes_on = line.endswith("\\") or last != ""
    return found


def told_gdb(command: str, line: str) -> str:
    """A command that starts gdb, with one more line for gdb, run in batch mode."""
    batch = command if " -batch " in command else command.replace("gdb ", "gdb -batch -nx ", 1)
    return f"{batch} -ex {shlex.quote(line)}"


def lacking(text: str) -> str:
    """What a block needs that is not installed, or ""."""
    for tool in TOOLS:
        named = re.search(rf"(?<![\w./-]){re.escape(tool)} ", text) is not None
        named = named or tool in ("gdb", "objcopy") and "with_ctf.sh" in text
        named = named or tool == "objcopy" and "--section" in text
        if named and not shutil.which(tool):
            return f"skipped: no {tool} here"
    for word, library in LIBRARIES.items():
        if word in text and not importlib.util.find_spec(library):
            return f"skipped: {sys.executable} has no package {library}"
    for name in COMPILED_ALONE:
        if name in text and not (rust.folder() / name).exists():
            return f"skipped: {name} is not compiled"
    if ARCHIVE in text and not Path(archive()).exists():
        return archive()
    if "-m32" in text and subprocess.run(["gcc", "-m32", "-c", "-x", "c", "/dev/null", "-o",
                                          "/dev/null"], capture_output=True).returncode:
        return "skipped: gcc -m32 makes no program here"
    if re.search(r"(?<![\w./-])gdb ", text) and not gdb_runs():
        return "not possible here: gdb runs no program"
    return ""


def archive() -> str:
    """The built library for C, or a line which says that there is none."""
    return subprocess.run([TOP / "tests/doors/c_library/archive.py", "--kept"], check=True, text=True,
                          stdout=subprocess.PIPE).stdout.strip()


def gdb_runs() -> bool:
    """Whether gdb has Python, and may run a program."""
    said = subprocess.run(["gdb", "-batch", "-nx", "-ex", "python print(1)", "-ex", "run",
                           "--args", "true"], capture_output=True, text=True).stdout
    return "exited normally" in said


def mask(line: str, has_gdb: bool) -> str:
    if has_gdb:
        line = re.sub(r"0x[0-9a-f]{4,}", "0x..", line)
        line = re.sub(r"[0-9]+ types, [0-9]+ symbols", ".. types, .. symbols", line)
    return line.rstrip()


def matches(shown: list[str], seen: list[str]) -> bool:
    """Whether the seen lines match the shown ones."""
    if not shown or not seen:
        return all(line == "..." for line in shown) and not seen
    if shown[0] == "...":
        return any(matches(shown[1:], seen[at:]) for at in range(len(seen) + 1))
    return shown[0] == seen[0] and matches(shown[1:], seen[1:])


class Page:
    """The examples of a page, run in their own folder."""

    def __init__(self, page: str, top: Path, recipe: Path) -> None:
        self.page, self.top, self.recipe = page, top, recipe
        self.compared = self.wrong = 0
        self.lacks: dict[str, str] = {}  # by heading, how a skipped block below it was reported
        path = f"{top}/crates/ctfd/out:{top}/clients/python:{top}/{COMPILED}:{os.environ['PATH']}"
        self.environment = {**os.environ, "LC_ALL": "C", "PATH": path,
                            "CTFD": f"{top}/crates/ctfd/out/ctfd"}

    def run(self) -> None:
        asked: list[str] = []
        for block in blocks(self.page):
            if block.lines[0].startswith("$ "):
                self.run_shell(block)
            elif block.language == "python":
                self.run_python(block)
            elif block.language == "c":
                self.compile_c(block)
            elif block.lines[0].startswith('{"s":'):
                asked += block.lines
            else:
                self.report(f"{block.place}: nothing runs this block", [], list(block.lines))
        if asked:
            self.ask(asked)
        for picture in PICTURE.findall((TOP / self.page).read_text(encoding="utf-8")):
            self.compare_picture((self.top / self.page).parent / picture)

    def report(self, place: str, shown: list[str], seen: list[str]) -> None:
        self.wrong += 1
        difference = difflib.unified_diff(shown, seen, "shown", "seen", lineterm="")
        print(place, *(line[:400] for line in difference), sep="\n", flush=True)

    def run_shell(self, block: Block) -> None:
        """Runs a block, and compares the output of each command."""
        why = lacking(block.text)
        if not why and block.heading in self.lacks and RECIPE in block.text:
            why = f"{self.lacks[block.heading]}: its files were not made"
        if why:
            self.lacks[block.heading] = why.split(":")[0]
            print(f"{why}, for {block.place}")
            return
        steps = commands(block)
        for (command, shown), (status, seen) in zip(steps, self.outputs(steps)):
            has_gdb = re.search(r"(?<![\w./-])gdb ", block.text) is not None
            shown, seen = ([mask(line, has_gdb) for line in lines] for lines in (shown, seen))
            self.compared += 1
            if not (matches(shown, seen) if shown else status == 0):
                self.report(f"{block.place}: $ {command}", shown, [*seen, f"status {status}"])

    def run_python(self, block: Block) -> None:
        """Runs a block of Python with the client."""
        words = {**self.environment, "PYTHONPATH": f"{self.top}/clients/python"}
        text = block.text.replace(RECIPE, str(self.recipe))
        ended = subprocess.run([sys.executable, "-c", text], cwd=self.top, env=words,
                               capture_output=True, text=True, timeout=LONGEST_SECONDS, check=False)
        shown, seen = re.findall(r"print\(.*  # (.*)", block.text), ended.stdout.splitlines()
        self.compared += 1
        if ended.returncode != 0 or (shown and shown != seen):
            self.report(block.place, shown, [*seen, *ended.stderr.splitlines()])

    def compile_c(self, block: Block) -> None:
        """Compiles a block of C, and compares a complete program with those of the examples."""
        if not shutil.which("cc"):
            print(f"skipped: no cc here, for {block.place}")
            return
        text = f"{block.text}\n"
        if "int main(" not in text:
            text = STATEMENTS.format(text)
        elif text not in [it.read_text("utf-8") for it in self.top.glob("examples/c/*.c")]:
            self.report(f"{block.place}: this program is none of examples/c", [], [])
        ended = subprocess.run(["cc", "-std=c11", "-Wall", "-Wextra", "-Werror", "-fsyntax-only",
                                "-I", "clients/c", "-x", "c", "-"], cwd=self.top, input=text,
                               capture_output=True, text=True, check=False)
        self.compared += 1
        if ended.returncode != 0:
            self.report(block.place, [], ended.stderr.splitlines())

    def compare_picture(self, picture: Path) -> None:
        """Compares a picture on the page with the one that a block wrote."""
        written = self.recipe / picture.name
        self.compared += 1
        if not written.exists() or written.read_bytes() != picture.read_bytes():
            self.report(f"{self.page}: {picture.name} is not what a block wrote", [], [])

    def outputs(self, steps: list[tuple[str, list[str]]]) -> list[tuple[int, list[str]]]:
        """The status of each command, and the lines that it prints."""
        with tempfile.TemporaryDirectory() as folder:
            script = "".join(f"{{\n{command}\n}} > {folder}/{number} 2>&1 < /dev/null\n"
                             f"echo $? > {folder}/{number}.status\n"
                             for number, (command, _) in enumerate(steps))
            script = script.replace(RECIPE, str(self.recipe))
            subprocess.run(["bash", "-c", script], cwd=self.top, env=self.environment,
                           timeout=LONGEST_SECONDS, check=False)
            return [self.output(Path(folder) / str(number)) for number in range(len(steps))]

    def output(self, file: Path) -> tuple[int, list[str]]:
        status = Path(f"{file}.status")
        if not status.exists():
            return -1, ["not run"]
        said = file.read_text(encoding="utf-8", errors="replace").replace(str(self.recipe), RECIPE)
        return int(status.read_text()), said.splitlines()

    def ask(self, lines: list[str]) -> None:
        """Gives all requests of a page to a service, and compares the replies."""
        requests, wanted = lines[0::2], lines[1::2]
        given, gone = [], set()
        for number, (request, reply) in enumerate(zip(requests, wanted)):
            whole = self.in_full(request, reply)
            if whole is None:
                gone.add(json.loads(request)["s"])
                print(f"skipped: no such bytes here: {request}")
            given.append(whole or request)
        ended = subprocess.run([self.environment["CTFD"], "serve", "lua=examples/lua.ctf"],
                               cwd=self.top, input="".join(f"{line}\n" for line in given),
                               capture_output=True, text=True, timeout=LONGEST_SECONDS, check=False)
        seen = ended.stdout.splitlines()
        for request, shown, reply in zip(requests, wanted, [*seen, *[""] * len(wanted)]):
            if json.loads(request)["s"] in gone:
                continue
            self.compared += 1
            pattern = re.escape(shown).replace(re.escape(".."), "[0-9a-f]*")
            if not re.fullmatch(pattern, reply):
                self.report(f"{self.page}: {request[:200]}", [shown], [reply])

    def in_full(self, request: str, reply: str) -> str | None:
        """A request with its bytes in full, or None if they are unknown."""
        cut = re.search(r'"bytes":"([0-9a-f]+)\.\.([0-9a-f]+)"', request)
        if not cut:
            return request
        length = json.loads(reply)["ok"]["length"]
        for known in self.known_bytes():
            if len(known) == 2 * length and known.startswith(cut[1]) and known.endswith(cut[2]):
                return request.replace(cut[0], f'"bytes":"{known}"')
        return None

    def known_bytes(self) -> Iterator[str]:
        """The bytes of all files and of all examples, in hexadecimal digits."""
        for folder in (self.top / "examples", self.recipe):
            for file in sorted(folder.glob("*")):
                if file.suffix in (".ctf", ".sym", ".str"):
                    yield file.read_bytes().hex()
        for file in sorted((self.top / "examples").glob("*.jsonl")):
            yield from re.findall(r'"bytes":"([0-9a-f]+)"', file.read_text(encoding="ascii"))


def copy_repository(program: str, top: Path) -> None:
    """A copy of the repository; of the build output, it has only the program and the archive."""
    for name in COPIED:
        if (TOP / name).is_dir():
            shutil.copytree(TOP / name, top / name, symlinks=True,
                            ignore=shutil.ignore_patterns("out", "target", "__pycache__"))
        elif (TOP / name).exists():
            shutil.copy(TOP / name, top / name)
    out = top / "crates" / "ctfd" / "out"
    out.mkdir()
    (out / "ctfd").symlink_to(Path(program).resolve())
    if Path(archive()).exists():
        (top / ARCHIVE).parent.mkdir()
        (top / ARCHIVE).symlink_to(archive())
    (top / COMPILED).mkdir(parents=True)
    for command in rust.COMMANDS:
        if (rust.folder() / command).exists() and command not in os.listdir(top / "clients/python"):
            (top / COMPILED / command).symlink_to(rust.folder() / command)
    python = out / "python3"  # not a link: a Python finds its packages by its own path
    python.write_text(f'#!/bin/sh\nexec "{sys.executable}" "$@"\n')
    python.chmod(0o755)


def main(program: str) -> int:
    compared = wrong = 0
    for name in PAGES:
        with tempfile.TemporaryDirectory() as work:
            top, recipe = Path(work) / "top", Path(work) / "recipe"
            top.mkdir()
            recipe.mkdir()
            copy_repository(program, top)
            page = Page(name, top, recipe)
            page.run()
            compared, wrong = compared + page.compared, wrong + page.wrong
    print(f"shown: {compared} compared on {len(PAGES)} pages, {wrong} are otherwise")
    return 1 if wrong or not compared else 0


if __name__ == "__main__":
    sys.exit(main(sys.argv[1]) if len(sys.argv) == 2 else __doc__)
