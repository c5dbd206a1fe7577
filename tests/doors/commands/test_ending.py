"""How the commands end: interrupted at any time, with standard output closed, full or not read.

No user sees a Python traceback, and a shell sees the usual status.
"""
from __future__ import annotations

import os
import shlex
import signal
import subprocess
import time
from typing import Dict, List

from ..support import COMMANDS, EXAMPLES, TOOLS, Case, Outcome, Word, clean, run, tool

LUA = EXAMPLES / "lua.ctf"
LIMIT = 20
CODE = "struct point { long x, y, z; } first; int main(void) { return 0; }"


def heeds_interrupts() -> None:
    """Restores SIGINT's default action, which may be ignored where these tests run."""
    signal.signal(signal.SIGINT, signal.SIG_DFL)


class Ending(Case):
    def setUp(self) -> None:
        super().setUp()
        self.program = self.compile(CODE, "-g", name="whole.exe")

    def around(self) -> Dict[str, str]:
        return {"XDG_CACHE_HOME": str(self.folder / "cache"), "PYTHONUNBUFFERED": ""}

    def questions(self) -> Dict[str, List[Word]]:
        """Arguments for each command except the front."""
        out = self.folder / "out"
        return {"convert": [self.program, out], "debuginfo": [LUA, out], "diff": [LUA, LUA],
                "explore": [LUA, "-o", out], "show": ["--pid", str(os.getpid()), "first"],
                "types": [LUA]}

    def printing(self) -> Dict[str, List[Word]]:
        """Arguments with which those commands print something."""
        listed = {**self.questions()}
        listed["convert"] = [self.program, "-"]
        del listed["show"]
        return listed

    def shell(self, end: str, *words: Word) -> Outcome:
        """Runs a command in a shell, with a redirection at the end."""
        line = " ".join(shlex.quote(str(word)) for word in words)
        return run("bash", "-c", f"{line} {end}", environment=self.around(), seconds=LIMIT)


class Interrupts(Ending):
    def test_at_any_time(self) -> None:
        """A command or the front, interrupted at any time from its start, prints no traceback."""
        front: List[Word] = ["--socket", self.folder / "socket", f"lua={LUA}"]
        listed: Dict[str, List[Word]] = {**self.questions(), "front": front}
        for name, words in listed.items():
            for wait in (0.03, 0.06, 0.1, 0.15, 0.25, 0.5):
                status, errors = self.interrupt(wait, tool(name), *words)
                ours = [line for line in errors.splitlines() if str(TOOLS) in line]
                self.assertEqual(ours, [], (name, wait, errors))
                self.assertIn(status, (0, 1, 2, 130, -signal.SIGINT), (name, wait, errors))

    def interrupt(self, wait: float, *words: Word) -> "tuple[int, str]":
        """The status and messages of a command that gets SIGINT after `wait` seconds."""
        door = subprocess.Popen([str(word) for word in words], stdout=subprocess.DEVNULL,
                                stderr=subprocess.PIPE, env=clean(self.around()), text=True,
                                preexec_fn=heeds_interrupts)
        time.sleep(wait)
        door.send_signal(signal.SIGINT)
        _, errors = door.communicate(timeout=20)
        return door.returncode, errors

    def test_a_command_that_runs(self) -> None:
        """A command interrupted as it reads ends with 130 or by SIGINT, and prints nothing."""
        pipe = self.folder / "pipe"
        os.mkfifo(pipe)
        listed: Dict[str, List[Word]] = {
            "types": [pipe], "diff": [pipe, LUA], "convert": [pipe, "-"],
            "debuginfo": [pipe, self.folder / "out"]}
        for name, words in listed.items():
            door = subprocess.Popen([tool(name), *map(str, words)], stdout=subprocess.DEVNULL,
                                    stderr=subprocess.PIPE, env=clean(self.around()), text=True,
                                    preexec_fn=heeds_interrupts)
            with open(pipe, "wb"):
                door.send_signal(signal.SIGINT)
                _, errors = door.communicate(timeout=20)
            self.assertIn(door.returncode, (130, -signal.SIGINT), (name, errors))
            self.assertEqual(errors, "", name)


class Output(Ending):
    def test_closed(self) -> None:
        for name, words in self.questions().items():
            done = self.shell(">&-", tool(name), *words)
            self.assert_tame(done, name, seconds=LIMIT)
            self.assertIn(done.status, (1, 2), (name, done.text))
            self.assertRegex(done.errors, rf"\Actfd-{name}: standard output is closed[^\n]*\n\Z")
            self.assertFalse((self.folder / "out").exists(), name)

    def test_closed_errors(self) -> None:
        """An error message is written neither to the output nor to a file."""
        for name in self.questions():
            words: List[Word] = [self.folder / "none", self.folder / "none"]
            done = self.shell("2>&-", tool(name), *(["--core"] if name == "show" else []), *words)
            self.assert_tame(done, name, seconds=LIMIT)
            self.assertNotIn("none", done.output, name)

    def test_closed_with_help(self) -> None:
        for name in COMMANDS:
            self.assert_tame(self.shell(">&-", tool(name), "--help"), name, seconds=LIMIT)

    def test_full(self) -> None:
        for name, words in self.printing().items():
            done = self.shell("> /dev/full", tool(name), *words)
            self.assert_tame(done, name, seconds=LIMIT)
            if "No space" in done.errors:
                self.assertIn((done.status, done.errors.count("\n")), ((1, 1), (2, 1)),
                              (name, done.text))
        for name in COMMANDS:
            for word in ("--help", "--version"):
                done = self.shell("> /dev/full", tool(name), word)
                self.assert_tame(done, name, seconds=LIMIT)
                self.assertNotIn("Exception", done.errors, name)

    def test_a_reader_that_leaves(self) -> None:
        """Whether the reader leaves at once or after the first line, nothing is printed, and the
        status is SIGPIPE's."""
        for name, words in self.printing().items():
            for reader in ("true", "head -1"):
                done = self.shell(f"| {reader} > /dev/null; exit ${{PIPESTATUS[0]}}", tool(name),
                                  *words)
                self.assert_tame(done, (name, reader), seconds=LIMIT)
                self.assertEqual(done.errors, "", (name, reader))
                self.assertIn(done.status, (0, 141), (name, reader))
        for name in COMMANDS:
            for word in ("--help", "--version"):
                done = self.shell("| true; exit ${PIPESTATUS[0]}", tool(name), word)
                self.assert_tame(done, name, seconds=LIMIT)
                self.assertEqual(done.errors, "", name)
                self.assertIn(done.status, (0, 141), name)
