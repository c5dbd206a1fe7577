"""An `add` or `remove` that is ended at any of its steps leaves each build complete or absent.

A step is a system call that changes the store. strace ends the command at the first of them, in
another run at the second, and so on until a run completes.
"""
from __future__ import annotations

import itertools
import os
import shutil
import signal as SIGNALS
import subprocess
from pathlib import Path
from typing import Dict, Iterator

from ..support import Word, clean, tool

from .support import BUILD_IDS, INDEX, SECONDS, SOURCE, StoreCase, build_id, contents

CALLS = ("mkdir", "mkdirat", "flock", "linkat", "renameat", "renameat2", "fsync", "unlinkat")
STAGES = ".ctfd-*"
SAME = "12345678" * 5
MENDED = "the next add"


class EndedAdds(StoreCase):
    """A store has two builds. Another file is added for one of them, together with a new build."""

    def setUp(self) -> None:
        super().setUp()
        self.needs("strace")
        probe = subprocess.run(["strace", "-o", os.devnull, "true"], capture_output=True)
        if probe.returncode != 0:
            self.skipTest("not possible here: strace may trace nothing")
        note = f"-Wl,--build-id=0x{SAME}"
        self.first = self.program("first", SOURCE, note)
        self.second = self.program("second", SOURCE + "struct more { int x; } more;", note)
        self.kept = self.program("kept", SOURCE + "int kept;")
        self.new = self.program("new", SOURCE + "int new;")
        self.later = self.program("later", SOURCE + "int later;")
        self.before = self.folder / "before"
        self.add("--executables", self.first, self.kept, store=self.before)
        self.after = self.folder / "after"
        shutil.copytree(self.before, self.after)
        self.add(self.second, self.new, store=self.after)

    def builds(self, store: Path) -> Dict[str, Dict[str, bytes]]:
        return {one.name: contents(one) for one in sorted((store / BUILD_IDS).iterdir())}

    def endings(self, signal: str, *words: Word) -> Iterator[str]:
        """Ends a command at each of its steps in turn, each time on a copy of the first store."""
        count = 0
        for call in CALLS:
            for step in itertools.count(1):
                if not self.is_ended(signal, f"{call}:signal={signal}:when={step}", *words):
                    break
                count += 1
                yield f"{call} {step}"
        self.assertGreater(count, len(CALLS))

    def is_ended(self, signal: str, injected: str, *words: Word) -> bool:
        """Whether a command gets a signal at a step; it may end before that step."""
        shutil.rmtree(self.store, ignore_errors=True)
        shutil.copytree(self.before, self.store)
        trace = self.folder / "trace"
        call, _, _ = injected.partition(":")
        done = subprocess.run(
            ["strace", "-f", "-o", trace, "-e", f"trace={call}", "-e", f"inject={injected}",
             tool("store"), *words],
            env=clean({"RAYON_NUM_THREADS": "1"}), capture_output=True, timeout=SECONDS)
        is_there = signal in trace.read_text()
        self.assertIn(done.returncode, (0, -getattr(SIGNALS, signal)) if is_there else (0,), done)
        return is_there

    def assert_each_is_whole(self, step: str) -> None:
        """Asserts that each build is as before or as it should be afterwards."""
        known = [self.builds(store) for store in (self.before, self.after)]
        for name, files in self.builds(self.store).items():
            self.assertIn(files, [one[name] for one in known if name in one], (step, name))

    def assert_mended(self, step: str) -> None:
        """Asserts that the next add, of something else, repairs the store."""
        self.add(self.later)
        self.assertEqual(list(self.store.glob(STAGES)), [], step)
        self.assert_sound()

    def test_add_is_ended(self) -> None:
        """Nothing is left behind, and the index lists what is there."""
        for step in self.endings("SIGTERM", "add", self.store, self.second, self.new):
            self.assertEqual(list(self.store.glob(STAGES)), [], step)
            self.assert_each_is_whole(step)
            self.assert_sound()

    def test_add_is_killed(self) -> None:
        for step in self.endings("SIGKILL", "add", self.store, self.second, self.new):
            self.assert_each_is_whole(step)
            for line in self.command("check", self.store).errors.splitlines():
                self.assertRegex(line, f"{MENDED}|is not the file that {INDEX} has", step)
            self.assert_mended(step)

    def test_remove_is_ended(self) -> None:
        one, other = SAME, build_id(self.kept)
        for step in self.endings("SIGTERM", "remove", self.store, one, other):
            self.assertEqual(list(self.store.glob(STAGES)), [], step)
            self.assert_each_is_whole(step)
            self.assert_sound()

    def test_remove_is_killed(self) -> None:
        one, other = SAME, build_id(self.kept)
        for step in self.endings("SIGKILL", "remove", self.store, one, other):
            self.assert_each_is_whole(step)
            self.assert_mended(step)

    def test_the_first_add_is_killed(self) -> None:
        shutil.rmtree(self.before)
        self.before.mkdir()
        shutil.rmtree(self.after)
        self.add(self.first, self.kept, store=self.after)
        (self.before / BUILD_IDS).mkdir()
        for step in self.endings("SIGKILL", "add", self.store, self.first, self.kept):
            self.assert_each_is_whole(step)
            self.assert_mended(step)

    def test_a_file_system_that_exchanges_nothing(self) -> None:
        shutil.copytree(self.before, self.store)
        done = subprocess.run(
            ["strace", "-f", "-o", os.devnull, "-e", "inject=renameat2:error=EINVAL",
             tool("store"), "add", self.store, self.second, self.new],
            env=clean(), capture_output=True, text=True, timeout=SECONDS)
        self.assertIn("1 added, 1 replaced", done.stdout, done.stderr)
        self.assertEqual(contents(self.store), contents(self.after))
        self.assert_sound()

    def test_what_runs_is_left_alone(self) -> None:
        """The folder of a running command is neither removed nor reported."""
        shutil.copytree(self.before, self.store)
        stage = self.store / ".ctfd-1-0"
        stage.mkdir()
        (stage / "owner").touch()
        self.assertIn(MENDED, self.command("check", self.store).errors)
        holder = subprocess.Popen(["flock", stage / "owner", "cat"], stdin=subprocess.PIPE,
                                  stdout=subprocess.PIPE)
        assert holder.stdin is not None and holder.stdout is not None
        holder.stdin.write(b"x\n")
        holder.stdin.flush()
        holder.stdout.readline()  # it has the lock now
        self.add(self.new)
        self.assertTrue(stage.exists())
        self.assertEqual(self.command("check", self.store).errors, "")
        holder.communicate()
        self.add(self.later)
        self.assertFalse(stage.exists())
        self.assert_sound()
