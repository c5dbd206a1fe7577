"""Tests of `list`, `stats`, `missing` and `remove`."""
from __future__ import annotations

import os
import time

from .support import BUILD_IDS, INDEX, SOURCE, StoreCase, build_id

DAY = 24 * 60 * 60


class Keeping(StoreCase):
    def setUp(self) -> None:
        super().setUp()
        self.programs = [self.program(f"program{n}", SOURCE + f"int number{n};") for n in range(3)]
        self.ids = [build_id(program) for program in self.programs]
        self.add(*self.programs)

    def test_list(self) -> None:
        rows = self.listing()
        self.assertEqual([row["id"] for row in rows], sorted(self.ids))
        self.assertEqual({row["name"] for row in rows}, {one.name for one in self.programs})
        for row in rows:
            self.assertEqual(row["days"], 0)
            self.assertGreater(row["functions"], 1)
        text = self.command("list", self.store).output
        for one in self.ids:
            self.assertRegex(text, rf"(?m)^{one}    0 days +\d+ bytes \d+ types, \d+ objects, "
                                   r"\d+ functions program\d.exe$")

    def test_stats(self) -> None:
        lines = dict(line.split(": ") for line in
                     self.command("stats", self.store).output.splitlines())
        self.assertEqual(lines["builds"], "3")
        debug_files = sum((self.store / BUILD_IDS / one / "debuginfo").stat().st_size
                          for one in self.ids)
        self.assertEqual(int(lines["bytes of debug files"]), debug_files)
        self.assertEqual(int(lines["bytes of the originals"]),
                         sum(one.stat().st_size for one in self.programs))

    def test_missing(self) -> None:
        known, *_ = self.ids
        lines = [f'1.2.3.4 - - [29/Nov/2026] "GET /buildid/{one}/{name} HTTP/1.1" {status} 153 "-"'
                 for one, name, status in (
                     ("ab" * 20, "debuginfo", 404), ("ab" * 20, "section/.SUNW_ctf", 404),
                     ("cd" * 20, "debuginfo", 404), ("ef" * 20, "debuginfo", 200),
                     (known, "source/x.c", 404), ("zz" * 20, "debuginfo", 404),
                     ("../" * 20, "debuginfo", 404))]
        log = ("\n".join(lines) + "\n").encode() + b"\xff\x00" * 100 + b"x" * 100_000 + b"\n"
        done = self.command("missing", self.store, stdin=log)
        self.assertEqual(done.output, f"      2 {'ab' * 20}\n      1 {'cd' * 20}\n")

    def test_remove(self) -> None:
        done = self.command("remove", self.store, self.ids[0].upper())
        self.assertEqual((done.status, done.output), (0, f"{self.store}: 1 removed\n"))
        self.assertFalse((self.store / BUILD_IDS / self.ids[0]).exists())
        self.assertNotIn(self.ids[0], (self.store / INDEX).read_text())
        self.assert_sound()
        done = self.command("remove", self.store, self.ids[1], self.ids[0])
        self.assertEqual(done.status, 2)
        self.assertIn(f"has no build {self.ids[0]}", done.errors)
        self.assertEqual(len(self.listing()), 2)

    def test_remove_what_is_old(self) -> None:
        old = time.time() - 30 * DAY - 100
        for one in self.ids[:2]:
            os.utime(self.store / BUILD_IDS / one / "about", (old, old))
        self.add(self.programs[0])  # marks it as in use
        self.assertEqual(self.command("remove", self.store, "--older", "30").output,
                         f"{self.store}: 0 removed\n")
        self.assertEqual(self.command("remove", self.store, "--older=29").output,
                         f"{self.store}: 1 removed\n")
        self.assertEqual({row["id"] for row in self.listing()}, {self.ids[0], self.ids[2]})
        self.assert_sound()

    def test_words(self) -> None:
        for words in ([], ["add"], ["add", self.store], ["remove", self.store], ["nonsense"],
                      ["list"], ["remove", self.store, "--older", "x"]):
            self.assertEqual(self.command(*words).status, 2, words)
        for words in (["check"], ["list"], ["stats"], ["remove", "--older", "1"]):
            done = self.command(words[0], self.folder / "gone", *words[1:])
            self.assertIn(done.status, (0, 2), words)
