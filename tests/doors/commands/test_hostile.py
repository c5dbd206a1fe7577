"""Small files that are made to take long or much memory: answered in time, or refused with a
line."""
from __future__ import annotations

import sys
from pathlib import Path
from typing import Callable, Dict, List

from ..support import TOP, Case, Outcome, run, tool

sys.path.insert(0, str(TOP / "bench"))

import hostile_files as made  # type: ignore[import-not-found]  # noqa: E402

Words = Dict[str, List[str]]
# Commands, with their arguments for each file.
CONVERT: Words = {"convert": ["{}", "{}.out"]}
ALL: Words = {
    **CONVERT, "types": ["{}"], "types sizes": ["--sizes", "{}"],
    "types contains": ["{}", "--contains", "int", "--recursive"],
    "types uses": ["{}", "--uses", "int", "--recursive"], "types c": ["--c", "{}"],
    "types one": ["{}", "int"], "types members": ["{}", "--members", "a*"],
    "types json": ["--json", "{}"], "explore": ["{}", "-o", "{}.html"],
    "debuginfo": ["{}", "{}.debug"], "diff": ["{}", "{}"], "diff all": ["--all", "{}", "{}.two"],
}
SOME = {name: ALL[name] for name in ("convert", "types", "types one", "diff all", "debuginfo")}
DEEP = {name: ALL[name] for name in ("types", "types contains", "types uses", "types c", "diff all",
                                     "explore")}


class Hostile(Case):
    def ask_each(self, make: Callable[[int], bytes], size: int, words: Words = SOME
                 ) -> "dict[str, Outcome]":
        """The outcome of each command; all must stay within time and memory."""
        path = self.folder / make.__name__
        path.write_bytes(make(size))
        Path(f"{path}.two").write_bytes(path.read_bytes())
        done = {}
        for name, listed in words.items():
            command = [tool(name.split()[0]), *(word.replace("{}", str(path)) for word in listed)]
            done[name] = run(*command, megabytes=4000)
            self.assert_tame(done[name], (make.__name__, size, name))
            if done[name].status not in (0, 4):
                self.assertIn(f"ctfd-{name.split()[0]}: ", done[name].errors)
        return done

    def assert_refused(self, done: "dict[str, Outcome]", *names: str, says: str) -> None:
        for name in names or done:
            self.assertIn(done[name].status, (1, 2), (name, done[name].text))
            self.assertRegex(done[name].errors, says, name)

    def test_typedefs_in_a_chain(self) -> None:
        for make in (made.chained_typedefs, made.chained_typedefs_of_btf):
            words = {name: one for name, one in SOME.items() if name != "debuginfo"}
            done = self.ask_each(make, 40_000, words)
            self.assert_refused(done, says="more than 512 types lead")
            self.assertEqual(self.ask_each(make, 500, CONVERT)["convert"].status, 0)

    def test_symbols_of_one_long_name(self) -> None:
        self.ask_each(made.symbols_of_one_name, 200_000)
        done = self.ask_each(made.debug_with_symbols_of_one_name, 200_000,
                             {name: SOME[name] for name in ("convert", "types", "types one")})
        self.assert_refused(done, says="more work than|names of .symtab are damaged")

    def test_labels(self) -> None:
        self.assert_refused(self.ask_each(made.unended_labels, 200_000),
                            says="more work than|damaged|BadName")
        self.ask_each(made.ended_labels, 200_000)

    def test_structs_of_two_of_the_one_before(self) -> None:
        for make in (made.doubled_structs, made.doubled_unnamed):
            for size, words in ((30, ALL), (400, DEEP)):
                done = self.ask_each(make, size, words)
                self.assertEqual(done["types"].status, 0)
                self.assert_refused(done, "types contains", says="more work|more members")
        # Ten levels are not refused: each has twice as many lines as the one before.
        done = self.ask_each(made.doubled_structs, 10, ALL)
        self.assertEqual(done["types contains"].status, 0, done["types contains"].text)
        self.assertEqual(len(done["types contains"].output.splitlines()), 2 ** 11 - 2)

    def test_units_that_overlap_in_their_abbreviations(self) -> None:
        words = {name: SOME[name] for name in ("convert", "types", "types one")}
        done = self.ask_each(made.overlapping_abbreviations, 20_000, words)
        self.assert_refused(done, says="more work than|damaged.*abbreviation code")
        self.ask_each(made.overlapping_abbreviations, 10, CONVERT)

    def test_entries_that_say_one_byte(self) -> None:
        for name, done in self.ask_each(made.entries_of_one_byte, 2_000, ALL).items():
            if name.startswith("types ") and name not in ("types uses", "types members"):
                self.assertIn(done.status, (0, 1), (name, done.text))
