"""Tests of `ctfd-types`: it prints C that a compiler lays out the same way, in bounded time."""
from __future__ import annotations

import subprocess
from pathlib import Path

from .. import writers as w
from ..support import Case, run, tool

# A tag that is a forward in one file, and has a definition in each of two others.
LISTS = {
    "one.c": "struct list { unsigned length; void *nodes; };\n"
             "struct list first; unsigned size_one = sizeof(struct list);\n",
    "two.c": "struct node { int n; };\n"
             "struct list { unsigned length, room; struct node *nodes; };\n"
             "struct list second; enum kind { A, B }; enum kind kind;\n",
    "three.c": "struct list; struct user { struct list *held; enum kind *kind; } user;\n"
               "union list_of { struct user user; } of;\n",
    "main.c": "int main(void) { return 0; }\n",
}


class Names(Case):
    def test_a_long_name_that_many_types_share(self) -> None:
        """12 GB of names, if each is printed: one is printed, and a listing of all is refused."""
        types = [w.record(9, w.STRUCT, 1, 4, w.member(1, 1, 0)) for _ in range(30_000)]
        names = b"\0int\0ab\0\0" + b"s" * 400_000 + b"\0"
        path = self.folder / "shared.ctf"
        path.write_bytes(w.ctf(b"".join([w.record(1, w.INTEGER, 0, 4, w.INT), *types]), names))
        for words in (("--sizes",), ("--c",), ("--json",), ("--reorganize",), ("--svg-sizes",),
                      ("--holes", "1"), ("--members", "int"), ("--contains", "int"),
                      ("--uses", "int"), ("--functions", "int"), ("--complete", "s")):
            done = run(tool("types"), *words, path)
            self.assert_tame(done, words)
            self.assertEqual((done.status, done.output), (1, ""), done.text)
            self.assertRegex(done.errors, "its names share their bytes")
        for words in ((), ("--number", "2")):
            done = run(tool("types"), *words, path)
            self.assert_tame(done, words)
            self.assertEqual((done.status, done.errors), (0, ""))

    def test_a_name_without_its_word_is_offered(self) -> None:
        self.needs("gcc")
        made = self.compile("struct packet { int length; } p; enum color { RED } c;", "-g", "-c")
        for words, near in (("pakcet", "struct packet"), ("struct pakcet", "struct packet"),
                            ("colour", "enum color")):
            done = run(tool("types"), made, words)
            self.assertEqual(done.status, 1, done.text)
            self.assertIn(f"; did you mean {near}?", done.errors)


class Compilable(Case):
    def link(self, codes: "dict[str, str]") -> Path:
        """A program of several files, with debug information."""
        self.needs("gcc")
        for name, code in codes.items():
            (self.folder / name).write_text(code)
        subprocess.run(["gcc", "-g", "-w", "-o", "made", *codes], cwd=self.folder, check=True)
        return self.folder / "made"

    def assert_compiles(self, text: str) -> None:
        done = subprocess.run(["gcc", "-fsyntax-only", "-x", "c", "-"], input=text, text=True,
                              capture_output=True)
        self.assertEqual(done.returncode, 0, f"{done.stderr}\n{text}")

    def test_a_forward_and_two_definitions(self) -> None:
        for names in (LISTS, dict(reversed(LISTS.items()))):
            made = run(tool("types"), "--c", self.link(names))
            self.assertEqual(made.status, 0, made.text)
            self.assert_compiles(made.output + "_Static_assert(sizeof(struct user) == 16, \"\");\n")
            tags = [line for line in made.output.splitlines() if line.startswith("struct list")
                    and line.endswith("{")]
            self.assertEqual(len(tags), 2, made.output)
            self.assertIn("struct list {", tags)
