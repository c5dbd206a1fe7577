"""`ctfd-diff` as a check of releases: the exports of a library, and the types that they use.

abidiff, if installed, gets each change too: if it reports a change, so does `ctfd-diff`, and if it
calls the change incompatible, `ctfd-diff` says that it breaks.
"""
import json
import random
import shutil
import subprocess
import tempfile
import unittest
from pathlib import Path
from typing import List, NamedTuple

from .elf import sections
from .support import compiles
from .tools import CONVERTS, WHY_NOT, command

CODE = """
typedef unsigned int word;
enum color { RED, GREEN, BLUE };
struct inner { int a; long b; };
struct node {
  char tag; int key; struct inner in; struct node *next; enum color color;
  unsigned low : 3, high : 5; char name[16]; word flags; int (*hook)(int); const char *text;
};
union both { int i; long l; };
struct far { short a, b; };
struct near { struct far *far; };
struct opaque;
struct hidden { int q; };
static struct hidden hidden;
struct node first; union both both; int total;
int find(struct node *n, int key) { return n->key == key; }
long scale(word by, unsigned long bytes) { return by * (long)bytes; }
void walk(struct near *start, int (*each)(struct opaque *, char *))
{ each(0, 0); start->far->a = 1; }
void gone(void) { hidden.q = total; }
static int helper(struct hidden *h) { return h->q; }
int used(void) { return helper(&hidden); }
"""


class Change(NamedTuple):
    """A change to the code, and the expected status; `says` is a part of the output."""

    kind: str
    old: str
    new: str
    status: int
    says: str = ""


MADE = (
    Change("a member added at the end", "const char *text;", "const char *text; int more;", 4,
           "struct node: size 80 -> 88; more added at 80"),
    Change("a member added in a hole", "char tag; int key;", "char tag; char more; int key;", 1,
           "struct node: more added at 1"),
    Change("members moved", "short a, b;", "short b, a;", 4,
           "struct far: a moved from 0 to 2; b moved from 2 to 0\n"
           "    walk: takes struct near *, whose member far is struct far *"),
    Change("a member removed", "short a, b;", "short a;", 4, "struct far: size 4 -> 2; b removed"),
    Change("a member wider", "int a; long b;", "long a; long b;", 4, "a is long int, was int"),
    Change("a member's sign", "short a, b;", "short a; unsigned short b;", 4,
           "b is short unsigned int, was short int"),
    Change("a member renamed", "short a, b;", "short a, c;", 1, "struct far: b renamed c"),
    Change("an enumerator added", "BLUE }", "BLUE, BLACK }", 1, "enum color: BLACK = 3 added"),
    Change("an enumerator's value", "GREEN,", "GREEN = 5,", 4, "GREEN 1 -> 5; BLUE 2 -> 6"),
    Change("an enumerator removed", "BLUE }", "}", 4, "enum color: BLUE removed"),
    Change("an argument's type", "word by", "long by", 4, "function scale: argument 1 is long int"),
    Change("an argument added", "(void) { hidden", "(int n) { hidden", 4,
           "function gone: takes 1 arguments, took 0"),
    Change("what is returned", "long scale", "int scale", 4,
           "function scale: what it returns is int"),
    Change("a typedef of another", "typedef unsigned int word", "typedef unsigned long word", 4,
           "argument 1: word changed from unsigned int to long unsigned int"),
    Change("a typedef renamed", "word", "wide", 0),
    Change("a base type spelled otherwise", "unsigned long bytes", "long unsigned int bytes", 0),
    Change("a bit-field wider", "low : 3, high : 5", "low : 4, high : 5", 4,
           "low 3 bits -> 4 bits"),
    Change("a bit-field moved", "low : 3, high : 5", "high : 5, low : 3", 4,
           "low moved from 36 to 36:5; high moved from 36:3 to 36"),
    Change("an alignment", "struct inner {", "struct __attribute__((aligned(64))) inner {", 4,
           "struct inner: size 16 -> 64"),
    Change("packed", "struct inner {", "struct __attribute__((packed)) inner {", 4,
           "struct inner: size 16 -> 12; b moved from 8 to 4"),
    Change("an array's length", "name[16]", "name[24]", 4, "name is char [24], was char [16]"),
    Change("static alone", "struct hidden { int q; }", "struct hidden { long q, r; }", 0),
    Change("a function removed", "void gone(void) { hidden.q = total; }", "", 4,
           "function gone: removed"),
    Change("a function made static", "void gone(void)",
           "static __attribute__((used)) void gone(void)",
           4, "function gone: removed"),
    Change("a function hidden", "void gone(void)",
           "__attribute__((visibility(\"hidden\"))) void gone(void)", 4, "function gone: removed"),
    Change("a function added", "void gone(void)", "void come(void) {}\nvoid gone(void)", 1,
           "function come: added"),
    Change("an object's type", "int total;", "long total;", 4, "object total: it is long int"),
    Change("a pointer to const", "int (*each)(struct opaque *, char *)",
           "int (*each)(struct opaque *, const char *)", 1, "argument 2 is const char *"),
    Change("a callback's argument", "int (*hook)(int)", "int (*hook)(long)", 4,
           "argument 1 is long int, was int"),
    Change("a union's member", "long l;", "long l[2];", 4, "union both: size 8 -> 16"),
    Change("a pointer's target", "struct far *far;", "struct inner *far;", 4, "a wider"),
)


@unittest.skipUnless(CONVERTS and compiles("-shared", "-fPIC"), WHY_NOT)
class Guard(unittest.TestCase):
    folder: str
    old: str

    @classmethod
    def setUpClass(cls) -> None:
        cls.folder = tempfile.mkdtemp()
        cls.addClassCleanup(shutil.rmtree, cls.folder)
        cls.old = cls.library("old", CODE)

    @classmethod
    def library(cls, name: str, code: str, *options: str) -> str:
        source, made = Path(cls.folder, f"{name}.c"), f"{cls.folder}/lib{name}.so"
        source.write_text(code)
        subprocess.run(["gcc", "-g", "-fPIC", "-shared", *options, str(source), "-o", made],
                       check=True)
        return made

    def output(self, *words: str, status: int) -> List[str]:
        done = command("ctfd-diff", "--no-cache", *words)
        self.assertEqual((done.returncode, done.stderr), (status, ""), done.stdout)
        return done.stdout.splitlines()

    def change_code(self, made: Change) -> str:
        assert made.old in CODE, made.kind
        name = made.kind.replace(" ", "-").replace("'", "")
        done = f"{self.folder}/lib{name}.so"
        return done if Path(done).exists() else self.library(
            name, CODE.replace(made.old, made.new))

    def test_each_made_change(self) -> None:
        for made in MADE:
            with self.subTest(made.kind):
                new = self.change_code(made)
                told = "\n".join(self.output(self.old, new, status=made.status))
                if made.kind == "a pointer's target":
                    self.assertIn("struct far", told)
                else:
                    self.assertIn(made.says, told)

    @unittest.skipUnless(shutil.which("abidiff"), "no abidiff here")
    def test_abidiff_tells_no_more(self) -> None:
        """abidiff reports no more: its status has bit 4 for a change, 8 for an incompatible one."""
        for made in MADE:
            with self.subTest(made.kind):
                theirs = subprocess.run(["abidiff", self.old, self.change_code(made)],
                                        capture_output=True).returncode
                self.assertEqual(theirs & 3, 0)
                self.assertFalse(theirs & 4 and made.status == 0)
                self.assertFalse(theirs & 8 and made.status != 4)

    def test_static_ones_are_told_with_all(self) -> None:
        new = self.change_code(next(one for one in MADE if one.kind == "static alone"))
        self.assertIn("struct hidden: size 4 -> 16; q is long int, was int; r added at 8",
                      self.output("--all", self.old, new, status=4))

    def test_the_same_by_another_compiler_and_optimised(self) -> None:
        self.output(self.old, self.library("fast", CODE, "-O2", "-flto"), status=0)
        if shutil.which("clang"):
            made = f"{self.folder}/clang.so"
            subprocess.run(["clang", "-g", "-fPIC", "-shared", f"{self.folder}/old.c", "-o", made],
                           check=True)
            self.output(self.old, made, status=0)
            self.output(made, self.old, status=0)

    def test_what_is_suppressed(self) -> None:
        new = self.library("new", CODE.replace("short a, b;", "short b, a;")
                           .replace("int total;", "long total;"))
        listed = Path(self.folder, "listed")
        self.assertEqual(len(self.output(self.old, new, status=4)), 3)
        listed.write_text("# known\nstruct fa*\n")
        self.assertEqual(self.output("--suppress", str(listed), self.old, new, status=4),
                         ["object total: it is long int, was int"])
        listed.write_text("total # an object\nfunction walk\n")
        self.output("--suppress", str(listed), self.old, new, status=0)
        done = command("ctfd-diff", "--suppress", "/nowhere", self.old, new)
        self.assertEqual((done.returncode, done.stderr),
                         (2, "ctfd-diff: /nowhere: No such file or directory\n"))

    def test_objects_of_json(self) -> None:
        new = self.library("new", CODE.replace("short a, b;", "short a;"))
        (told,) = map(json.loads, self.output("--json", self.old, new, status=4))
        self.assertEqual(told["reached"], [{"symbols": ["walk"], "steps": [
            "takes struct near *", "whose member far is struct far *"]}])

    def test_a_version_of_a_symbol_and_a_name(self) -> None:
        script = Path(self.folder, "map")
        script.write_text("V1 { global: find; gone; local: *; };\n")
        first = self.library("first", CODE, f"-Wl,--version-script={script}",
                             "-Wl,-soname,lib.so.1")
        script.write_text("V1 { global: gone; local: *; };\nV2 { global: find; };\n")
        other = self.library("other", CODE, f"-Wl,--version-script={script}",
                             "-Wl,-soname,lib.so.2")
        told = self.output(first, other, status=4)
        self.assertIn("function find@V1: removed", told)
        self.assertIn("function find@V2: added", told)
        self.assertTrue(any(line.startswith("the library: soname lib.so.1 -> lib.so.2")
                            for line in told))

    def test_what_is_only_declared_in_one_is_told_once(self) -> None:
        new = self.library("new", CODE.replace("struct far { short a, b; };", "struct far;")
                           .replace("start->far->a = 1;", ""))
        self.assertEqual(self.output(self.old, new, status=1), [
            "struct far: only declared now, and not compared",
            "    walk: takes struct near *, whose member far is struct far *"])

    def test_damaged_symbols_are_refused_or_read(self) -> None:
        script = Path(self.folder, "map")
        script.write_text("V1 { global: find; gone; local: *; };\n")
        whole = Path(self.library("whole", CODE, f"-Wl,--version-script={script}")).read_bytes()
        places = [section for section in sections(whole) if section.name in (
            ".dynsym", ".dynstr", ".gnu.version", ".gnu.version_d", ".dynamic")]
        chance, damaged = random.Random(5), Path(self.folder, "damaged")
        for _ in range(300):
            data = bytearray(whole)
            for _ in range(chance.randint(1, 4)):
                section = chance.choice(places)
                data[section.offset + chance.randrange(section.size)] = chance.choice((
                    0, 1, 4, 127, 128, 255))
            damaged.write_bytes(data)
            done = command("ctfd-diff", self.old, str(damaged))
            self.assertIn(done.returncode, (0, 1, 2, 4), done.stderr)
            self.assertLessEqual(done.stderr.count("\n"), 4, done.stderr)
            self.assertNotIn("panicked", done.stderr)

    @unittest.skipUnless(compiles("-m32", "-shared"), "no gcc with -m32 here")
    def test_libraries_of_32_bits(self) -> None:
        old, new = (self.library(name, code, "-m32", "-nostdlib") for name, code in (
            ("old32", CODE), ("new32", CODE.replace("short a, b;", "short b, a;"))))
        self.output(old, old, status=0)
        self.assertIn("struct far: a moved from 0 to 2; b moved from 2 to 0",
                      self.output(old, new, status=4))

    def test_a_program_that_exports_nothing_is_compared_as_a_whole(self) -> None:
        code = "struct s { int a; } s; int main(void) { return s.a; }\n"
        made = []
        for name, text in (("one", code), ("two", code.replace("int a", "long a"))):
            Path(self.folder, f"{name}.c").write_text(text)
            made.append(f"{self.folder}/{name}")
            subprocess.run(["gcc", "-g", f"{made[-1]}.c", "-o", made[-1]], check=True)
        self.assertIn("struct s: size 4 -> 8; a is long int, was int", self.output(*made, status=4))


if __name__ == "__main__":
    unittest.main()
