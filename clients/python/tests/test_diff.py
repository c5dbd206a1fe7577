"""`ctfd-diff`: a pair of programs with each sort of change once."""
import json
import shutil
import tempfile
import unittest

from .support import EXAMPLES, PROGRAM
from .tools import CONVERTS, WHY_NOT, command, convert_object

LUA = str(EXAMPLES / "lua.ctf")

OLD = """
typedef unsigned int uid; typedef long amount; typedef int (*hook)(int);
struct inner { int a; };
struct grows { int a; int b; };
struct moves { int first; int pad; int flags; long tail; };
struct runs { int gone; int a, b, c, d, e; };
struct loses { int a; int b; };
struct renames { int before; };
struct signs { int a; };
struct points { char *p; };
struct calls { int (*f)(int); };
struct narrows { unsigned a : 3; unsigned b : 5; };
struct holds { struct inner in; int last; };
struct buffers { char buf[16]; };
struct opens { int kind; union { int one; long two; }; };
struct fills { char a; int b; };
struct vanishes { int a; };
struct hidden; struct shown { int a; };
union both { int a; };
enum color { RED, GREEN, BLUE }; enum mode { OFF }; enum { LOOSE = 1 };
typedef struct { int a; } unnamed;
struct same { struct same *next; struct hidden *h; };
struct all { uid u; amount m; hook k; struct grows b; struct moves c; struct runs d;
  struct loses e; struct renames f; struct signs g; struct points h; struct calls i;
  struct narrows j; struct holds l; struct buffers n; struct opens o; struct fills p;
  struct vanishes *q; struct shown *r; union both s; enum color t; enum mode v; unnamed w;
  struct same x; } all;
int loose = LOOSE; int object; int taken(int a) { return a; } void left(void) { }
"""

EDITS = (
    ("typedef unsigned int uid", "typedef unsigned long uid"),
    ("typedef int (*hook)(int)", "typedef int (*hook)(int, int)"),
    ("struct inner { int a; }", "struct inner { int a; int more; }"),
    ("struct grows { int a; int b; }", "struct grows { int a; int b; long c; }"),
    ("int first; int pad; int flags;", "int flags; int pad; int first;"),
    ("struct runs { int gone; int", "struct runs { int"),
    ("struct loses { int a; int b; }", "struct loses { int a; }"),
    ("struct renames { int before; }", "struct renames { int after; }"),
    ("struct signs { int a; }", "struct signs { unsigned a; }"),
    ("struct points { char *p; }", "struct points { const char *p; }"),
    ("struct calls { int (*f)(int); }", "struct calls { int (*f)(long); }"),
    ("unsigned a : 3; unsigned b : 5;", "unsigned a : 4; unsigned b : 4;"),
    ("char buf[16]", "char buf[24]"),
    ("union { int one; long two; }", "union { int one; long two; int three; }"),
    ("struct fills { char a; int b; }", "struct fills { char a; char c; int b; }"),
    ("struct vanishes { int a; };", "struct comes { int a; };"),
    ("struct vanishes *q", "struct comes *q"),
    ("struct shown { int a; };", "struct shown;"),
    ("union both { int a; }", "union both { int a; long b; }"),
    ("RED, GREEN, BLUE", "RED, BLUE = 5, WHITE"),
    ("enum mode { OFF }", "enum mode { OFF, ON }"),
    ("LOOSE = 1", "LOOSE = 2"),
    ("typedef struct { int a; } unnamed", "typedef struct { long a; } unnamed"),
    ("int object;", "long object;"),
    ("int taken(int a) { return a; }", "int taken(long a) { return a; }"),
    ("void left(void) { }", "void come(void) { }"),
)

# The line for each change, and the part of it that breaks.
TABLE = {
    "uid": ("is long unsigned int, was unsigned int", "*"),
    "hook": ("is int (*)(int, int), was int (*)(int)", "*"),
    "struct inner": ("size 4 -> 8; more added at 4", "size 4 -> 8"),
    "struct grows": ("size 8 -> 16; c added at 8", "size 8 -> 16"),
    "struct moves": ("first moved from 0 to 8; flags moved from 8 to 0", "*"),
    "struct runs": ("size 24 -> 20; 5 members from a to e moved by -4; gone removed", "*"),
    "struct loses": ("size 8 -> 4; b removed", "*"),
    "struct renames": ("before renamed after", ""),
    "struct signs": ("a is unsigned int, was int", "*"),
    "struct points": ("p is const char *, was char *", ""),
    "struct calls": ("f is int (*)(long int), was int (*)(int)", "*"),
    "struct narrows": ("b moved from 0:3 to 0:4; a 3 bits -> 4 bits; b 5 bits -> 4 bits", "*"),
    "struct holds": ("size 8 -> 12; last moved from 4 to 8; in 4 bytes -> 8 bytes", "*"),
    "struct buffers": ("size 16 -> 24; buf is char [24], was char [16]", "*"),
    "struct opens": ("three added at 8", ""),
    "struct fills": ("c added at 1", ""),
    "struct vanishes": ("removed", "*"),
    "struct comes": ("added, size 4", ""),
    "struct shown": ("its definition is gone, only declared now", "*"),
    "union both": ("size 4 -> 8; b added at 0", "size 4 -> 8"),
    "enum color": ("GREEN removed; BLUE 2 -> 5; WHITE = 6 added", "GREEN removed; BLUE 2 -> 5"),
    "enum mode": ("ON = 1 added", ""),
    "enum { LOOSE, .. }": ("LOOSE 1 -> 2", "*"),
    "unnamed": ("size 4 -> 8; a is long int, was int", "*"),
    "object object": ("int object -> long int object", "*"),
    "function taken": ("int taken(int) -> int taken(long int)", "*"),
    "function left": ("removed", "*"),
    "function come": ("added: void come(void)", ""),
}
LARGE = ("struct all", "object all")


def edit(code: str) -> str:
    for old, new in EDITS:
        assert code.count(old) == 1, old
        code = code.replace(old, new)
    return code


@unittest.skipUnless(CONVERTS, WHY_NOT)
class Pair(unittest.TestCase):
    """The two programs are compiled by gcc, and their debug information is converted."""

    folder: str
    old: str
    new: str

    @classmethod
    def setUpClass(cls) -> None:
        cls.folder = tempfile.mkdtemp()
        cls.addClassCleanup(shutil.rmtree, cls.folder)
        cls.old = convert_object(cls.folder, "old", OLD)
        cls.new = convert_object(cls.folder, "new", edit(OLD))

    def lines(self, *words: str, status: int = 4) -> "dict[str, str]":
        """The lines about all types and symbols, whether or not they are exported."""
        done = command("ctfd-diff", "--all", *words)
        self.assertEqual((done.returncode, done.stderr), (status, ""))
        told = dict(line.split(": ", 1) for line in done.stdout.splitlines())
        self.assertEqual(len(told), len(done.stdout.splitlines()))
        return {label: said for label, said in told.items() if label not in LARGE}

    def test_each_sort_of_change(self) -> None:
        self.assertEqual(self.lines(self.old, self.new), {k: v[0] for k, v in TABLE.items()})

    def test_what_breaks(self) -> None:
        breaking = {label: said if broken == "*" else broken
                    for label, (said, broken) in TABLE.items() if broken}
        self.assertEqual(self.lines("--breaking", self.old, self.new), breaking)

    def test_the_same(self) -> None:
        self.assertEqual(self.lines(self.old, self.old, status=0), {})
        only = ("-C", "renames", "--breaking", self.old, self.new)
        self.assertEqual(self.lines(*only, status=0), {})

    def test_objects_of_json(self) -> None:
        done = command("ctfd-diff", "--all", "--json", "-C", "struct loses", self.old, self.new)
        (told,) = map(json.loads, done.stdout.splitlines())
        self.assertEqual(told["said"], [
            {"what": "size", "breaks": True, "name": "", "old": 8, "new": 4},
            {"what": "removed member", "breaks": True, "name": "b", "old": 32, "new": None}])
        self.assertEqual((told["change"], told["breaking"]), ("changed", True))


@unittest.skipUnless(PROGRAM, "CTFD names no built service")
class Trouble(unittest.TestCase):
    def test_trouble_is_told_in_one_line(self) -> None:
        done = command("ctfd-diff", LUA, "/nowhere")
        self.assertEqual((done.returncode, done.stdout), (2, ""))
        self.assertEqual(done.stderr.count("\n"), 1)

    def test_lua_is_lua(self) -> None:
        done = command("ctfd-diff", LUA, LUA)
        self.assertEqual((done.returncode, done.stdout, done.stderr), (0, "", ""))


if __name__ == "__main__":
    unittest.main()
