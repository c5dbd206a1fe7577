"""Compares `ctfd-diff` with abidiff: for a breaking change, the status is never 0 or 1."""
from __future__ import annotations

import json
import struct
import subprocess
from pathlib import Path
from typing import Callable, Dict, List, Tuple

from .. import writers as w
from ..support import Case, Outcome, run, tool

SAME, COMPATIBLE, TROUBLE, BREAKING = 0, 1, 2, 4
EXPORTED = "int get(void) { return 1; }\n"
MANY = "enum many { %s, LAST = %%s }; enum many many;" % ", ".join(f"E{n}" for n in range(1100))
WIDE = "enum wide { SMALL = 1, BIG = 0x%s00000000 }; enum wide wide;"
BITS = ("enum color { RED, GREEN }; enum shape { ROUND = 1, SQUARE, LONG };"
        " struct s { enum %s a : 4; unsigned b : 4; }; struct s s; enum color c; enum shape h;")
UNNAMED = "struct s { enum { %s } a : 4; }; struct s s;"
# Changes that break; abidiff's status has bit 4 set, as that of `ctfd-diff` must have.
BREAKS = {
    "an object that becomes const": ("int x = 1;", "const int x = 1;"),
    "a pointer that becomes const": ("char *p;", "char *const p;"),
    "elements that become const": ("char *n[2];", "const char *const n[2];"),
    "a thread's own": ("int t;", "_Thread_local int t;"),
    "a wide enumerator": (WIDE % 1, WIDE % 2),
    "a wide enumerator that is gone": (WIDE % 1, WIDE.replace(", BIG = 0x%s00000000", "")),
    "the 1,100th enumerator": (MANY % 5000, MANY % 6000),
    "a bit-field of another enum": (BITS % "color", BITS % "shape"),
    "a bit-field of another enum without a name": (UNNAMED % "RED, GREEN", UNNAMED % "RED = 2"),
}


class Diff(Case):
    def library(self, code: str, name: str) -> Path:
        return self.compile(EXPORTED + code, "-g", "-shared", "-fPIC", name=name)

    def compare(self, old: Path, new: Path, *words: str) -> Outcome:
        done = run(tool("diff"), *words, old, new)
        self.assert_tame(done, old.name)
        return done

    def peer(self, old: Path, new: Path) -> "subprocess.CompletedProcess[str]":
        return subprocess.run(["abidiff", old, new], capture_output=True, text=True)


class BesideAbidiff(Diff):
    def test_what_breaks(self) -> None:
        self.needs("abidiff")
        for what, (before, after) in BREAKS.items():
            with self.subTest(what):
                old, new = self.library(before, "old.so"), self.library(after, "new.so")
                peer = self.peer(old, new)
                self.assertTrue(peer.returncode & 4, f"{what}: {peer.stdout}")
                for words in ((), ("--breaking",), ("--all",)):
                    done = self.compare(old, new, *words)
                    self.assertEqual(done.status, BREAKING, (what, words, done.text, peer.stdout))

    def test_the_same(self) -> None:
        self.needs("abidiff")
        for what, (before, _) in BREAKS.items():
            with self.subTest(what):
                old = self.library(before, "old.so")
                new = self.library(before + "\nstatic int unused;", "new.so")
                self.assertEqual(self.peer(old, new).returncode, 0, what)
                done = self.compare(old, new)
                self.assertEqual((done.status, done.output), (SAME, ""), (what, done.text))


HEADER = """
struct inner;
struct pub { int a; struct inner *in; };
typedef struct { int b; } named;
int get(struct pub *p, named *n);
int gone(void);
"""
BODY = """
#include "pub.h"
struct inner { int x; int y; };
int get(struct pub *p, named *n) { return p->a + p->in->x + n->b; }
"""
GONE = "int gone(void) { return 1; }\n"
# Sections of suppressions, the change to the library, and the status: abidiff's is 0 for 0, and has
# bit 4 set for 4.
SECTIONS = (
    ("[suppress_type]\nname = inner\n", ("int x; int y;", "int y; int x;"), SAME),
    ("[suppress_type]\nname_regexp = ^inn\ntype_kind = struct\n",
     ("int x; int y;", "int y; int x;"), SAME),
    ("[suppress_type]\nname = inner\ntype_kind = union\n",
     ("int x; int y;", "int y; int x;"), BREAKING),
    ("[suppress_type]\nsource_location_not_in = pub.h\n", ("int x; int y;", "int y; int x;"), SAME),
    ("[suppress_type]\nsource_location_not_in = pub.h, body.c\n",
     ("int x; int y;", "int y; int x;"), BREAKING),
    ("[suppress_function]\nname = gone\n", (GONE, ""), SAME),
    ("[suppress_function]\nname_regexp = go.e\nchange_kind = deleted-function\n", (GONE, ""),
     SAME),
    ("[suppress_function]\nname = gone\nchange_kind = added-function\n", (GONE, ""), BREAKING),
    ("[suppress_variable]\nname = gone\n", (GONE, ""), BREAKING),
    ("[suppress_file]\nfile_name_regexp = new\n", (GONE, ""), SAME),
    ("[suppress_function]\nname = gone\nfile_name_regexp = other\n", (GONE, ""), BREAKING),
)


class ForUsersOfAbidiff(Diff):
    """Features of abidiff: public headers, sections of suppressions, a verdict, types in full."""

    def build_library(self, name: str, body: str = BODY + GONE, header: str = HEADER) -> Path:
        """A library of `body.c`, with its header in a folder beside it."""
        folder = self.folder / name
        (folder / "include").mkdir(parents=True)
        (folder / "include" / "pub.h").write_text(header)
        (folder / "body.c").write_text(body)
        made = folder / f"{name}.so"
        subprocess.run(["gcc", "-g", "-shared", "-fPIC", "-Iinclude", "body.c", "-o", made],
                       check=True, cwd=folder)
        return made

    def both(self, old: Path, new: Path) -> List[str]:
        return ["--headers-dir1", str(old.parent / "include"), "--headers-dir2",
                str(new.parent / "include")]

    def test_types_that_are_not_in_public_headers_are_opaque(self) -> None:
        self.needs("abidiff", "gcc")
        old = self.build_library("old")
        private = self.build_library("private",
                                     BODY.replace("int x; int y;", "int y; int x;") + GONE)
        public = self.build_library("public", header=HEADER.replace("int a;", "long a;"))
        unnamed = self.build_library("unnamed", header=HEADER.replace("int b;", "long b;"))
        self.assertEqual(self.compare(old, private).status, BREAKING)
        for new, status in ((private, SAME), (public, BREAKING), (unnamed, BREAKING)):
            words = self.both(old, new)
            peer = subprocess.run(["abidiff", *words, old, new], capture_output=True, text=True)
            self.assertEqual(peer.returncode & 4, status & 4, peer.stdout)
            for more in ((), ("--all",)):
                done = self.compare(old, new, *words, *more)
                self.assertEqual(done.status, status, (new.name, more, done.text))
        done = self.compare(old, private, "--headers-dir2", str(private.parent / "include"))
        self.assertEqual(done.status, SAME, done.text)
        done = self.compare(old, private, "--headers-dir1", str(self.folder / "nowhere"))
        self.assertEqual((done.status, done.errors.count("\n")), (TROUBLE, 1), done.text)

    def test_headers_want_debug_information(self) -> None:
        path = self.folder / "a.ctf"
        path.write_bytes(nested_twice(3))
        other = self.folder / "b.ctf"
        other.write_bytes(nested_twice(3) + b"\0")
        done = self.compare(path, other, "--headers-dir1", str(self.folder))
        self.assertEqual(done.status, TROUBLE, done.text)
        self.assertRegex(done.errors, "does not record in which source files")

    def test_sections_of_suppressions(self) -> None:
        self.needs("abidiff", "gcc")
        old = self.build_library("old")
        listed = self.folder / "known.abignore"
        made: Dict[Tuple[str, str], Path] = {}
        for text, change, status in SECTIONS:
            if change not in made:
                made[change] = self.build_library(f"new{len(made)}", (BODY + GONE).replace(*change))
            listed.write_text(text)
            with self.subTest(text):
                peer = subprocess.run(["abidiff", "--suppressions", listed, old, made[change]],
                                      capture_output=True, text=True)
                self.assertEqual(peer.returncode & 4, status & 4, peer.stdout)
                done = self.compare(old, made[change], "--suppress", str(listed))
                self.assertEqual(done.status, status, done.text)

    def test_a_range_of_members(self) -> None:
        old = self.library("struct s { int a; char rest[60]; }; struct s s;", "old.so")
        new = self.library("struct s { int a; int b; char rest[56]; }; struct s s;", "new.so")
        listed = self.folder / "known.abignore"
        for text, status in (("{32, end}", BREAKING), ("{0, 31}", BREAKING)):
            listed.write_text("[suppress_type]\nname = s\n"
                              f"has_data_member_inserted_between = {text}\n")
            done = self.compare(old, new, "--suppress", str(listed))
            self.assertEqual(done.status, status, done.text)
            self.assertEqual("b added" in done.output, text == "{0, 31}", done.text)

    def test_sections_that_are_not_read_are_refused(self) -> None:
        old, new = self.build_library("old"), self.build_library("new", BODY)
        listed = self.folder / "known.abignore"
        for text in ("[suppress_type]\naccessed_through = pointer\n", "[suppress_type]\n",
                     "[suppress_type]\nname_regexp = (\n", "[suppress_all]\nname = a\n",
                     "[suppress_type]\nname = a\n[suppress_function]\nlabel = b\n"):
            listed.write_text(text)
            done = self.compare(old, new, "--suppress", str(listed))
            self.assertEqual((done.status, done.output), (TROUBLE, ""), text)
            self.assertRegex(done.errors, r"\Actfd-diff: \S*known.abignore.*\n\Z")

    def test_a_verdict(self) -> None:
        old = self.library("struct s { char a; int b; }; struct s s; int two;", "old.so")
        new = self.library("struct s { char a; char c; int b; }; struct s s;", "new.so")
        done = self.compare(old, new, "--verdict")
        self.assertEqual((done.status, done.output.splitlines()), (BREAKING, [
            "compatible: struct s: c added at 1", "    s: is struct s",
            "breaks: object two: removed",
            "verdict: 1 break, 1 compatible: programs built for the old break with the new"]))
        self.assertEqual(self.compare(old, old, "--verdict").output, "verdict: nothing differs\n")
        done = self.compare(old, new, "--verdict", "--json")
        self.assertEqual(json.loads(done.output.splitlines()[-1]), {
            "verdict": "breaking", "breaking": 1, "compatible": 1, "uncompared": 0})

    def test_types_in_full(self) -> None:
        old = self.library("struct s { int a; }; struct s s;", "old.so")
        new = self.library("struct s { long a; }; struct s s;", "new.so")
        done = self.compare(old, new, "--full")
        for line in ("    - \tint                        a;                    /*     0     4 */",
                     "    + \tlong int                   a;                    /*     0     8 */"):
            self.assertIn(line, done.output)
        told = json.loads(self.compare(old, new, "--full", "--json").output)
        self.assertIn("int                        a;", told["old"])


class NotCompared(Diff):
    """If something could not be compared, the status is not 0, unless both files are the same."""

    def assert_uncompared(self, old: Path, new: Path, says: str, status: int = TROUBLE) -> None:
        done = self.compare(old, new)
        self.assertEqual(done.status, status, done.text)
        self.assertRegex(done.text, says)
        done = self.compare(old, new, "--breaking")
        self.assertEqual(done.status, TROUBLE, done.text)
        self.assertRegex(done.errors, says)
        self.assertEqual(self.compare(old, old).status, SAME)

    def test_units_of_other_languages(self) -> None:
        other = self.compiled_as_ada("int more(int x) { return x; }", "-fPIC", name="more.o")
        made = []
        for name in ("old", "new"):
            one = self.compile(EXPORTED + f"static int {name};", "-g", "-fPIC", name=f"{name}.o")
            made.append(self.folder / f"{name}.so")
            subprocess.run(["gcc", "-shared", "-o", made[-1], one, other], check=True)
        self.assert_uncompared(made[0], made[1], "not compared: 1 unit in Ada")

    def test_what_each_thread_has_for_itself(self) -> None:
        old = self.library("_Thread_local int t;", "old.so")
        new = self.library("_Thread_local float t;", "new.so")
        self.assertEqual(self.peer(old, new).returncode & 4, 4)
        self.assert_uncompared(old, new, "object t: .*not compared")

    def test_a_struct_that_is_only_declared_now(self) -> None:
        use = "struct s *p; int of(struct s *q) { return q == p; }"
        old = self.library("struct s { int a; };" + use, "old.so")
        new = self.library(use, "new.so")
        self.assert_uncompared(old, new, "struct s: only declared now, and not compared",
                               COMPATIBLE)

    def test_structs_that_are_cut(self) -> None:
        paths = [self.folder / "old.ctf", self.folder / "new.ctf"]
        for path, levels in zip(paths, (30, 30)):
            path.write_bytes(nested_twice(levels))
        paths[1].write_bytes(paths[0].read_bytes() + b"\0")  # other bytes with the same types
        for words in ((), ("--all",), ("--breaking",)):
            done = self.compare(paths[0], paths[1], *words)
            self.assertEqual((done.status, done.output), (TROUBLE, ""), done.text)
            self.assertRegex(done.errors, "more members of members than are compared|more work")


class Slow(Diff):
    """Files that are made to be slow, or to fill the memory, are refused, or cut with a message."""

    def pair(self, make: Callable[[int], bytes]) -> List[Path]:
        paths = [self.folder / "old.ctf", self.folder / "new.ctf"]
        for turn, path in enumerate(paths):
            path.write_bytes(make(turn))
        return paths

    def asked_all(self, old: Path, new: Path) -> List[Outcome]:
        return [self.compare(old, new, *words) for words in ((), ("--all",), ("--all", "--json"))]

    def test_a_name_that_many_types_share(self) -> None:
        def dictionary_of(turn: int) -> bytes:
            types = [w.record(9, w.STRUCT, 1, 4 + turn, w.member(1, 1, 0)) for _ in range(30_000)]
            names = b"\0int\0ab\0\0" + b"s" * 400_000 + b"\0"
            return w.ctf(b"".join([w.record(1, w.INTEGER, 0, 4, w.INT), *types]), names)

        for done in self.asked_all(*self.pair(dictionary_of)):
            self.assertEqual((done.status, done.output), (TROUBLE, ""), done.text)
            self.assertRegex(done.errors, "its names share their bytes")

    def test_a_long_name_behind_many_pointers(self) -> None:
        def dictionary_of(turn: int) -> bytes:
            types = [w.record(1, w.INTEGER, 0, 4, w.INT), w.record(5, w.STRUCT, 0, 4 + 4 * turn)]
            for n in range(30_000):
                kind = (w.POINTER, w.CONST, w.VOLATILE)[n % 3]
                types.append(w.record(0, kind, 0, 2 if n % 64 < 3 else len(types)))
            return w.ctf(b"".join(types), b"\0int\0" + b"s" * 400_000 + b"\0")

        for done in self.asked_all(*self.pair(dictionary_of)):
            self.assertEqual(done.status, BREAKING, done.text[-300:])

    def test_a_large_enum_of_many_members(self) -> None:
        count = 1023

        def dictionary_of(turn: int) -> bytes:
            named = b"".join(struct.pack("<Ii", 5 + 2 * (n % 8), n + turn) for n in range(count))
            types = [w.record(1, w.INTEGER, 0, 4, w.INT), w.record(5, w.ENUM, count, 4, named)]
            types += [w.record(0, w.CONST, 0, 2) for _ in range(20_000)]
            members = [w.member(5 + 2 * (n % 8), 3 + (n + turn) % 20_000, 0) for n in range(1000)]
            types += [w.record(5, w.STRUCT, 1000, 4, b"".join(members)) for _ in range(40)]
            letters = b"".join(bytes([97 + n, 0]) for n in range(8))
            return w.ctf(b"".join(types), b"\0int\0" + letters)

        for done in self.asked_all(*self.pair(dictionary_of)):
            self.assertIn(done.status, (TROUBLE, BREAKING), done.text[-300:])

    def test_circles_of_structs_that_meet_in_all_pairs(self) -> None:
        made = []
        for count in (1201, 1200):
            code = "".join(f"struct s{n} {{ struct s{(n + 1) % count} *p; }};\n"
                           for n in range(count))
            made.append(self.library(code + "int f(struct s0 *p) { return p != 0; }",
                                     f"{count}.so"))
        done = self.compare(*made)
        self.assertEqual(done.status, TROUBLE, done.text[-300:])
        self.assertRegex(done.errors, "more pairs of types are reached than are compared")


def nested_twice(levels: int) -> bytes:
    """Unnamed structs that each contain the previous one twice, in one with a name."""
    types = [w.record(1, w.INTEGER, 0, 4, w.INT)]
    for n in range(levels):
        members = w.member(5, n + 1, 0) + w.member(7, n + 1, 0)
        types.append(w.record(0 if n < levels - 1 else 9, w.STRUCT, 2, 8, members))
    return w.ctf(b"".join(types), b"\0int\0a\0b\0s\0")


class Opaque(Diff):
    def test_an_object_of_an_opaque_type_has_another_size(self) -> None:
        """Programs that were linked with the old library copy an object of the old size."""
        self.needs("abidiff")
        headers = self.folder / "public"
        headers.mkdir()
        (headers / "public.h").write_text("struct known { int a; };")
        old, new = (self.library(f"struct s {{ int a{more}; }}; struct s s;", name)
                    for more, name in (("", "old.so"), (", b", "new.so")))
        words = ["--headers-dir1", str(headers), "--headers-dir2", str(headers)]
        peer = subprocess.run(["abidiff", *words, old, new], capture_output=True, text=True)
        self.assertTrue(peer.returncode & 4, peer.stdout)
        done = self.compare(old, new, *words)
        self.assertEqual((done.status, done.output), (BREAKING, "object s: size 4 -> 8\n"), done.text)


class Baseline(Diff):
    """A saved baseline gives the same answers as its library."""

    def test_it_answers_as_the_library(self) -> None:
        self.needs("objcopy")
        for what, (before, after) in BREAKS.items():
            with self.subTest(what):
                old, new = self.library(before, "old.so"), self.library(after, "new.so")
                kept = self.write_baseline(old)
                done = run(tool("diff"), "--baseline", kept, new)
                whole = self.compare(old, new)
                self.assertEqual((done.status, done.output), (whole.status, whole.output), what)
                self.assertEqual(run(tool("diff"), "--baseline", kept, old).status, SAME)

    def write_baseline(self, library: Path) -> Path:
        kept = library.with_suffix(".baseline")
        kept.unlink(missing_ok=True)
        done = run(tool("diff"), "--baseline", kept, "--update", library)
        self.assertEqual((done.status, done.output, done.errors), (SAME, "", ""))
        return kept

    def test_of_a_debug_file_with_versions_and_headers(self) -> None:
        self.needs("objcopy")
        script = self.folder / "map"
        script.write_text("ONE_1.0 { global: take; get; local: *; };")
        (self.folder / "public").mkdir()
        (self.folder / "public" / "public.h").write_text("struct known { int a; };")
        code = ('#include "public/public.h"\nstruct hidden { int %s; };'
                " int take(struct known *k, struct hidden *h) { return k->a + h->x; }")
        words = ("-Wl,--version-script=" + str(script), "-I", str(self.folder))
        both = []
        for name, members in (("old.so", "x"), ("new.so", "y, x")):
            made = self.compile(EXPORTED + code % members, "-g", "-shared", "-fPIC", *words,
                                name=name)
            debug = made.with_suffix(".debug")
            subprocess.run(["objcopy", "--only-keep-debug", made, debug], check=True)
            subprocess.run(["objcopy", "--strip-all", f"--add-gnu-debuglink={debug}", made],
                           check=True)
            both.append(made)
        kept = self.write_baseline(both[0])
        both[0].with_suffix(".debug").unlink()
        done = run(tool("diff"), "--baseline", kept, both[1])
        self.assertEqual(done.status, BREAKING, done.text)
        self.assertIn("take@ONE_1.0: takes struct hidden *", done.output)
        for number in "12":
            done = run(tool("diff"), "--baseline", kept, f"--headers-dir{number}",
                       self.folder / "public", both[1])
            self.assertEqual((done.status, done.output), (SAME, ""), done.text)

    def test_nothing_else_is_written_over(self) -> None:
        self.needs("objcopy")
        old, new = self.library("int x;", "old.so"), self.library("long x;", "new.so")
        before = old.read_bytes(), new.read_bytes()
        kept = self.folder / "kept"
        for words in (["--baseline", kept, new], ["--update", old, new],
                      ["--baseline", old, "--update", new], ["--baseline", new, "--update", new],
                      ["--baseline", kept, "--update", self.folder / "none"],
                      ["--baseline", self.folder, "--update", new]):
            done = run(tool("diff"), *words)
            self.assertEqual((done.status, done.output), (TROUBLE, ""), words)
            self.assertEqual(len(done.errors.splitlines()), 1, done.errors)
        self.assertFalse(kept.exists())
        self.assertEqual((old.read_bytes(), new.read_bytes()), before)
        self.write_baseline(old).rename(kept)
        done = run(tool("diff"), "--baseline", kept, "--update", "--verdict", new)
        self.assertEqual(done.status, BREAKING, done.text)
        self.assertEqual(run(tool("diff"), "--baseline", kept, new).status, SAME)


class Packages(Diff):
    """Packages and folders: libraries of the same name are compared, as by abipkgdiff."""

    OLD = {"libsame.so.1": "int x;", "libbroken.so.1": "struct s { int a; }; struct s s;",
           "libgone.so.1": "int y;", "libgrown.so.1": "int z;"}
    NEW = {"libsame.so.1": "int x;", "libbroken.so.2": "struct s { long a; }; struct s s;",
           "libnew.so.1": "int y;", "libgrown.so.1": "int z; int more;"}

    def folder_of(self, name: str, libraries: Dict[str, str], is_apart: bool) -> Path:
        """A folder with libraries as in a package, with their debug information in separate
        files."""
        folder = self.folder / name
        place = folder / "usr" / "lib"
        place.mkdir(parents=True)
        for soname, code in libraries.items():
            made = self.compile(EXPORTED + code, "-g", "-shared", "-fPIC",
                                f"-Wl,-soname,{soname}", "-Wl,--build-id", name=soname)
            made.rename(place / f"{soname}.0")
            (place / soname).symlink_to(f"{soname}.0")
            if is_apart:
                self.take_debug_out(place / f"{soname}.0", self.folder / f"{name}-dbg")
        return folder

    def take_debug_out(self, library: Path, package: Path) -> None:
        told = subprocess.run(["readelf", "-n", library], capture_output=True, text=True).stdout
        build = told.split("Build ID: ")[1].split()[0]
        debug = package / "usr/lib/debug/.build-id" / build[:2] / f"{build[2:]}.debug"
        debug.parent.mkdir(parents=True, exist_ok=True)
        subprocess.run(["objcopy", "--only-keep-debug", library, debug], check=True)
        subprocess.run(["strip", "-s", library], check=True)

    def pack(self, folder: Path) -> Path:
        control = folder / "DEBIAN" / "control"
        control.parent.mkdir(parents=True, exist_ok=True)
        control.write_text(f"Package: {folder.name}\nVersion: 1\nArchitecture: amd64\n"
                           "Maintainer: nobody <nobody@example.org>\nDescription: none\n")
        subprocess.run(["dpkg-deb", "--root-owner-group", "--build", folder, f"{folder}.deb"],
                       check=True, capture_output=True)
        return Path(f"{folder}.deb")

    def assert_told(self, done: Outcome) -> None:
        self.assertEqual(done.status, BREAKING, done.text)
        lines = done.output.splitlines()
        titles = [line for line in lines if line.endswith(":") or line.startswith("library ")]
        self.assertEqual(titles, ["libbroken.so.1:", "library libgone.so.1: removed",
                                  "libgrown.so.1:", "library libnew.so.1: added"])
        self.assertIn("struct s: size 4 -> 8; a is long int, was int", lines)
        self.assertIn("object more: added", lines)
        self.assertTrue(any("soname libbroken.so.1 -> libbroken.so.2" in line
                            for line in lines), lines)

    def test_folders(self) -> None:
        old = self.folder_of("old", self.OLD, False)
        self.assert_told(self.compare(old, self.folder_of("new", self.NEW, False)))
        done = self.compare(old, old)
        self.assertEqual((done.status, done.output), (SAME, ""), done.text)

    def test_packages_with_debug_packages(self) -> None:
        self.needs("dpkg-deb", "abipkgdiff")
        folders = [self.folder_of("old", self.OLD, True), self.folder_of("new", self.NEW, True)]
        old, new = map(self.pack, folders)
        debug = [self.pack(self.folder / f"{name}-dbg") for name in ("old", "new")]
        words = ["--debug-package1", str(debug[0]), "--debug-package2", str(debug[1])]
        done = self.compare(old, new, *words)
        self.assert_told(done)
        self.assertEqual(done.errors, "")
        peer = subprocess.run(["abipkgdiff", "--d1", debug[0], "--d2", debug[1], old, new],
                              capture_output=True, text=True)
        for name in ("libgone.so.1", "libnew.so.1", "libbroken.so"):
            self.assertIn(name, peer.stdout)
        done = self.compare(old, new)
        self.assertEqual(done.status, BREAKING, done.text)  # the rest is unknown
        self.assertIn("libsame.so.1: not compared: ", done.errors)
        self.assertNotIn(".ctfd-", done.errors)
        verdict = json.loads(self.compare(old, new, *words, "--json", "--verdict")
                             .output.splitlines()[-1])
        self.assertEqual((verdict["verdict"], verdict["uncompared"]), ("breaking", 0))

    def test_damaged_packages(self) -> None:
        self.needs("dpkg-deb")
        old = self.pack(self.folder_of("old", {"libsame.so.1": "int x;"}, False))
        whole = old.read_bytes()
        cut = self.folder / "cut.deb"
        for length in (30, 100, 200, len(whole) // 2, len(whole) - 10):
            cut.write_bytes(whole[:length])
            done = self.compare(old, cut)
            self.assertEqual((done.status, done.output), (TROUBLE, ""), (length, done.text))
            self.assertEqual(len(done.errors.splitlines()), 1, done.errors)
        (self.folder / "empty").mkdir()
        for other in (self.folder / "empty", self.folder / "none", Path("/dev/null")):
            self.assertEqual(self.compare(old, other).status, TROUBLE)
