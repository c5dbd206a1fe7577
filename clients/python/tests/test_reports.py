"""`--sizes`, `--holes`, `--contains`, `--uses` and `--expand`, compared with pahole and gcc."""
import json
import re
import shutil
import subprocess
import tempfile
import unittest
from typing import Dict, List, Set, Tuple

import ctfd
from ctfd.layout.records import AGGREGATES

from .support import (COMMAND, EXAMPLES, PROGRAM, TOOLS, WithService, object_file, run,
                      staged_dictionaries)
from .test_listing import OTHERS
from .tools import whole_of, write_dictionary
from .whole import WholeFile
from .whole.embeds import Embeds

LUA, ZLIB = str(EXAMPLES / "lua.ctf"), str(EXAMPLES / "zlib.ctf")
HELD = ("Table", "stringtable", "Value", "UpVal", "GCObject", "lua_State", "CallInfo", "TString")
FIELD = re.compile(r"(\w+)(?:\[[^;]*|\)\([^;]*)?;\s*/\*\s+(\d+)\s+(\d+) \*/")


@unittest.skipUnless(TOOLS and shutil.which("pahole"), "no gcc, objcopy or pahole here")
class BesidePahole(WithService):
    """The differences are due to pahole: it takes the bytes of an enum for bits (`OTHERS`), and
    does not follow typedefs, arrays and unnamed members."""

    def setUp(self) -> None:
        super().setUp()
        self.folder = tempfile.mkdtemp()
        self.addCleanup(shutil.rmtree, self.folder)

    def pahole(self, path: str, *words: str) -> List[str]:
        with open(path, "rb") as file:
            made = object_file(self.folder, file.read())
        said = subprocess.run(["pahole", "-F", "ctf", *words, str(made)], capture_output=True,
                              text=True)
        return said.stdout.splitlines()

    def figures(self, whole: WholeFile) -> Dict[str, "set[Tuple[int, int]]"]:
        made: Dict[str, Set[Tuple[int, int]]] = {}
        for number in whole.catalog.aggregates():
            one = whole.sizes.figures(number)
            for name in whole.names.names_of(number):
                made.setdefault(name, set()).add((one.size, one.holes))
        return made

    def test_sizes_and_holes(self) -> None:
        for path, least in ((LUA, 60), (ZLIB, 10)):
            mine = self.figures(whole_of(self, path))
            lines = [line.split("\t") for line in self.pahole(path, "--sizes")]
            self.assertGreaterEqual(len(lines), least)
            for name, size, holes in lines:
                if name not in OTHERS:
                    self.assertIn((int(size), int(holes)), mine[name], name)
            listed = self.pahole(path, "--holes=1")
            names = {line.split()[1] for line in listed if re.match(r"(struct|union) \w+ {", line)}
            holed = {name for name, found in mine.items() if any(holes for _, holes in found)}
            self.assertLessEqual(names - OTHERS, holed)

    def test_who_holds_a_type(self) -> None:
        whole = whole_of(self, LUA)
        for name in HELD:
            held = Embeds(whole.catalog, whole.names).containing(
                whole.names.types_named(name) & whole.names.types_named(f"* {name}"))
            direct = {whole.catalog[one.owner].name for one in held
                      if len(one.path) == 1 and whole.catalog[one.type].kind in AGGREGATES}
            self.assertEqual(set(self.pahole(LUA, f"--contains={name}")), direct, name)

    def test_who_points_to_a_type(self) -> None:
        whole = whole_of(self, LUA)
        for name in ("lua_State", "GCObject", "TString", "CallInfo", "Table"):
            told = set()
            for one in Embeds(whole.catalog, whole.names).pointing(whole.names.types_named(name)):
                to = whole.catalog[whole.catalog[one.type].type]
                if len(one.path) == 1 and to.kind in AGGREGATES and to.name == name:
                    told.add(f"{whole.catalog[one.owner].name}: {one.name}")
            pahole = {line for line in self.pahole(LUA, f"--find_pointers_to={name}")
                      if ": " in line}
            self.assertEqual(pahole, {line for line in told if not line.startswith(":")}, name)

    def test_expanded(self) -> None:
        """Each member that is not a struct has pahole's offset and size."""
        types = self.example("lua.ctf")
        for name in ("CallInfo", "global_State", "lua_State", "Table", "LexState", "Proto"):
            theirs = "\n".join(self.pahole(LUA, "-E", "-C", name))
            mine = ctfd.listing(types.find(f"struct {name}"), is_expanded=True)
            self.assertEqual(sorted(FIELD.findall(mine)), sorted(FIELD.findall(theirs)), name)


@unittest.skipUnless(shutil.which("gcc"), "no gcc here")
class SavedReports(WithService):
    def test_an_order_by_alignment_has_the_size_that_is_told(self) -> None:
        """gcc gives each struct with a better order the reported size."""
        lines = [run("--c", ZLIB).stdout]
        saved = {line.split("  ")[-1]: int(line.split()[5])
                 for line in run("--sizes", ZLIB).stdout.splitlines()[1:]}
        orders = re.findall(r"^struct (?:\w+ )?\{\n(.*?)^\}; /\* ([^\n]*?): (\d+) bytes, was \d+:"
                            r" saves (\d+) \*/$", run("--reorganize", ZLIB).stdout, re.M | re.S)
        self.assertGreater(len(orders), 2)
        for place, (members, label, size, less) in enumerate(orders):
            lines += [f"struct order_{place} {{", members, "};",
                      f"_Static_assert(sizeof(struct order_{place}) == {size}, \"{label}\");"]
            self.assertEqual(saved[label], int(less), label)
        done = subprocess.run(["gcc", "-x", "c", "-fsyntax-only", "-"], input="\n".join(lines),
                              capture_output=True, text=True)
        self.assertEqual(done.stderr, "")


@unittest.skipUnless(PROGRAM, "CTFD names no built service")
class CommandOutput(WithService):
    """The output of the command."""

    def output(self, *words: str) -> List[str]:
        done = run(*words)
        self.assertEqual((done.returncode, done.stderr), (0, ""))
        return done.stdout.splitlines()

    def test_sizes(self) -> None:
        lines = self.output("--sizes", LUA, "lua_*")
        self.assertEqual(lines[0].split(),
                         "bytes members holes in holes padding saves type".split())
        self.assertEqual([line.split()[-1] for line in lines[1:]],
                         ["lua_longjmp", "lua_State", "lua_Debug"])
        self.assertEqual(lines[2].split(), "200 24 1 2 4 0 struct lua_State".split())

    def test_order_and_least_holes(self) -> None:
        lines = self.output("--holes", "6", "--sort", "name", LUA)[1:]
        labels = [line.split("  ")[-1] for line in lines]
        self.assertEqual(labels, sorted(labels))
        self.assertTrue(all(int(line.split()[3]) >= 6 for line in lines))
        self.assertEqual(self.output("--holes", LUA), self.output("--holes=1", LUA))

    def test_holders(self) -> None:
        self.assertEqual(self.output("--contains", "TString", LUA)[0].split(),
                         "0 union GCUnion struct TString ts".split())
        self.assertIn("       0  struct luaL_Stream  FILE *f", self.output("--uses", "FILE", LUA))
        deep = self.output("--contains", "CallInfo", "--recursive", LUA)
        self.assertIn("     104  struct LX  CallInfo l.base_ci", deep)

    def test_json(self) -> None:
        (told,) = map(json.loads, self.output("--json", LUA, "struct luaL_Reg"))
        self.assertEqual(told["members"], [
            {"name": "name", "type": "const char *", "number": 72, "offset": 0, "bits": 64},
            {"name": "func", "type": "lua_CFunction", "number": 30, "offset": 64, "bits": 64}])
        self.assertEqual(len(self.output("--json", LUA)), 526)
        (held,) = map(json.loads, self.output("--contains", "stringtable", "--json", LUA))
        self.assertEqual((held["label"], held["path"], held["offset"]),
                         ("struct global_State", ["strt"], 384))

    def test_several_files_and_cache_lines(self) -> None:
        lines = self.output("--sizes", LUA, ZLIB, "*_state")
        self.assertEqual(lines[0], f"{ZLIB}:")
        self.assertIn("cacheline 1 boundary (32 bytes)",
                      "\n".join(self.output("--cachelines", "32", LUA, "struct lua_Debug")))

    def test_a_child(self) -> None:
        parent, child = (write_dictionary(self, ctf)
                         for ctf in staged_dictionaries("parent.jsonl")[:2])
        self.assertEqual(self.output("--sizes", "--parent", parent, child)[1:], [])
        done = run("--sizes", child)
        self.assertEqual((done.returncode, done.stderr.count("\n")), (1, 1))
        self.assertIn("name the parent's file by --parent", done.stderr)

    def test_names_that_are_none(self) -> None:
        for words in (("--contains", "lua_Sate"), ("-C", "lua_Sate", "--sizes")):
            done = run(*words, LUA)
            self.assertEqual(done.returncode, 1)
            self.assertIn("no type is called lua_Sate; did you mean ", done.stderr)

    def test_a_pipe_that_closes(self) -> None:
        done = subprocess.run(["bash", "-c", f"{COMMAND} --json {LUA} | head -1"],
                              capture_output=True, text=True)
        self.assertEqual((len(done.stdout.splitlines()), done.stderr), (1, ""))


if __name__ == "__main__":
    unittest.main()
