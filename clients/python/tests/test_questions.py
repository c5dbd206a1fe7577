"""Questions about all types of a file: members at offsets and by name, functions, orders,
records."""
import json
import shutil
import subprocess
import tempfile
import unittest
from pathlib import Path
from typing import List

from .support import EXAMPLES, PROGRAM, dictionary, integer, record, run
from .tools import CONVERTS, WHY_NOT, compile_object, convert_object

LUA = str(EXAMPLES / "lua.ctf")
CODE = """
struct inner { short a, b; };
struct holes {
  char first; long wide; char second; unsigned low : 3, high : 5; struct inner in[3];
  union { int number; float real; }; int tail[];
};
struct packed { char a; long b; } __attribute__((packed));
enum mode { OFF, ON = 300 };
struct holes holes; struct packed packed; enum mode mode;
struct holes *find(struct inner key) { return &holes; }
int other(int (*each)(struct inner *), struct holes **all) { return 0; }
"""


@unittest.skipUnless(CONVERTS, WHY_NOT)
class Questions(unittest.TestCase):
    folder: str
    file: str

    @classmethod
    def setUpClass(cls) -> None:
        cls.folder = tempfile.mkdtemp()
        cls.addClassCleanup(shutil.rmtree, cls.folder)
        cls.file = compile_object(cls.folder, "code", CODE)

    def output(self, *words: str) -> List[str]:
        done = run(self.file, *words)
        self.assertEqual((done.returncode, done.stderr), (0, ""))
        return done.stdout.splitlines()

    def refusal(self, *words: str) -> str:
        done = run(self.file, *words)
        self.assertEqual((done.returncode, done.stdout, done.stderr.count("\n")), (1, "", 1))
        return done.stderr

    def test_what_is_at_an_offset(self) -> None:
        for at, wanted in (
                ("8", ["       8  struct holes  long int wide"]),
                ("0xb", ["       8  struct holes  long int wide  (byte 3 of it)"]),
                ("17", ["      17  struct holes  unsigned int low",
                        "    17:3  struct holes  unsigned int high"]),
                ("17:4", ["    17:3  struct holes  unsigned int high"]),
                ("2", ["       2  struct holes  (a hole)"]),
                ("24", ["      22  struct holes  struct inner in[1]  (byte 2 of it)",
                        "      24  struct holes  short int in[1].b"])):
            self.assertEqual(self.output("--at", "struct holes", at), wanted)
        self.assertIn("struct holes has 40 bytes, and none at 0x28",
                      self.refusal("--at", "struct holes", "0x28"))
        self.assertIn("x is no offset", self.refusal("--at", "struct holes", "x"))
        self.assertIn("is no struct", self.refusal("--at", "enum mode", "0"))

    def test_members_by_name(self) -> None:
        self.assertEqual(self.output("--members", "b"), ["       2  struct inner  short int b",
                                                         "       1  struct packed  long int b"])
        self.assertEqual(self.output("--members", "numb*"), ["      32  struct holes  int number"])
        self.assertIn("no member is called none", self.refusal("--members", "none"))

    def test_functions_of_a_type(self) -> None:
        find = "struct holes *find(struct inner);"
        other = "int other(int (*)(struct inner *), struct holes **);"
        self.assertEqual(self.output("--functions", "struct inner"), [find])
        self.assertEqual(self.output("--functions", "struct holes"), [find, other])
        told = [json.loads(line)["how"]
                for line in self.output("--json", "--functions", "struct holes")]
        self.assertEqual(told, [["returns"], ["takes"]])

    def test_an_order_without_holes_is_what_gcc_takes(self) -> None:
        lines = self.output("--reorganize", "struct holes")
        self.assertTrue(lines[-1].endswith("/* struct holes: 32 bytes, was 40: saves 8 */"), lines)
        code = "struct inner { short a, b; };\n" + "\n".join(lines)
        code += "\n_Static_assert(sizeof(struct holes) == 32, \"\");\n"
        subprocess.run(["gcc", "-x", "c", "-fsyntax-only", "-"], input=code, text=True, check=True)
        self.assertEqual(self.output("--reorganize", "struct inner"),
                         ["/* struct inner: no order of its members is smaller than its 4 bytes"
                          " */"])
        self.assertIn("no struct", self.refusal("--reorganize", "enum mode"))
        everything = self.output("--reorganize")
        self.assertIn("struct holes {", everything)
        self.assertFalse([line for line in everything if "no order" in line])

    def test_hexadecimal(self) -> None:
        self.assertIn("\tON  = 0x12c,", self.output("--hex", "enum mode"))
        self.assertTrue(any(line.endswith("/*   0x8   0x8 */")
                            for line in self.output("--hex", "struct holes")))

    def test_records_of_a_file(self) -> None:
        raw = Path(self.folder, "raw")
        raw.write_bytes(bytes.fromhex("ffff 0100 0200 0300 0400 0500"))
        shown = ["       0  {a = -1, b = 1}", "       4  {a = 2, b = 3}",
                 "       8  {a = 4, b = 5}"]
        self.assertEqual(self.output("--show", "struct inner", str(raw)), shown)
        self.assertEqual(self.output("--show", "struct inner", str(raw), "4", "1"), shown[1:2])
        self.assertEqual(self.output("--hex", "--show", "struct inner", str(raw), "0x8"),
                         ["     0x8  {a = 4, b = 5}"])
        self.assertIn("records of 4 are asked for",
                      self.refusal("--show", "struct inner", str(raw), "4", "3"))
        raw.write_bytes(bytes(6))
        done = run(self.file, "--show", "struct inner", str(raw))
        self.assertIn("2 bytes behind the last record of 4", done.stderr)

    def test_a_star_behind_a_blank_is_a_pointers(self) -> None:
        self.assertIn("'struct ?*' is the pattern of all", self.refusal("struct *"))


@unittest.skipUnless(PROGRAM, "CTFD names no built service")
class Numbers(unittest.TestCase):
    def test_a_type_of_a_number(self) -> None:
        done = run(LUA, "--number", "218", "--plain")
        self.assertTrue(done.stdout.startswith("struct luaL_Reg {"))
        done = run(LUA, "--number", "527")
        self.assertEqual((done.returncode, done.stderr),
                         (1, "ctfd-types: no type has the number 527: they go from 1 to 526\n"))

    @unittest.skipUnless(CONVERTS, WHY_NOT)
    def test_copies_that_bit_fields_have_are_no_types_of_a_name(self) -> None:
        code = "typedef unsigned word; struct s { word a : 3, b : 5; word c; } s;"
        with tempfile.TemporaryDirectory() as folder:
            made = convert_object(folder, "bits", code)
            for words in ((), ("--all",)):
                done = run(made, "word", *words)
                self.assertEqual((done.stdout, done.stderr), ("typedef unsigned int word;\n", ""))

    def test_types_of_one_name_are_told(self) -> None:
        two = dictionary([integer(1), integer(1, 16, 2), record(6, 0, 4, 5)], b"\0int\0s\0")
        with tempfile.NamedTemporaryFile() as file:
            file.write(two)
            file.flush()
            done = run(file.name, "int")
            self.assertEqual(done.stdout, "int;\n")
            self.assertIn("2 types are called int, and this is the first", done.stderr)
            self.assertEqual(run(file.name, "--number", "2").stdout, "int;\n")


if __name__ == "__main__":
    unittest.main()
