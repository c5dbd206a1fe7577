"""The command `ctfd-types`, run as a user would."""
import os
import subprocess
import tempfile
import unittest
from pathlib import Path

from .support import (EXAMPLES, PROGRAM, TOOLS, compiles, dictionary, integer, object_file, run,
                      staged_dictionaries)
from .test_listing import DEBUG, MATCH

LUA = str(EXAMPLES / "lua.ctf")


@unittest.skipUnless(PROGRAM, "CTFD names no built service")
class Command(unittest.TestCase):
    def output(self, *words: str) -> str:
        done = run(*words)
        self.assertEqual((done.returncode, done.stderr), (0, ""))
        return done.stdout

    def refusal(self, *words: str) -> str:
        done = run(*words)
        self.assertEqual((done.returncode, done.stdout), (1, ""))
        return done.stderr

    def test_one_type(self) -> None:
        self.assertEqual(self.output(LUA, "struct lua_Debug"), DEBUG + "\n")
        self.assertEqual(self.output(LUA, "lua_Debug"), DEBUG + "\n")
        self.assertEqual(self.output("--plain", LUA, "MatchState"), MATCH + "\n")

    def test_all_types_of_a_name(self) -> None:
        two = dictionary([integer(1), integer(1, 16, 2)], b"\0int\0")
        with tempfile.NamedTemporaryFile() as file:
            file.write(two)
            file.flush()
            first = run(file.name, "int")
            self.assertEqual((first.returncode, first.stdout), (0, "int;\n"))
            self.assertIn("2 types are called int, and this is the first", first.stderr)
            self.assertEqual(self.output("--all", file.name, "int"), "int;\nint;\n")
            self.assertEqual(self.output("--all", file.name, "int *"), "int *;\n")

    def test_all_types(self) -> None:
        lines = self.output(LUA).splitlines()
        self.assertEqual((len(lines), lines[3]), (526, "     4       24  struct __va_list_tag"))

    def test_a_pipe_is_read_and_a_device_is_not(self) -> None:
        with tempfile.TemporaryDirectory() as folder:
            pipe = str(Path(folder, "pipe"))
            os.mkfifo(pipe)
            with subprocess.Popen(["cp", LUA, pipe]) as copying:
                try:
                    self.assertEqual(self.output(pipe, "struct lua_Debug"), DEBUG + "\n")
                finally:
                    copying.kill()  # it waits for a reader, if no command opened the pipe
        for device in ("/dev/zero", "/dev/null"):
            self.assertEqual(self.refusal(device).splitlines(), [
                f"ctfd-types: {device}: not a regular file: devices and the like are not read"])

    def test_a_function(self) -> None:
        beside = ("--symbols", str(EXAMPLES / "lua.sym"), "--strings", str(EXAMPLES / "lua.str"))
        told = self.output(*beside, LUA, "closepaux")
        self.assertEqual(told, "void closepaux(lua_State *, void *);\n")

    def test_a_model(self) -> None:
        for words, size in (((), 8), (("--model", "lp64"), 8), (("--model", "ilp32"), 4)):
            lines = self.output(*words, LUA).splitlines()
            self.assertEqual(lines[59], f"    60 {size:>8}  struct lua_State *")

    def test_a_model_that_is_none(self) -> None:
        done = run("--model", "lp32", LUA)
        self.assertEqual((done.returncode, done.stdout), (2, ""))
        self.assertIn("--model", done.stderr)

    def test_a_child(self) -> None:
        with tempfile.TemporaryDirectory() as folder:
            for name, ctf in zip(("parent", "child"), staged_dictionaries("parent.jsonl")):
                (Path(folder) / name).write_bytes(ctf)
            child, parent = f"{folder}/child", f"{folder}/parent"
            told = self.output("--parent", parent, child)
            self.assertEqual(told, " 32769        8  struct point *\n")
            told = self.output("--model", "ilp32", "--parent", parent, child)
            self.assertEqual(told, " 32769        4  struct point *\n")
            alone = run(child)
            self.assertEqual((alone.returncode, alone.stdout),
                             (0, " 32769        8  (NoParent)\n"))
            self.assertIn("is a child of p, whose types it names", alone.stderr)
            self.assertIn("NotChild", self.refusal("--parent", child, parent))

    @unittest.skipUnless(TOOLS, "no gcc or objcopy here")
    def test_an_object_file(self) -> None:
        with tempfile.TemporaryDirectory() as folder:
            made = object_file(folder, Path(LUA).read_bytes())
            self.assertEqual(self.output(str(made), "lua_Debug"), DEBUG + "\n")

    @unittest.skipUnless(compiles("-m32"), "no gcc with -m32, or no objcopy, here")
    def test_an_object_file_of_32_bits(self) -> None:
        with tempfile.TemporaryDirectory() as folder:
            made = str(object_file(folder, Path(LUA).read_bytes(), options=["-m32"]))
            self.assertIn("    60        4  struct lua_State *\n", self.output(made))
            self.assertIn("    60        8  struct lua_State *\n",
                          self.output("--model", "lp64", made))
            said = self.refusal(made, "closepaux")
            self.assertIn("no type or symbol is called closepaux", said)
            self.assertIn("symbol table has 32 bits, which is not read", said)
            self.assertIn("ModelDiffers", self.refusal("--parent", LUA, self.child_of_32(folder)))

    def child_of_32(self, folder: str) -> str:
        """A file of 32 bits whose dictionary is a child."""
        return str(object_file(folder, staged_dictionaries("parent.jsonl")[1], options=["-m32"]))

    def test_what_is_refused(self) -> None:
        self.assertIn("no type or symbol is called nothing", self.refusal(LUA, "nothing"))
        self.assertIn("neither an ELF file nor a CTF section", self.refusal(__file__))
        self.assertIn("No such file", self.refusal("/nowhere"))
        with tempfile.NamedTemporaryFile() as file:
            file.write(Path(LUA).read_bytes()[:9000])
            file.flush()
            self.assertIn("PastEnd: the list is cut off", self.refusal(file.name))


if __name__ == "__main__":
    unittest.main()
