"""The package for people: `ctfd.open`, and dictionaries as Python containers."""
import gc
import struct
import subprocess
import tempfile
import unittest
from pathlib import Path

import ctfd
from ctfd.files import compiled as compiled_command

from .support import CONVERT, EXAMPLES, PROGRAM, run
from .tools import CONVERTS, WHY_NOT, compile_object

MANY = 40_000
LUA = str(EXAMPLES / "lua.ctf")
CODE = """
struct inner { short a, b; };
struct outer { char first; struct inner in; union { int number; float real; }; unsigned low : 3;
  struct gone *gone; } outer;
"""


def many_structs() -> bytes:
    """BTF of more structs than one dictionary can have, each with an int."""
    names = b"\0int\0m\0" + b"".join(b"s%d\0" % n for n in range(MANY))
    types = struct.pack("<IIII", 1, 1 << 24, 4, 1 << 24 | 32)
    at = names.index(b"s0\0")
    for _ in range(MANY):
        types += struct.pack("<IIIIII", at, 4 << 24 | 1, 4, 5, 1, 0)
        at = names.index(b"\0", at) + 1
    header = struct.pack("<HBBIIIII", 0xEB9F, 1, 0, 24, 0, len(types), len(types), len(names))
    return header + types + names


@unittest.skipUnless(PROGRAM, "CTFD names no built service")
class Easy(unittest.TestCase):
    def test_a_program_in_parts_is_asked_as_one(self) -> None:
        """The program itself, if ctfd-convert is there, and the file that ctfd-convert writes."""
        if compiled_command.find() is None:
            self.skipTest("the compiled commands are not built")
        with tempfile.TemporaryDirectory() as folder:
            path, written = Path(folder, "many.btf"), Path(folder, "many.ctf")
            path.write_bytes(many_structs())
            self.assertEqual(run(str(path), str(written), command=CONVERT).returncode, 0)
            for one in (path, written):
                with ctfd.open(str(one), is_kept=False) as types:
                    self.assertEqual((len(types), "s0" in types), (MANY + 1, False))
                    for number in (0, MANY - 1):
                        self.assertEqual(types[f"struct s{number}"].members[0].type.name, "int")
                    with self.assertRaisesRegex(ctfd.NoSuchType, "in parts .* ask by name"):
                        types[1]

    def test_a_dictionary_is_a_container(self) -> None:
        with ctfd.open(LUA) as types:
            self.assertEqual(repr(types), "<Dictionary of 526 types, lp64>")
            self.assertEqual((len(types), len(list(types))), (526, 526))
            state = types["struct lua_State"]
            self.assertEqual((state.sizeof, state.offsetof("openupval")), (200, 56))
            self.assertEqual(state.members[0].name, "next")
            self.assertEqual(types[218].spelled, "struct luaL_Reg")
            self.assertTrue("TValue" in types and "nothing" not in types)
            self.assertEqual(types["char *"].sizeof, 8)

    def test_what_is_not_there_is_told_with_what_is_near(self) -> None:
        with ctfd.open(LUA) as types:
            with self.assertRaisesRegex(ctfd.NoSuchType, "no type is called luaL_reg; did you mean"):
                types["luaL_reg"]
            with self.assertRaisesRegex(KeyError, "no type has the number 527"):
                types[527]
            with self.assertRaisesRegex(ctfd.NoSuchType,
                                        "lua_State has no member statis; did you"):
                types["struct lua_State"].offsetof("statis")
            with self.assertRaisesRegex(ctfd.Error, "int has no members"):
                types["int"].offsetof("a")

    @unittest.skipUnless(CONVERTS, WHY_NOT)
    def test_a_program_is_converted(self) -> None:
        with tempfile.TemporaryDirectory() as folder:
            made = compile_object(folder, "code", CODE)
            with ctfd.open(made, is_kept=False) as types:
                outer = types["struct outer"]
                self.assertEqual(outer.offsetof("in.b"), 4)
                self.assertEqual(outer.offsetof("real"), 8)
                with self.assertRaisesRegex(ctfd.Error, "low of struct outer is a bit-field"):
                    outer.offsetof("low")
                with self.assertRaisesRegex(ctfd.Error, "struct gone has no size"):
                    print(types["struct gone"].sizeof)

    def test_a_service_of_its_own_ends_with_the_dictionary(self) -> None:
        types = ctfd.open(LUA)
        client = types.session.client
        del types
        gc.collect()
        with self.assertRaises(ctfd.Gone):
            client.session().ask("reset")
        with self.assertRaises(ctfd.Error):
            ctfd.open("/nowhere")


class Checks(unittest.TestCase):
    def test_what_a_reply_holds_is_checked(self) -> None:
        mypy = Path("/usr/bin/mypy")
        if not mypy.exists():
            self.skipTest("no mypy of Debian here")
        code = ("import ctfd\n\ndef size(session: ctfd.Session) -> str:\n"
                "    return session.ask('size', d=1, t=1)['size']\n")
        with tempfile.TemporaryDirectory() as folder:
            made = Path(folder, "user.py")
            made.write_text(code)
            done = subprocess.run([str(mypy), "--strict", "--cache-dir", folder, str(made)],
                                  capture_output=True, text=True, env={"MYPYPATH": str(
                                      Path(__file__).resolve().parents[1])})
            self.assertIn('got "int", expected "str"', done.stdout + done.stderr)


if __name__ == "__main__":
    unittest.main()
