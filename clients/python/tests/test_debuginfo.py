"""Debug files of hostile dictionaries and damaged files: finished in time, or refused with one
line."""
import random
import struct
import subprocess
import tempfile
import time
import unittest
from pathlib import Path
from typing import Callable, Dict

from .support import (DEBUGINFO, FUNCTION, POINTER, STRUCT, TOOLS, dictionary, integer, member,
                      object_file, record)
from .test_hostile import cycles, deep_value, doubles, many
from .tools import command

SECONDS = 5
DAMAGES = 150
NAME = "ctfd-debuginfo"


@unittest.skipUnless(DEBUGINFO.exists(), "ctfd-debuginfo is not compiled")
class WithFolder(unittest.TestCase):
    def setUp(self) -> None:
        made = tempfile.TemporaryDirectory()
        self.addCleanup(made.cleanup)
        self.folder = Path(made.name)

    def debug_file(self, path: Path, *words: str) -> bytes:
        """The output of the command for a file; b"" if it refuses the file, with one line."""
        out = self.folder / "out.debug"
        out.unlink(missing_ok=True)
        began = time.monotonic()
        done = command(NAME, str(path), str(out), *words)
        self.assertLess(time.monotonic() - began, SECONDS, path)
        if done.returncode == 0:
            return out.read_bytes()
        self.assertEqual(done.returncode, 2, done.stderr)
        self.assertRegex(done.stderr, rf"\A{NAME}: [^\n]+\n\Z")
        self.assertFalse(out.exists())
        return b""

    def types(self, data: bytes) -> Path:
        path = self.folder / "types.ctf"
        path.write_bytes(data)
        return path


class HostileDictionaries(WithFolder):
    def test_all_end(self) -> None:
        for make in (cycles, deep_value, doubles, many):
            self.assertTrue(self.debug_file(self.types(make())), make.__name__)

    @unittest.skipUnless(TOOLS, "no gcc or objcopy here")
    def test_arguments_that_hold_each_other(self) -> None:
        """A function that takes all types of a dictionary."""
        for make in (cycles, deep_value, doubles, many):
            path = object_file(str(self.folder), taking_all(make), code="int f(void) { return 1; }")
            self.assertTrue(self.debug_file(path), make.__name__)

    def test_the_same_bytes_each_time(self) -> None:
        path = self.types(cycles())
        self.assertEqual(self.debug_file(path), self.debug_file(path))


def taking_all(make: Callable[[], bytes]) -> bytes:
    """A dictionary with one symbol, a function that takes all its types."""
    data = make()
    types, strings = struct.unpack_from("<II", data, 24)
    count = {cycles: 7, deep_value: 500, doubles: 99, many: 3}[make]
    entry = struct.pack(f"<HH{count}H", FUNCTION << 11 | 1 << 10 | count, 1, *range(1, count + 1))
    entry += bytes(-len(entry) % 4)
    head = data[:4] + struct.pack("<8I", 0, 0, 0, 0, 0, types + len(entry), strings + len(entry),
                                  *struct.unpack_from("<I", data, 32))
    return head + entry + data[36:]


@unittest.skipUnless(TOOLS, "no gcc or objcopy here")
class DamagedFiles(WithFolder):
    def test_damage_is_told(self) -> None:
        """Each damaged file becomes a debug file, or is refused with a line."""
        luck = random.Random(1)
        types = dictionary([integer(1), record(STRUCT, 1, 4, 5, member(7, 1, 0)),
                            record(POINTER, 0, 2)], b"\0int\0s\0x\0")
        whole = object_file(str(self.folder), types, code="int x; int f(int a) { return a + x; }",
                            options=["-fPIC"])
        linked = self.folder / "linked"
        subprocess.run(["gcc", "-shared", "-o", str(linked), str(whole)], check=True)
        for place in range(64):
            self.check_damaged(linked.read_bytes(), {place: 255})
        for number in range(DAMAGES):
            data = (linked if number % 2 else whole).read_bytes()
            data = data[:luck.choice((len(data), 1 + luck.randrange(len(data) - 1)))]
            # Headers are at the end.
            places = [luck.randrange(len(data)), max(0, len(data) - luck.randrange(2200) - 1)]
            self.check_damaged(data, {at: luck.choice((0, 1, 255)) for at in places})

    def check_damaged(self, data: bytes, turned: Dict[int, int]) -> None:
        """Checks that a file with some bytes changed becomes a debug file, or is refused."""
        damaged = bytearray(data)
        for place, byte in turned.items():
            damaged[place] = byte
        path = self.folder / "damaged"
        path.write_bytes(damaged)
        self.debug_file(path)


if __name__ == "__main__":
    unittest.main()
