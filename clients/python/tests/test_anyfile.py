"""Any program: its types are converted when it is read, and cached."""
import os
import shutil
import subprocess
import tempfile
import unittest
from pathlib import Path
from typing import List
from unittest import mock

import ctfd
from ctfd.client.gather import ALL_LISTS
from ctfd.files import anyfile, compiled as compiled_command
from ctfd.files.anyfile import FileOptions
from ctfd.files.cache import Cache, key, user_cache
from ctfd.files.opening import Opener

from .support import EXAMPLES, compiles
from .tools import CONVERTS, WHY_NOT, command, compile_object
from .whole.catalog import Catalog

CODE = """
struct point { int x, y; struct point *next; } first;
int moved(struct point *from, long by) { return from->x + by; }
int main(void) { return moved(&first, 1); }
"""
PLAIN = "struct point {\n\tint x;\n\tint y;\n\tstruct point *next;\n};\n"


class Folder(unittest.TestCase):
    """A test with a folder, and a cache in it."""

    def setUp(self) -> None:
        self.folder = tempfile.mkdtemp()
        self.addCleanup(shutil.rmtree, self.folder)
        told = mock.patch.dict(os.environ, {"XDG_CACHE_HOME": f"{self.folder}/cache"})
        told.start()
        self.addCleanup(told.stop)
        self.cache = Path(self.folder, "cache", "ctfd")

    def names(self, path: str, keeps: bool = True) -> List[str]:
        """The names of all types and members, read by the package, which caches conversions."""
        with ctfd.connect() as client:
            opener = Opener(client.session(), FileOptions(cache=user_cache if keeps else None))
            catalog = Catalog(opener.open(path), ALL_LISTS)
            return [name for number in catalog.numbers for name in (
                catalog[number].name, *(one.name for one in catalog[number].members))]

    def output(self, *words: str) -> str:
        done = command("ctfd-types", *words)
        self.assertEqual((done.returncode, done.stderr), (0, ""))
        return done.stdout


@unittest.skipUnless(CONVERTS, WHY_NOT)
class Programs(Folder):
    def program(self, *options: str) -> str:
        source, made = Path(self.folder, "code.c"), f"{self.folder}/program"
        source.write_text(CODE)
        subprocess.run(["gcc", "-g", *options, str(source), "-o", made], check=True)
        return made

    def test_a_program_is_read_as_it_is(self) -> None:
        made = self.program()
        self.assertEqual(self.output("--plain", made, "struct point"), PLAIN)
        self.assertEqual(self.output(made, "moved"), "int moved(struct point *, long int);\n")
        self.assertFalse(self.cache.exists())
        for _ in range(2):
            self.assertIn("point", self.names(made))
            self.assertEqual(len(list(self.cache.iterdir())), 1)

    def test_a_kept_one_is_taken(self) -> None:
        made = self.program()
        self.names(made)
        with mock.patch.object(compiled_command, "bundle", side_effect=AssertionError):
            kept = anyfile.read(made, FileOptions(cache=user_cache))
        self.assertTrue(kept.is_made and kept.sources[0].sym)
        self.assertEqual(kept.sources[0].how, "named")

    def test_nothing_is_kept_where_nothing_is_to_be(self) -> None:
        self.names(self.program(), keeps=False)
        self.assertFalse(self.cache.exists())

    def test_another_program_by_the_same_build_id_is_another(self) -> None:
        made = self.program("-Wl,--build-id=0x1234")
        self.names(made)
        Path(self.folder, "code.c").write_text(CODE.replace("int x, y;", "int x, y, zeta;"))
        subprocess.run(["gcc", "-g", "-Wl,--build-id=0x1234", f"{self.folder}/code.c", "-o", made],
                       check=True)
        self.assertIn("zeta", self.names(made))

    def test_one_that_was_stripped_tells_what_it_exports(self) -> None:
        made = self.program("-shared", "-fPIC")
        shutil.copy(made, f"{self.folder}/whole")
        subprocess.run(["objcopy", "--only-keep-debug", made, f"{made}.debug"], check=True)
        subprocess.run(["strip", made], check=True)
        subprocess.run(["objcopy", f"--add-gnu-debuglink={made}.debug", made], check=True)
        self.assertEqual(self.output(made, "moved"), "int moved(struct point *, long int);\n")

    def test_a_pipe_and_an_archive(self) -> None:
        made = compile_object(self.folder, "code", CODE)
        subprocess.run(["ar", "rc", f"{self.folder}/libcode.a", made], check=True)
        self.assertEqual(self.output("--plain", f"{self.folder}/libcode.a", "struct point"), PLAIN)
        os.mkfifo(f"{self.folder}/pipe")
        with subprocess.Popen(["sh", "-c", f"cat {made} > {self.folder}/pipe"]):
            self.assertEqual(self.output("--plain", f"{self.folder}/pipe", "struct point"), PLAIN)

    @unittest.skipUnless(compiles("-m32"), "no gcc with -m32 here")
    def test_a_program_of_32_bits_tells_its_symbols(self) -> None:
        made = compile_object(self.folder, "code", CODE, "-m32")
        self.assertEqual(self.output(made, "moved"), "int moved(struct point *, long int);\n")
        self.assertEqual(self.output(made, "moved"), "int moved(struct point *, long int);\n")

    def test_words_in_any_order(self) -> None:
        made = self.program()
        for words in ((made, "--plain", "struct point"), ("struct point", made, "--plain")):
            self.assertEqual(self.output(*words), PLAIN)

    def test_what_goes_with_a_dictionary_alone(self) -> None:
        done = command("ctfd-types", "--symbols", str(EXAMPLES / "lua.sym"), self.program())
        self.assertEqual((done.returncode, done.stderr.count("\n")), (1, 1))
        self.assertIn("--symbols and --strings go with a dictionary", done.stderr)


class Caches(Folder):
    def test_what_was_kept_comes_back(self) -> None:
        cache = Cache(self.cache)
        kept = b"\xf1\xcf\x02\n\n"
        self.assertIsNone(cache.get("name"))
        cache.put("name", kept)
        self.assertEqual(cache.get("name"), kept)

    def test_a_damaged_one_counts_as_none(self) -> None:
        cache = Cache(self.cache)
        for data in (b"", b"\n", b"{}\nx", b"0" * 32 + b"\nx", b"\xff\nx", b"x"):
            cache.put("name", b"x")
            (self.cache / "name.ctf").write_bytes(data)
            self.assertIsNone(cache.get("name"))

    def test_the_oldest_go(self) -> None:
        cache = Cache(self.cache, 10_000)
        for number in range(8):
            cache.put(f"name{number}", bytes(3000))
            os.utime(self.cache / f"name{number}.ctf", (number, number))
        names = sorted(path.name for path in self.cache.iterdir())
        self.assertEqual(names, ["name5.ctf", "name6.ctf", "name7.ctf"])
        cache.put("large", bytes(20_000))
        self.assertIsNone(cache.get("large"))

    def test_a_folder_of_others_is_not_used(self) -> None:
        self.cache.mkdir(parents=True)
        self.cache.chmod(0o777)
        cache = Cache(self.cache)
        cache.put("name", b"x")
        self.assertEqual(list(self.cache.iterdir()), [])
        self.assertIsNone(Cache(Path("/proc/nowhere")).get("name"))
        Cache(Path("/proc/nowhere")).put("name", b"x")

    def test_a_key_is_of_the_bytes_and_of_what_was_asked(self) -> None:
        paths = [Path(self.folder, str(number)) for number in range(4)]
        for path, data in zip(paths, (b"a", b"b", b"", b"a")):
            path.write_bytes(data)
        keys = [*map(key, map(str, paths)), key(str(paths[0]), ["dwarf"])]
        self.assertEqual((len(set(keys)), keys[0]), (4, keys[3]))


if __name__ == "__main__":
    unittest.main()
