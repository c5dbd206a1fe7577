"""Debug information in the forms that compilers, linkers, objcopy, dwz and dwp produce."""
from __future__ import annotations

import contextlib
import shutil
import struct
import subprocess
import unittest
from pathlib import Path
from typing import List

import ctfd
from ctfd.values.program import open_program
from ctfd.view.declare import function

from . import elf
from .support import TOOLS, compiles
from .test_convert import CODE, WithFiles

MAIN = CODE + "int main(void) { return add(first, 1); }\n"
OTHER = "#include <stddef.h>\nstruct inner { char c; }; struct own { struct inner i; } own;\n"


DIVIDED = """
#include <stdlib.h>
static __attribute__((noinline, noclone)) int pick(int n, const char *s) {
  switch (n) {
  case 1: return s[1] * 3; case 2: return s[2] + atoi(s); case 3: return s[7];
  case 4: return s[9] * n; default: abort();
  }
}
int both(int n, const char *s) { return pick(n, s) + pick(n + 1, s); }
int main(int count, char **words) { return both(count, words[0]); }
"""
ALIKE = """
static __attribute__((noinline, noclone)) long pick(long *n) { return *n * 3; }
long other(long *n) { return pick(n) + pick(n + 1); }
"""

MACHINES = """
enum color { RED, GREEN };
struct point { int x; char letter; struct point *next; short rest[3]; } first;
int area(struct point *point, enum color color) { return point->x + color; }
"""


@unittest.skipUnless(TOOLS, "no gcc or objcopy here")
class Forms(WithFiles):
    def link_program(self, name: str, *options: str) -> str:
        """A program of two units, with its object files beside it."""
        objects = [self.compile_code(f"{name}_{one}.o", code, *options)
                   for one, code in (("main", MAIN), ("other", OTHER))]
        made = str(self.folder / name)
        subprocess.run(["gcc", *options, *objects, "-o", made], check=True)
        return made

    def listing_of(self, path: str) -> List[str]:
        """All named types, and the messages of the conversion."""
        out, told = self.convert(path)
        types = self.types(out)
        types.gather([t.number for t in types.types()])
        return sorted(ctfd.listing(t) for t in types.types() if t.name and t.is_root) + [told]

    def check(self, *options: str) -> str:
        """Asserts that a program compiled with these options has the same types as one compiled
        with -g."""
        path = self.link_program("program", *options)
        self.assertEqual(self.listing_of(path), self.listing_of(self.link_program("plain", "-g")))
        return path

    def test_type_units(self) -> None:
        for version in ("-gdwarf-4", "-gdwarf-5"):
            with self.subTest(version):
                path = self.check("-g", version, "-fdebug-types-section")
                self.assertEqual(self.listing_of(f"{path}_main.o")[-1], "")

    def test_files_of_split_units(self) -> None:
        for options in (["-gdwarf-4"], ["-gdwarf-5"], ["-gdwarf-5", "-fdebug-types-section"]):
            with self.subTest(options):
                path = self.check("-g", *options, "-gsplit-dwarf")
        stale, other = sorted(self.folder.glob("*.dwo"))
        shutil.copy(other, stale)
        self.assertIn("is of another build", self.convert(path, status=2)[1])
        for one in (stale, other):
            one.unlink()
        self.assertIn("-gsplit-dwarf), and there is none at", self.convert(path, status=2)[1])

    @unittest.skipUnless(shutil.which("dwp"), "no dwp here")
    def test_a_package_of_split_units(self) -> None:
        path = self.link_program("program", "-g", "-gdwarf-4", "-gsplit-dwarf")
        said = self.listing_of(path)
        subprocess.run(["dwp", "-e", path, "-o", f"{path}.dwp"], check=True)
        for one in self.folder.glob("*.dwo"):
            one.unlink()
        self.assertEqual(self.listing_of(path), said)

    def test_compressed_sections(self) -> None:
        for how in ("zlib", "zlib-gnu"):
            with self.subTest(how):
                path = self.link_program("program", "-g")
                said = self.listing_of(path)
                subprocess.run(["objcopy", f"--compress-debug-sections={how}", path], check=True)
                self.assertEqual(self.listing_of(path), said)

    @unittest.skipUnless(shutil.which("dwz"), "no dwz here")
    def test_a_file_that_dwz_moved_parts_to(self) -> None:
        plain = self.listing_of(self.link_program("one", "-g"))
        shutil.copy(self.folder / "one", self.folder / "two")
        subprocess.run(["dwz", "-m", "common", "-M", "common", "one", "two"], check=True,
                       cwd=self.folder)
        self.assertEqual(self.listing_of(str(self.folder / "two")), plain)
        (self.folder / "common").unlink()
        self.assertIn("a file that dwz made, which is not at",
                      self.convert(str(self.folder / "two"), status=2)[1])

    @unittest.skipUnless(compiles("-gdwarf64"), "a gcc without -gdwarf64 here")
    def test_offsets_of_64_bits(self) -> None:
        self.check("-g", "-gdwarf64")

    def of_clang(self, machine: str, *options: str) -> str:
        """An object file for another machine."""
        made = str(self.folder / f"{machine}.o")
        source = self.file("machine.c", MACHINES.encode())
        subprocess.run(["clang", f"--target={machine}", "-g", "-O1", "-w", *options, "-c", source,
                        "-o", made], check=True)
        return made

    @unittest.skipUnless(shutil.which("clang"), "no clang here")
    def test_object_files_of_other_machines(self) -> None:
        for machine in ("aarch64-linux-gnu", "armv7-linux-gnueabihf", "riscv64-linux-gnu",
                        "powerpc64le-linux-gnu", "i386-linux-gnu", "bpfel"):
            for version in ("-gdwarf-4", "-gdwarf-5"):
                with self.subTest(machine, version=version):
                    out, _ = self.convert(self.of_clang(machine, version), "--section")
                    types = self.types(out)
                    point = types.find("struct point")
                    pointer = types.pointer_size
                    self.assertEqual(self.members(point), [
                        ("x", 0, "int"), ("letter", 32, "char"),
                        ("next", 64, "struct point *"), ("rest", 64 + 8 * pointer, "short [3]")])
                    self.assertEqual([e.name for e in types.find("enum color").enumerators],
                                     ["RED", "GREEN"])
                    if pointer == 8:  # 32-bit symbols are not read
                        found = types.symbol("area")
                        assert isinstance(found, ctfd.Signature)
                        self.assertEqual([t.spelled for t in found.arguments],
                                         ["struct point *", "enum color"])

    @unittest.skipUnless(shutil.which("clang"), "no clang here")
    def test_what_is_not_read_is_told_by_its_cause(self) -> None:
        out, big = self.convert(self.of_clang("powerpc64-linux-gnu"))
        self.assertIn("it is of a big-endian machine: its types are read", big)
        self.assertEqual(self.types(out).find("struct point").size, 24)
        path = self.compile_code("code.o", CODE)
        data = bytearray(Path(path).read_bytes())
        data[18:20] = b"\x2b\0"  # SPARC
        self.assertRegex(self.convert(self.file("sparc.o", bytes(data)), status=2)[1],
                         r"a relocation of a kind that is not known .*: name the linked program")
        whole = bytearray(Path(self.compile_code("packed.o", CODE, "-g", "-gz")).read_bytes())
        at = whole.index(struct.pack("<IIQ", 1, 0, 0)[:8], 64)
        whole[at] = 2
        self.assertRegex(self.convert(self.file("zstd.o", bytes(whole)), status=2)[1],
                         r"\.debug_\w+ does not inflate to the size that its header states: it is "
                         r"damaged"
                         r"|built without libzstd: objcopy --decompress-debug-sections")

    def test_sections_that_zstd_compressed(self) -> None:
        """A section compressed by zstd is read, and refused if its header states a wrong size."""
        for options in ("-g", "-gdwarf-4 -fdebug-types-section", "-m32 -g"):
            if not compiles(*options.split()):
                continue
            path = self.compile_code("code.o", CODE, *options.split())
            packed = str(self.folder / "packed.o")
            done = subprocess.run(["objcopy", "--compress-debug-sections=zstd", path, packed])
            if done.returncode:
                self.skipTest("this objcopy has no zstd")
            data = Path(packed).read_bytes()
            found = elf.section_named(data, ".debug_info")
            self.assertTrue(found.flags & 0x800 and found.bytes(data)[0] == 2)
            out, said = self.convert(packed, "--lossy")
            if "built without libzstd" in said:
                self.skipTest("the commands were built without libzstd")
            self.assertEqual(Path(out).read_bytes(),
                             Path(self.convert(path, "--lossy")[0]).read_bytes())
            size = found.offset + (8 if elf.model(data) == "lp64" else 4)
            for more in (1, 1 << 20, 1 << 31):
                wrong = bytearray(data)
                struct.pack_into("<I", wrong, size, more)
                self.assertIn("does not inflate to the size that its header states: it is damaged",
                              self.convert(self.file("wrong.o", bytes(wrong)), status=2)[1])

    def test_archives(self) -> None:
        self.link_program("program", "-g")
        objects = [f"program_{one}.o" for one in ("main", "other")]
        for kind in ("rc", "rcT"):
            with self.subTest(kind):
                made = str(self.folder / f"{kind}.a")
                subprocess.run(["ar", kind, made, *objects], check=True, cwd=self.folder)
                types = self.types(self.convert(made)[0])
                self.assertEqual([types.find(f"struct {one}").size for one in ("own", "node")],
                                 [1, 32])

    def test_a_definition_is_told_before_a_declaration(self) -> None:
        code = "extern int all[]; int all[] = {1, 2, 3}; int *at = all;"
        whole = self.types(self.convert(self.compile_code("code.o", code), "--section")[0])
        found = whole.symbol("all")
        assert isinstance(found, ctfd.Type)
        self.assertEqual(ctfd.declaration(found, "all"), "int all[3]")


@unittest.skipUnless(TOOLS, "no gcc or objcopy here")
class DividedFunctions(WithFiles):
    def signatures(self, compiler: str, *options: str) -> List[str]:
        """The signature of each function `pick`, in the order of their addresses."""
        names = [Path(self.file(f"{name}.c", code.encode())).name
                 for name, code in (("alike", ALIKE), ("divided", DIVIDED))]
        made = str(self.folder / "program")
        subprocess.run([compiler, "-O2", "-w", *options, *names, "-o", made], check=True,
                       cwd=self.folder)
        out = self.convert(made, "--section")[0]
        found = open_program(self.session, out)
        listed = sorted(found.symbols["pick"], key=lambda one: one.address)
        return [function(found.types.function(one.number), "pick") for one in listed]

    def test_it_is_told_by_its_ranges(self) -> None:
        """A function of several ranges has its own type, although another function has its name."""
        forms = [("gcc", f"-gdwarf-{version}", *split) for version in (2, 3, 4, 5)
                 for split in ((), ("-gsplit-dwarf",)) if version > 3 or not split]
        if shutil.which("clang"):
            forms += [("clang", "-fbasic-block-sections=all", f"-gdwarf-{version}", *split)
                      for version in (4, 5) for split in ((), ("-gsplit-dwarf",))]
        for compiler, *options in forms:
            with self.subTest(compiler, options=options):
                self.assertEqual(sorted(self.signatures(compiler, *options)),
                                 ["int pick(int, const char *)", "long int pick(long int *)"]
                                 if compiler == "gcc" else
                                 ["int pick(int, const char *)", "long pick(long *)"])

    def test_a_name_alone_does_not_tell_what_no_other_file_sees(self) -> None:
        source = self.file("plain.c", b"static int pick(char c) { return c; }"
                                      b" int (*used)(char) = pick;")
        plain = str(self.folder / "plain.o")
        subprocess.run(["gcc", "-c", source, "-o", plain], check=True)
        made = self.compile_code("alike.o", ALIKE + "int main(void) { return other(0); }", "-g",
                                 "-O2")
        program = str(self.folder / "two")
        subprocess.run(["gcc", plain, made, "-o", program], check=True)
        found = open_program(self.session, self.convert(program, "--section")[0])
        told = []
        for one in found.symbols["pick"]:
            with contextlib.suppress(ctfd.NotFound):
                told.append(function(found.types.function(one.number), "pick"))
        self.assertEqual(told, ["long int pick(long int *)"])


if __name__ == "__main__":
    unittest.main()
