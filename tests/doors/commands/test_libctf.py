"""Tests of libctf's calls in libctfd.so, with a program that was written for libctf."""
from __future__ import annotations

import glob
import struct
import subprocess
from pathlib import Path

from ..sections import (CONST, NOBITS, POINTER, PROGBITS, STRTAB, SYMTAB, Part, array, elf, integer,
                       record, section, symbol)
from ..support import CLIENTS, LIBRARY, Case, Outcome, Word, run

OPENS = Path(__file__).parents[1] / "opens.c"
NAMES = b"\0char\0"
LABEL = b"ctfd.symbols=.symtab,1,0,"
# Types 1 to 6: char, char *, char *[12], const of that, a pointer to it, and an array of const
# rows.
ROWS = section([integer(1, 8), record(POINTER, 0, 1), array(2, 1, 12), record(CONST, 0, 3),
                record(POINTER, 0, 4), array(4, 1, 3)], NAMES)


class Libctf(Case):
    def setUp(self) -> None:
        super().setUp()
        if not LIBRARY.exists():
            self.skipTest("there is no libctfd.so: `make` builds it")
        self.needs("gcc")
        self.program = self.folder / "opens"
        subprocess.run(["gcc", "-Wall", "-I", str(CLIENTS / "c"), str(OPENS), "-o",
                        str(self.program), str(LIBRARY), f"-Wl,-rpath,{LIBRARY.parent}"],
                       check=True)

    def open_bytes(self, data: bytes, *words: Word, **environment: str) -> Outcome:
        """Runs the program that opens files on these bytes."""
        file = self.folder / "opened"
        file.write_bytes(data)
        done = run(self.program, file, *words, environment=environment)
        self.assert_tame(done, words)
        return done

    def declarations(self, data: bytes) -> dict[int, list[str]]:
        """The name of each type, by number, and the declaration of `v` with that type."""
        lines = [line.split("\t") for line in self.open_bytes(data, "named").output.splitlines()]
        return {int(line[0]): line[1:] for line in lines if len(line) == 3}

    def test_names_are_c(self) -> None:
        """A qualifier of an array belongs to its elements; gcc checks this with typedefs."""
        names = self.declarations(ROWS)
        self.assertEqual(names[4], ["char *const [12]", "char *const v[12]"])
        self.compile(
            "typedef char *row[12]; extern const row v; extern const row grid[3];\n"
            f"extern {names[4][1]};\n"
            f"_Static_assert(__builtin_types_compatible_p({names[5][0]}, const row *), \"\");\n"
            f"_Static_assert(__builtin_types_compatible_p({names[5][0]}, __typeof__(&v)), \"\");\n"
            f"_Static_assert(!__builtin_types_compatible_p({names[5][0]}, row *), \"\");\n"
            f"extern {names[6][1].replace(' v', ' grid').replace('*const v', '*const grid')};\n")

    def test_a_short_buffer_is_told(self) -> None:
        told = self.open_bytes(ROWS).output.splitlines()[-1]
        self.assertRegex(told, "^two bytes: .*buffer")
        self.assertNotIn("65,536", told)

    def test_beside_gnu_libctf(self) -> None:
        """In one process with GNU's libctf, which has the same names, each calls its own
        functions."""
        theirs = glob.glob("/usr/lib/*/libctf.so.0") + glob.glob("/usr/lib/libctf.so.0")
        if not theirs:
            self.skipTest("there is no libctf of GNU's here (Debian: libctf0)")
        alone = self.open_bytes(ROWS, "named")
        beside = self.open_bytes(ROWS, "named", LD_PRELOAD=theirs[0])
        self.assertEqual((beside.status, beside.output), (alone.status, alone.output))

    def test_exports_have_a_version(self) -> None:
        self.needs("readelf")
        done = run("readelf", "-W", "--dyn-syms", LIBRARY)
        exported = [line.split()[-1] for line in done.output.splitlines() if "ctf_open" in line]
        self.assertTrue(exported)
        self.assertTrue(all("@@CTFD_" in name for name in exported), exported)

    def file_of(self, ctf: bytes, symbols: bytes, strings: Part, entry: int = 24) -> bytes:
        return elf([Part(".SUNW_ctf", PROGBITS, ctf, 2), Part(".symtab", SYMTAB, symbols, 3, entry),
                    strings])

    def test_names_that_are_not_in_the_file(self) -> None:
        strings = Part(".strtab", NOBITS, b"", size=4096)
        done = self.open_bytes(self.file_of(ROWS, symbol(1) * 8, strings))
        self.assertEqual((done.status, done.output), (1, "refused: the ELF file is damaged\n"))

    def test_entries_of_one_byte(self) -> None:
        strings = Part(".strtab", STRTAB, b"\0one\0")
        done = self.open_bytes(self.file_of(ROWS, symbol(1) * 300_000, strings, entry=1))
        self.assertEqual(done.status, 1)
        self.assertRegex(done.output, "^refused: BadSymtab")

    def test_symbols_of_one_long_name(self) -> None:
        label = LABEL + b"00000000\0"
        ctf = section([integer(1, 8)], NAMES + label, struct.pack("<II", len(NAMES), 1))
        strings = Part(".strtab", STRTAB, b"\0" + b"n" * (8 << 20) + b"\0")
        for at in (lambda n: 1, lambda n: 1 + n):
            table = b"".join(symbol(at(n)) for n in range(200_000))
            done = self.open_bytes(self.file_of(ctf, table, strings))
            self.assertEqual((done.status, done.output),
                             (1, "refused: the ELF file is damaged\n"))

    def test_labels_that_name_an_unended_text(self) -> None:
        names = NAMES + LABEL + b"1" * (8 << 20)
        labels = struct.pack("<II", len(NAMES), 1) * 200_000
        ctf = section([integer(1, 8)], names, labels)
        done = self.open_bytes(self.file_of(ctf, symbol(1), Part(".strtab", STRTAB, b"\0one\0")))
        self.assertEqual(done.status, 1)
        self.assertRegex(done.output, "^refused: Bad")

    def test_a_file_that_is_cut_while_it_is_open(self) -> None:
        """The file is read, not mapped, so cutting it does no harm."""
        maps = self.folder / "strace"
        self.needs("strace")
        file = self.folder / "cut"
        file.write_bytes(self.file_of(ROWS, symbol(1), Part(".strtab", STRTAB, b"\0one\0")))
        run("strace", "-f", "-o", maps, "-e", "trace=mmap,openat", self.program, file)
        self.needs_no_map(maps.read_text(), str(file))

    def needs_no_map(self, trace: str, file: str) -> None:
        opened = [line.rsplit("= ", 1)[1] for line in trace.splitlines()
                  if f'"{file}"' in line and "= " in line]
        self.assertTrue(opened)
        last = trace.split(f'"{file}"', 1)[1]
        for number in opened:
            self.assertNotRegex(last, rf"mmap\([^)]*, {number}, ")
