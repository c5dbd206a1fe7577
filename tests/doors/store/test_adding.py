"""Tests of `ctfd-store add` with programs, debug files, folders and packages."""
from __future__ import annotations

import shutil
import subprocess

from ..support import tool

from .support import (DEBUG, SOURCE, StoreCase, build_id, contents, run, section_bytes,
                      sections)

SECTIONS = (".SUNW_ctf", ".symtab", ".strtab")


class Layout(StoreCase):
    def test_files_of_a_build(self) -> None:
        program = self.program()
        stripped, debug = self.split(program)
        done = self.add(debug)
        self.assertEqual(done.text, f"{self.store}: 1 added, 0 replaced, 0 the same, 0 refused\n")
        self.assert_sound()
        build = self.build(program)
        names = {"about", "debuginfo", *(f"section/{name}" for name in SECTIONS)}
        self.assertEqual(set(contents(build)), names)
        made = build / "debuginfo"
        self.assertEqual(build_id(made), build_id(program))
        self.assertLessEqual(made.stat().st_size, debug.stat().st_size)
        known = sections(made)
        self.assertIn("C", known[".debug_info"][1])
        for name in SECTIONS:
            copy = (build / "section" / name).read_bytes()
            self.assertTrue(copy)
            if name in known:
                self.assertEqual(copy, section_bytes(made, name), name)

    def test_types_are_those_of_the_program(self) -> None:
        program = self.program()
        stripped, debug = self.split(program)
        self.add(debug)
        build = self.build(program)
        for words in (["struct packet"], ["weigh"], ["shade"], ["--sizes"]):
            told = [run(tool("types"), *words[:1], path, *words[1:]).output
                    for path in (program, build / "debuginfo")]
            self.assertTrue(told[0])
            self.assertEqual(*told, words)
        told = run(tool("types"), build / "section/.SUNW_ctf", "struct packet").output
        self.assertIn("struct packet {", told)

    def test_gdb_reads_it(self) -> None:
        self.needs("gdb")
        program = self.program()
        stripped, debug = self.split(program)
        self.add(debug)
        shutil.copy(self.build(program) / "debuginfo", self.folder / "own.debug")
        done = run("gdb", "-batch", "-nx", "-ex", "ptype struct packet", "-ex", "print first",
                   "-ex", "whatis weigh", self.folder / "own.debug")
        self.assertIn("short port;", done.output.replace("short int", "short"))
        self.assertIn("$1 = {kind = 0 '\\000', next = 0x0, port = 0}", done.output)
        self.assertIn("type = int (struct packet *, int)", done.output)

    def test_the_dictionary_stands_in_the_file_unless_that_grows(self) -> None:
        members = "\n".join(f"  unsigned long quantity_of_kind_{n};" for n in range(300))
        source = SOURCE + f"struct large {{ {members} }} large;\n"
        program = self.program("large", source)
        stripped, debug = self.split(program)
        self.add(debug, program)
        made = self.build(program) / "debuginfo"
        self.assertLessEqual(made.stat().st_size, debug.stat().st_size)
        self.assert_sound()
        other = self.folder / "other"
        self.add(program, store=other)  # larger than its debug file
        self.assertIn(".SUNW_ctf", sections(self.build(program, other) / "debuginfo"))
        self.assert_sound(other)

    def test_symbols_of_sections_that_are_not_loaded(self) -> None:
        source = SOURCE + """
        static const char warning[] __attribute__((section(".gnu.warning.gone"), used)) = "x";
        """
        program = self.program("warns", source)
        self.add(program)
        self.assert_sound()
        told = run(tool("types"), self.build(program) / "debuginfo", "weigh").output
        self.assertIn("weigh", told)

    def test_programs_of_32_bits(self) -> None:
        probe = subprocess.run(["gcc", "-m32", "-x", "c", "-", "-o", "/dev/null"],
                               input=b"int main(void) { return 0; }", capture_output=True)
        if probe.returncode != 0:
            self.skipTest("gcc -m32 makes no program here")
        program = self.program("short", SOURCE, "-m32")
        self.add(program)
        self.assert_sound()
        told = run(tool("types"), self.build(program) / "debuginfo", "struct packet").output
        self.assertIn("/* size: 12,", told)

    def test_shared_libraries_and_types_by_ctf(self) -> None:
        library = self.compile(SOURCE, "-g", "-shared", "-fPIC", "-Wl,--build-id", name="libx.so")
        done = run(tool("convert"), "--section", library, self.folder / "with.so")
        self.assertEqual(done.status, 0, done.text)
        subprocess.run(["strip", "-g", self.folder / "with.so"], check=True)
        self.add(self.folder / "with.so")
        self.assert_sound()
        self.assertEqual([(one["name"], one["functions"] >= 1) for one in self.listing()],
                         [("with.so", True)])


class SameBytes(StoreCase):
    """The same files give the same bytes, in whatever order they are added."""

    def test_bytes_are_the_same(self) -> None:
        programs = [self.program(f"program{n}", SOURCE + f"int number{n};") for n in range(4)]
        stores = [self.folder / f"store{n}" for n in range(3)]
        self.add(*programs, store=stores[0])
        self.add(*reversed(programs), store=stores[1])
        for program in programs:
            self.add(program, store=stores[2])
        first, *others = map(contents, stores)
        for other in others:
            self.assertEqual(first, other)

    def test_once_more(self) -> None:
        program = self.program()
        self.add(program)
        before = contents(self.store)
        done = self.add(program)
        self.assertIn("0 added, 0 replaced, 1 the same", done.output)
        self.assertEqual(contents(self.store), before)

    def test_another_file_of_a_build(self) -> None:
        one = self.program("one", SOURCE, "-Wl,--build-id=0x1234567890")
        other = self.program("other", SOURCE + "struct more { int x; } more;",
                             "-Wl,--build-id=0x1234567890")
        self.add(one)
        done = self.add(other)
        self.assertIn("1 replaced", done.output)
        self.assert_sound()
        self.assertEqual([row["name"] for row in self.listing()], ["other.exe"])

    def test_programs_are_kept_where_that_is_asked(self) -> None:
        program = self.program()
        stripped, debug = self.split(program)
        self.add("--executables", stripped, debug)
        kept = self.build(program) / "executable"
        self.assertEqual(kept.read_bytes(), stripped.read_bytes())
        self.add(stripped, debug)
        self.assertEqual(kept.read_bytes(), stripped.read_bytes())
        self.assert_sound()
        self.assertEqual([one["name"] for one in self.listing()], ["program.stripped"])


class Places(StoreCase):
    """Folders and packages."""

    def debug_files(self) -> dict[str, bytes]:
        """Two debug files, and the common file that dwz made from them, by their paths."""
        self.needs("dwz")
        shared = "\n".join(f"struct common{n} {{ long value; struct common{n} *next; }} c{n};"
                           for n in range(40))
        programs = [self.program(f"with{n}", shared + SOURCE + f"int number{n};")
                    for n in range(2)]
        debugs = []
        for program in programs:
            out = program.with_suffix(".debug")
            subprocess.run(["objcopy", "--only-keep-debug", program, out], check=True)
            debugs.append(out)
        common = self.folder / "common"
        subprocess.run(["dwz", "-m", common, "-M", f"/{DEBUG}/.dwz/x86_64-linux-gnu/x.debug",
                        *debugs], check=True)
        made = {f"./{DEBUG}/.dwz/x86_64-linux-gnu/x.debug": common.read_bytes()}
        for program, debug in zip(programs, debugs):
            first, rest = build_id(program)[:2], build_id(program)[2:]
            made[f"./{DEBUG}/.build-id/{first}/{rest}.debug"] = debug.read_bytes()
        return made

    def test_a_package_with_what_dwz_made(self) -> None:
        package = self.package("x-dbg_1_amd64.deb", self.debug_files())
        self.add(package)
        self.assert_sound()
        self.assertEqual([(one["name"], one["types"] > 80) for one in self.listing()],
                         [("x-dbg_1_amd64", True)] * 2)

    def test_a_folder_with_what_dwz_made(self) -> None:
        folder = self.folder / "unpacked"
        for name, data in self.debug_files().items():
            place = folder / name
            place.parent.mkdir(parents=True, exist_ok=True)
            place.write_bytes(data)
        self.add(folder)
        self.assert_sound()
        self.assertEqual(len(self.listing()), 2)

    def test_a_package_of_programs_and_one_of_debug_files(self) -> None:
        program = self.program()
        stripped, debug = self.split(program)
        first, rest = build_id(program)[:2], build_id(program)[2:]
        packages = [self.package("x_1.deb", {"./usr/bin/x": stripped.read_bytes(),
                                             "./usr/share/doc/x": b"no program"}),
                    self.package("x-dbg_1.deb",
                                 {f"./{DEBUG}/.build-id/{first}/{rest}.debug": debug.read_bytes()})]
        self.add("--executables", *packages)
        self.assert_sound()
        self.assertEqual([(one["name"], one["executable"] > 0) for one in self.listing()],
                         [("x", True)])

    def test_debug_files_elsewhere(self) -> None:
        program = self.program()
        stripped, debug = self.split(program)
        first, rest = build_id(program)[:2], build_id(program)[2:]
        place = self.folder / "debug/.build-id" / first / f"{rest}.debug"
        place.parent.mkdir(parents=True)
        debug.rename(place)
        self.add("--debug-folder", self.folder / "debug", stripped)
        self.assert_sound()

    def test_packages_of_rpm(self) -> None:
        """A program and its debug file in two packages, compressed in several ways."""
        program = self.program()
        stripped, debug = self.split(program)
        first, rest = build_id(program)[:2], build_id(program)[2:]
        for number, payload in enumerate(("w9.gzdio", "w2.xzdio", "w3.zstdio")):
            defined = f"_binary_payload {payload}"
            packages = [
                self.package_of_rpm(f"x{number}", {"usr/bin/x": stripped.read_bytes()}, defined),
                self.package_of_rpm(f"x{number}-debuginfo", {
                    f"{DEBUG}/.build-id/{first}/{rest}.debug": debug.read_bytes(),
                    "usr/share/doc/x": b"text\n"}, defined)]
            store = self.folder / f"store{number}"
            self.add("--executables", *packages, store=store)
            self.assert_sound(store)
            build = self.build(program, store)
            self.assertEqual((build / "executable").read_bytes(), stripped.read_bytes())
            self.assertIn("name x\n", (build / "about").read_text())
        damaged = packages[0].read_bytes()
        packages[0].write_bytes(damaged[:len(damaged) // 2])
        done = self.add(packages[0], status=2)
        self.assertRegex(done.errors, r"x2-1-1\.x86_64\.rpm: it (is damaged|can't be unpacked)")


class Refusals(StoreCase):
    """Each refusal is named and counted, and the rest is added."""

    def test_each_by_its_name(self) -> None:
        sound = self.program()
        bare = self.compile(SOURCE, "-g", "-Wl,--build-id=none", name="bare.exe")
        untyped = self.compile(SOURCE, "-Wl,--build-id", name="untyped.exe")
        text = self.folder / "text"
        text.write_text("no program\n")
        done = self.add(sound, bare, untyped, text, self.folder / "gone", status=1)
        self.assertIn(": 1 added, 0 replaced, 0 the same, 4 refused", done.output)
        lines = done.errors.splitlines()
        self.assertEqual(len(lines), 4, lines)
        for path, why in ((bare, "it has no build-id"), (untyped, "it has no debug information"),
                          (text, "it is no program"), (self.folder / "gone", "No such file")):
            self.assertTrue(any(line.startswith(f"ctfd-store: {path}: ") and why in line
                                for line in lines), (path, lines))
        self.assert_sound()

    def test_packages_are_named(self) -> None:
        """A refusal does not name the command's temporary folder, however many packages there
        are."""
        untyped = self.compile(SOURCE, "-Wl,--build-id", name="untyped.exe")
        files = [{f"./usr/bin/x{n}": untyped.read_bytes()} for n in range(12)]
        packages = [self.package(f"x{n}.deb", one) for n, one in enumerate(files)]
        done = self.add(*packages, status=2)
        self.assertIn("x0.deb/usr/bin/x0: it has no debug information; no debug file is at ",
                      done.errors)
        self.assertIn("other places", done.errors)
        self.assertNotIn("/.ctfd-", done.errors)
        self.assertLess(max(map(len, done.errors.splitlines())), 2000)

    def test_nothing_is_added(self) -> None:
        text = self.folder / "text"
        text.write_text("no program\n")
        self.add(text, status=2)
        self.assertEqual(self.listing(), [])

    def test_lengths_of_build_ids(self) -> None:
        for length in (1, 2, 3, 7, 64, 65, 200):
            is_taken = 2 <= length <= 64
            with self.subTest(length):
                program = self.program(f"of{length}", SOURCE,
                                       f"-Wl,--build-id=0x{'5a' * length}")
                store = self.folder / f"store{length}"
                done = self.add(program, store=store, status=0 if is_taken else 2)
                if is_taken:
                    self.assert_sound(store)
                else:
                    self.assertIn(f"its build-id has {length} bytes, and debuginfod takes 2 to 64",
                                  done.errors)

    def test_an_empty_build_id(self) -> None:
        program = self.program()
        data = bytearray(program.read_bytes())
        at = data.index(b"\x04\0\0\0\x14\0\0\0\x03\0\0\0GNU\0")
        data[at + 4:at + 8] = bytes(4)
        program.write_bytes(data)
        done = self.add(program, status=2)
        self.assertIn("it has no build-id", done.errors)

    def test_core_files(self) -> None:
        program = self.program()
        data = bytearray(program.read_bytes())
        data[16] = 4
        program.write_bytes(data)
        done = self.add(program, status=2)
        self.assertIn("it is no program, library or module", done.errors)

    def test_damaged_programs(self) -> None:
        program = self.program()
        data = program.read_bytes()
        for n in range(60):
            damaged = bytearray(data)
            for k in range(20):
                at = (n * 7919 + k * 104729) % len(damaged)
                damaged[at] ^= 1 << (n + k) % 8
            path = self.folder / "damaged"
            path.write_bytes(damaged[:len(damaged) - n * 50])
            done = self.command("add", self.folder / f"store{n}", path)
            self.assertIn(done.status, (0, 2), done.text)
            if done.status == 0:
                self.assert_sound(self.folder / f"store{n}")
