"""libctf's calls find the types of a stripped program in the stores that CTFD_STORE names."""
from __future__ import annotations

import errno
import os
import shutil
import subprocess
from pathlib import Path
from typing import Optional, Tuple

from ..support import Outcome, tool

from . import servers
from .support import BUILD_IDS, HEADERS, SOURCE, StoreCase, build_id, run

# Error numbers, with a part of the message for each.
NO_TYPES = "1008: ", "no section .SUNW_ctf or .ctf"
IN_VAIN = (f"{errno.EREMOTEIO}: ",
           "the stores of CTFD_STORE gave no types: `ctfd-store fetch FILE -` says why")
NOBODY = 65534


class Libctf(StoreCase):
    def setUp(self) -> None:
        super().setUp()
        self.doors = {header: self.libctf(header) for header in HEADERS}
        self.built = self.program("exports", SOURCE, "-rdynamic")  # GNU's calls only list exports
        self.stripped, _ = self.split(self.built)
        self.add(self.built)

    def open_program(self, header: str, program: Path, stores: object = "", *words: str,
                     **environment: str) -> Outcome:
        """The output about a program, through the calls of a header."""
        kept = str(self.folder / "kept")
        asked = {"CTFD_STORE": str(stores), "DEBUGINFOD_URLS": "", "CTFD": "", "no_proxy": "*",
                 "XDG_CACHE_HOME": kept, "HOME": kept, "PATH": "/usr/bin:/bin", **environment}
        done = run(self.doors[header], program, *words, environment=asked)
        self.assert_tame(done, words, seconds=60)
        self.assertEqual(done.errors, "")
        return done

    def assert_types(self, stores: object, *words: str, **environment: str) -> None:
        """Asserts that a stripped program has the same types and symbols as with a section of its
        own."""
        whole = self.folder / "whole"
        if not whole.exists():
            run(tool("convert"), "--section", self.built, whole)
        for header in HEADERS:
            wanted = self.open_program(header, whole)
            self.assertIn("struct packet: 24 bytes\n", wanted.output)
            self.assertIn("shade: enum color\n", wanted.output)
            self.assertIn("\nweigh", wanted.output)
            told = self.open_program(header, self.stripped, stores, *words, **environment)
            self.assertEqual((told.status, told.output), (0, wanted.output))

    def assert_refused(self, why: Tuple[str, str], stores: object,
                       program: Optional[Path] = None, **environment: str) -> None:
        for header in HEADERS:
            told = self.open_program(header, program or self.stripped, stores, **environment)
            self.assertEqual(told.status, 1, told.text)
            self.assertTrue(told.output.startswith(why[0]) and why[1] in told.output, told.text)

    def test_a_folder(self) -> None:
        empty = self.folder / "empty"
        (empty / BUILD_IDS).mkdir(parents=True)
        self.assert_types(self.store)
        self.assert_types(f"file://{self.store}")
        self.assert_types(f"{empty} {self.store}")

    def test_children_that_nobody_waits_for(self) -> None:
        self.assert_types(self.store, "ignored")

    def test_a_server(self) -> None:
        self.needs("debuginfod-find")
        with servers.python(self.store, self.folder) as server:
            self.assert_types(server.url)
        self.assert_types(server.url)  # from the cache
        shutil.rmtree(self.folder / "kept")
        self.assert_refused(IN_VAIN, server.url)

    def test_programs_of_32_bits(self) -> None:
        probe = subprocess.run(["gcc", "-m32", "-x", "c", "-", "-o", "/dev/null"],
                               input=b"int main(void) { return 0; }", capture_output=True)
        if probe.returncode != 0:
            self.skipTest("gcc -m32 makes no program here")
        short = self.program("short", SOURCE, "-m32")
        stripped, _ = self.split(short)
        self.add(short)
        for header in HEADERS:
            told = self.open_program(header, stripped, self.store).output
            self.assertIn("struct packet: 12 bytes\n", told)
            self.assertIn("shade: enum color\n", told)

    def test_types_of_its_own_come_first(self) -> None:
        other = self.program("other", SOURCE.replace("short port;", "short port; long more;"))
        with_types = self.folder / "with_types"
        run(tool("convert"), "--section", other, with_types)
        told = self.open_program("illumos", with_types, self.store).output
        self.assertIn("struct packet: 32 bytes", told)

    def test_without_a_store_or_a_build(self) -> None:
        empty = self.folder / "empty"
        (empty / BUILD_IDS).mkdir(parents=True)
        for stores in ("", " \n", empty):
            self.assert_refused(NO_TYPES, stores)
        bare = self.compile(SOURCE, "-s", "-Wl,--build-id=none", name="bare.exe")
        self.assert_refused(NO_TYPES, self.store, bare)

    def test_damage_in_a_folder(self) -> None:
        place = self.store / BUILD_IDS / build_id(self.built) / "section/.SUNW_ctf"
        data = bytearray(place.read_bytes())
        data[len(data) // 2] ^= 1
        place.write_bytes(data)
        self.assert_refused(IN_VAIN, self.store)

    def test_whose_command_is_run(self) -> None:
        """No command is run that another user could have put there: beside the library, or on the
        PATH."""
        there, elsewhere = self.prefix() / "bin", self.folder / "elsewhere"
        elsewhere.mkdir()
        shutil.copy(there / "ctfd-store", elsewhere)
        self.assert_types(self.store)
        for folder in (there, elsewhere):
            folder.chmod(0o777)
        self.assert_refused(IN_VAIN, self.store)
        self.assert_refused(IN_VAIN, self.store, PATH=str(elsewhere))
        self.assert_refused(IN_VAIN, self.store, CTFD=str(elsewhere / "ctfd"))
        elsewhere.chmod(0o755)
        self.assert_types(self.store, PATH=f"/usr/bin:{elsewhere}")
        self.assert_types(self.store, CTFD=str(elsewhere / "ctfd"))
        link = self.folder / "link"
        link.symlink_to("elsewhere/../elsewhere")
        self.assert_types(self.store, PATH=f"{link}:/usr/bin")
        (elsewhere / "ctfd-store").chmod(0o777)
        self.assert_refused(IN_VAIN, self.store, PATH=f"{link}:/usr/bin")
        (elsewhere / "ctfd-store").unlink()
        (elsewhere / "ctfd-store").symlink_to("ctfd-store")
        self.assert_refused(IN_VAIN, self.store, PATH=str(elsewhere))

    def test_a_program_with_more_rights_asks_nobody(self) -> None:
        self.needs("setpriv")
        if os.geteuid() != 0 or os.statvfs(self.folder).f_flag & os.ST_NOSUID:
            self.skipTest("only root makes a program that has more rights than its user")
        self.folder.chmod(0o755)
        asked = ("setpriv", f"--reuid={NOBODY}", "--clear-groups", self.doors["illumos"],
                 self.stripped)
        environment = {"CTFD_STORE": str(self.store), "HOME": "/", "CTFD": ""}
        for mode, begins in ((0o755, "struct packet: 24 bytes"), (0o4755, NO_TYPES[0])):
            self.doors["illumos"].chmod(mode)
            done = run(*asked, environment=environment)
            self.assertTrue(done.output.startswith(begins), done.text)
