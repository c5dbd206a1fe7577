"""Stores and packages that others may have written, full disks, and several commands at once."""
from __future__ import annotations

import gzip
import os
import resource
import shutil
import signal
import subprocess
import tarfile
from pathlib import Path

from ..support import clean, tool

from .support import (BUILD_IDS, INDEX, SECONDS, SOURCE, StoreCase, archive, build_id, contents)


class Packages(StoreCase):
    def test_paths_that_lead_out(self) -> None:
        data = self.program().read_bytes()
        secret = self.folder / "secret"
        secret.write_bytes(data)
        names = ["../../escaped", "../escaped", f"{self.folder}/escaped", "usr/../../escaped",
                 "./usr/bin/sound"]
        package = self.package("x.deb", dict.fromkeys(names, data))
        before = set(self.folder.iterdir()) | {self.store}
        done = self.add(package, package)
        self.assertEqual(set(self.folder.iterdir()), before)
        self.assertIn("1 added", done.output)
        self.assertFalse(Path("/tmp/escaped").exists())

    def test_links(self) -> None:
        data = self.program().read_bytes()
        outside = self.folder / "outside"
        outside.mkdir()
        link, within = tarfile.TarInfo("./usr"), tarfile.TarInfo("./usr/bin/x")
        link.type, link.linkname = tarfile.SYMTYPE, str(outside)
        hard = tarfile.TarInfo("./hard")
        hard.type, hard.linkname = tarfile.LNKTYPE, "/etc/passwd"
        device = tarfile.TarInfo("./zero")
        device.type, device.devmajor, device.devminor = tarfile.CHRTYPE, 1, 5
        package = self.package_of("x.deb", [link, hard, device, within], {"./usr/bin/x": data})
        self.add(package)
        self.assertEqual(list(outside.iterdir()), [])
        self.assert_sound()

    def test_files_in_place_of_folders(self) -> None:
        data = self.program().read_bytes()
        members = [tarfile.TarInfo(name) for name in ("./a", "./a/b", "./c/d", "./c")]
        package = self.package_of("x.deb", members, dict.fromkeys(("./a", "./a/b", "./c/d", "./c"),
                                                                   data))
        done = self.command("add", self.store, package)
        self.assertIn(done.status, (0, 1, 2), done.text)

    def test_what_unpacks_to_too_much(self) -> None:
        header = tarfile.TarInfo("./x")
        header.size = 2000 << 20
        zeros = gzip.compress(bytes(100 << 20), 6)
        folder = self.folder / "parts"
        folder.mkdir()
        (folder / "debian-binary").write_bytes(b"2.0\n")
        (folder / "control.tar.gz").write_bytes(archive([], {}))
        (folder / "data.tar.gz").write_bytes(gzip.compress(header.tobuf()) + 20 * zeros)
        package = self.folder / "bomb.deb"
        subprocess.run(["ar", "rc", package, "debian-binary", "control.tar.gz", "data.tar.gz"],
                       cwd=folder, check=True)
        done = self.add(package, status=2)
        self.assertRegex(done.errors, "can't be unpacked|it is damaged")

    def test_damaged_packages(self) -> None:
        data = self.package("x.deb", {"./usr/bin/x": self.program().read_bytes()}).read_bytes()
        for n, end in enumerate((30, 70, 200, 400, len(data) // 2, len(data) - 1)):
            cut = self.folder / f"cut{n}.deb"
            cut.write_bytes(data[:end])
            done = self.command("add", self.store, cut)
            self.assertIn(done.status, (0, 1, 2), done.text)
        self.add(self.program())
        self.assert_sound()


class Stores(StoreCase):
    """Links and files that others put into a store."""

    def plant(self, place: str) -> Path:
        outside = self.folder / "outside"
        outside.mkdir(exist_ok=True)
        link = self.store / place
        link.parent.mkdir(parents=True, exist_ok=True)
        link.symlink_to(outside)
        return outside

    def test_links_in_place_of_folders(self) -> None:
        program = self.program()
        for n, place in enumerate((BUILD_IDS, f"{BUILD_IDS}/{build_id(program)}",
                                   f"{BUILD_IDS}/{build_id(program)}/section")):
            with self.subTest(place):
                self.store = self.folder / f"store{n}"
                outside = self.plant(place)
                done = self.command("add", self.store, program)
                self.assertEqual(done.status, 2, done.text)
                self.assertIn("it is a link or another kind of file", done.errors)
                self.assertEqual(list(outside.iterdir()), [])

    def test_links_in_place_of_files(self) -> None:
        program = self.program()
        self.add(program)
        outside = self.folder / "outside"
        for name in ("debuginfo", "about", "section/.SUNW_ctf"):
            with self.subTest(name):
                outside.write_text("kept")
                place = self.build(program) / name
                place.unlink()
                place.symlink_to(outside)
                self.command("add", self.store, program)
                self.assertEqual(outside.read_text(), "kept")
                if place.is_symlink():
                    self.assertEqual(self.command("check", self.store).status, 1)
                    place.unlink()
                    self.add(program)
        self.assert_sound()
        for name in (INDEX, ".lock"):
            outside.write_text("kept")
            (self.store / name).unlink()
            (self.store / name).symlink_to(outside)
            self.assertEqual(self.command("add", self.store, program).status, 2)
            self.assertEqual(outside.read_text(), "kept")
            (self.store / name).unlink()

    def test_pipes(self) -> None:
        program = self.program()
        self.add(program)
        place = self.build(program) / "debuginfo"
        place.unlink()
        os.mkfifo(place)
        self.assertEqual(self.command("check", self.store).status, 1)
        self.assertEqual(self.command("list", self.store).status, 2)

    def test_a_store_that_anybody_may_write(self) -> None:
        self.store.mkdir()
        self.store.chmod(0o777)
        done = self.add(self.program(), status=2)
        self.assertIn("anybody may write there", done.errors)

    def test_a_store_of_somebody_else(self) -> None:
        if os.geteuid() != 0:
            self.skipTest("needs another user's folder")
        self.store.mkdir()
        os.chown(self.store, 65534, 65534)
        done = self.add(self.program(), status=2)
        self.assertIn("it belongs to user 65534", done.errors)

    def test_names_that_are_no_build_ids(self) -> None:
        self.add(self.program())
        for name in ("ABCD", "abc", "..x", "x\x1b[7m", "ab\ncd", "\udcff" * 3):
            (self.store / BUILD_IDS / name).mkdir()
        done = self.command("check", self.store)
        self.assertEqual(done.status, 1)
        self.assertEqual(done.errors.count("no build-id"), 6)
        self.assertEqual(self.command("list", self.store).status, 0)
        self.assertEqual(self.command("remove", self.store, "../x").status, 2)

    def test_what_check_tells(self) -> None:
        program = self.program()
        self.add("--executables", program)
        whole = contents(self.store)
        for name, data in whole.items():
            path = self.store / name
            for changed in (data[:-1], data + b"x", bytes([data[0] ^ 1]) + data[1:],
                            data[:len(data) // 2] + b"?" + data[len(data) // 2 + 1:], b""):
                path.write_bytes(changed)
                done = self.command("check", self.store)
                self.assertNotEqual(done.status, 0, (name, len(changed)))
                self.assertEqual(len(done.errors.splitlines()), 1, done.errors)
            path.unlink()
            self.assertNotEqual(self.command("check", self.store).status, 0, name)
            path.write_bytes(data)
        self.assert_sound()
        (self.store / "more").write_text("x")
        self.assertIn("no file of a store", self.command("check", self.store).errors)
        (self.store / "more").unlink()
        (self.store / f"{INDEX}.asc").write_text("a signature")
        self.assert_sound()

    def test_files_that_belong_elsewhere(self) -> None:
        """A file of another build does not become this one's because its hash fits."""
        one, other = self.program("one"), self.program("other", SOURCE + "int more;")
        self.add(one, other)
        first, second = build_id(one), build_id(other)
        swap = self.store / BUILD_IDS / "swap"
        for build, place in ((first, swap), (second, self.store / BUILD_IDS / first),
                             ("swap", self.store / BUILD_IDS / second)):
            (self.store / BUILD_IDS / build).rename(place)
        index = (self.store / INDEX).read_text()
        lines = [line.replace(first, "swap").replace(second, first).replace("swap", second)
                 for line in index.splitlines()]
        (self.store / INDEX).write_text("\n".join(sorted(lines, key=lambda one: one[66:])) + "\n")
        done = self.command("check", self.store)
        self.assertEqual(done.errors.count("it is of build"), 2, done.text)


class Trouble(StoreCase):
    def test_no_room(self) -> None:
        first, program = self.program("first"), self.program("second", SOURCE + "int second;")
        self.add(first)
        before = contents(self.store)

        def limit_file_size() -> None:
            signal.signal(signal.SIGXFSZ, signal.SIG_IGN)
            resource.setrlimit(resource.RLIMIT_FSIZE, (1000, 1000))

        done = subprocess.run([tool("store"), "add", self.store, program],
                              preexec_fn=limit_file_size, env=clean(), capture_output=True,
                              text=True)
        self.assertEqual(done.returncode, 2, done)
        self.assertIn("File too large", done.stderr)
        self.assertEqual(contents(self.store), before)
        self.add(program)
        self.assert_sound()

    def test_several_at_once(self) -> None:
        programs = [self.program(f"program{n}", SOURCE + f"int number{n};") for n in range(6)]
        doors = [subprocess.Popen([tool("store"), "add", self.store, one, programs[0]],
                                  env=clean(), stdout=subprocess.PIPE, stderr=subprocess.PIPE)
                 for one in programs]
        for door in doors:
            output, errors = door.communicate(timeout=SECONDS)
            self.assertEqual((door.returncode, errors), (0, b""), output)
        self.assert_sound()
        self.assertEqual(len(self.listing()), 6)

    def test_a_file_that_changes(self) -> None:
        one, other = self.program("one"), self.program("two", SOURCE + "int x[999] = {1};")
        both = [one.read_bytes(), other.read_bytes()]
        changing = self.folder / "changing"
        changing.write_bytes(both[0])
        for n in range(8):
            door = subprocess.Popen([tool("store"), "add", self.store, changing], env=clean(),
                                    stdout=subprocess.DEVNULL, stderr=subprocess.DEVNULL)
            while door.poll() is None:
                changing.write_bytes(both[n % 2])
                changing.write_bytes(both[1 - n % 2][:9000])
            self.assertGreaterEqual(door.returncode, 0)
            changing.write_bytes(both[0])
        self.add(changing)
        shutil.rmtree(self.store)
        self.add(one)
