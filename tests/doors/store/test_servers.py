"""The page's recipes for servers, each asked by debuginfod-find, gdb and our own commands."""
from __future__ import annotations

import os
import shutil
import subprocess
import time
from contextlib import ExitStack
from pathlib import Path

from ..support import clean, tool

from . import servers
from .support import BUILD_IDS, SECONDS, SOURCE, StoreCase, build_id, run

ABSENT = "ab" * 20


class Recipes(StoreCase):
    def setUp(self) -> None:
        super().setUp()
        self.needs("debuginfod-find", "gdb")
        self.built = self.program()
        self.stripped, self.debug = self.split(self.built)
        self.add("--executables", self.stripped, self.debug)
        self.id = build_id(self.built)
        # A place where nothing of the machine's own is found.
        self.away = self.folder / "away"
        self.away.mkdir()
        shutil.move(self.stripped, self.away / "program")
        self.opened = ExitStack()
        self.addCleanup(self.opened.close)

    def environment(self, url: str) -> dict[str, str]:
        kept = self.folder / f"kept{len(list(self.folder.glob('kept*')))}"
        return clean({"DEBUGINFOD_URLS": url, "DEBUGINFOD_CACHE_PATH": str(kept),
                      "XDG_CACHE_HOME": str(kept), "HOME": str(kept)})

    def log_with(self, text: str) -> bytes:
        """nginx's log once it has a text: nginx writes a line after it has sent the reply."""
        end = time.monotonic() + SECONDS
        while text.encode() not in (log := (self.folder / "access.log").read_bytes()):
            self.assertLess(time.monotonic(), end, log)
            time.sleep(0.05)
        return log

    def find(self, url: str, *words: str) -> Path:
        done = subprocess.run(["debuginfod-find", *words], env=self.environment(url),
                              capture_output=True, text=True, timeout=SECONDS)
        self.assertEqual(done.returncode, 0, done.stderr)
        return Path(done.stdout.strip())

    def assert_serves(self, url: str, has_sections: bool = True) -> None:
        """Asserts that all clients get the build's types from a server."""
        build = self.store / BUILD_IDS / self.id
        found = self.find(url, "debuginfo", self.id)
        self.assertEqual(found.read_bytes(), (build / "debuginfo").read_bytes())
        for name in (".SUNW_ctf", ".symtab", ".strtab"):
            found = self.find(url, "section", self.id, name)
            self.assertEqual(found.read_bytes(), (build / "section" / name).read_bytes(), name)
        done = subprocess.run(
            ["gdb", "-batch", "-nx", "-iex", "set debuginfod enabled on", "-iex",
             "set debug-file-directory /none", "-ex", "ptype struct packet", "-ex", "print shade",
             "-ex", "whatis weigh", str(self.away / "program")],
            env=self.environment(url), capture_output=True, text=True, timeout=SECONDS)
        self.assertIn("struct packet *next;", done.stdout, done.stderr)
        self.assertIn("$1 = GREEN", done.stdout)
        self.assertIn("type = int (struct packet *, int)", done.stdout)
        for asked in (str(self.away / "program"), self.id):
            told = run(tool("types"), "--store", url, asked, "weigh",
                       environment=self.environment(""))
            self.assertEqual((told.status, told.output), (0, "int weigh(struct packet *, int);\n"),
                             told.text)

    def test_python(self) -> None:
        server = self.opened.enter_context(servers.python(self.store, self.folder))
        self.assert_serves(server.url)

    def test_pahole_and_drgn(self) -> None:
        """Programs that ask by themselves: pahole for a program, drgn for a core file."""
        self.needs("pahole", "drgn")
        server = self.opened.enter_context(servers.python(self.store, self.folder))
        program, asking = self.away / "program", self.environment(server.url)
        told = run("pahole", "-C", "packet", program, environment=asking)
        self.assertIn("/* size: 24, cachelines: 1, members: 3 */", told.output, told.errors)
        core, script = self.folder / "core", self.folder / "script"
        done = subprocess.run(
            ["gdb", "-batch", "-nx", "-iex", "set debuginfod enabled on", "-ex", "break main",
             "-ex", "run", "-ex", f"generate-core-file {core}", program], stdin=subprocess.DEVNULL,
            capture_output=True, text=True, timeout=SECONDS, env=self.environment(server.url))
        self.assertTrue(core.exists(), done.stdout + done.stderr)
        script.write_text("print(prog['shade'], prog.type('struct packet').size)\n")
        told = run("drgn", "-q", "-c", core, script, environment=self.environment(server.url))
        self.assertEqual(told.output, "(enum color)GREEN 24\n", told.errors)

    def test_a_folder(self) -> None:
        self.assert_serves(f"file://{self.store}")

    def test_nginx_with_a_distribution_behind(self) -> None:
        self.needs("nginx")
        other, there = self.folder / "other", self.program("there", SOURCE + "int there;")
        self.add(there, store=other)
        behind = self.opened.enter_context(servers.python(other, self.folder))
        server = self.opened.enter_context(servers.nginx(self.store, self.folder, behind.url))
        self.assert_serves(server.url)
        found = self.find(server.url, "debuginfo", build_id(there))
        self.assertEqual(build_id(found), build_id(there))
        self.assertIn(build_id(there), behind.log.read_text())
        self.assertNotIn(self.id, behind.log.read_text())
        done = subprocess.run(["debuginfod-find", "debuginfo", ABSENT], capture_output=True,
                              env=self.environment(server.url), timeout=SECONDS)
        self.assertNotEqual(done.returncode, 0)
        log = self.log_with(ABSENT)
        self.assertIn(ABSENT, self.command("missing", self.store, stdin=log).output)

    def test_debuginfod_and_one_behind_it(self) -> None:
        self.needs("debuginfod")
        first = self.opened.enter_context(servers.debuginfod(self.folder, self.store))
        last = time.monotonic() + SECONDS
        while subprocess.run(["debuginfod-find", "debuginfo", self.id], capture_output=True,
                             env=self.environment(first.url)).returncode != 0:
            self.assertLess(time.monotonic(), last, first.log.read_text())
            time.sleep(0.5)
        self.assert_serves(first.url)
        second = self.opened.enter_context(servers.debuginfod(self.folder, None, first.url))
        self.assert_serves(second.url)

    def test_nothing_is_fetched_without_the_variable(self) -> None:
        self.needs("strace")
        server = self.opened.enter_context(servers.python(self.store, self.folder))
        environment = {**self.environment(server.url), "PATH": os.environ["PATH"]}
        environment.pop("CTFD_STORE", None)
        trace = self.folder / "trace"
        for words in ((tool("types"), self.away / "program", "weigh"),
                      (tool("types"), self.id, "weigh"),
                      (tool("convert"), self.away / "program", self.folder / "out"),
                      (tool("debuginfo"), self.away / "program", self.folder / "out"),
                      (self.libctf("illumos"), self.away / "program"),
                      (self.libctf("gnu"), self.away / "program"),
                      (tool("store"), "add", self.folder / "new", self.away / "program")):
            subprocess.run(["strace", "-f", "-o", trace, "-e",
                            "trace=socket,connect,execve,openat", *words],
                           env=environment, capture_output=True, timeout=SECONDS)
            calls = trace.read_text()
            self.assertNotIn("socket(", calls)
            self.assertNotIn("connect(", calls)
            self.assertNotIn("debuginfod", calls)
            self.assertNotIn(environment["XDG_CACHE_HOME"], calls)
        self.assertNotIn("GET", server.log.read_text())

    def test_what_came_is_kept(self) -> None:
        server = self.opened.enter_context(servers.python(self.store, self.folder))
        environment = self.environment("")
        for _ in range(2):
            told = run(tool("types"), "--store", server.url, self.id, "struct packet",
                       environment=environment)
            self.assertEqual(told.status, 0, told.text)
        self.assertEqual(server.log.read_text().count("section/.SUNW_ctf"), 1)
        kept = Path(environment["XDG_CACHE_HOME"]) / "ctfd/store"
        self.assertEqual(kept.stat().st_mode & 0o777, 0o700)
        kept.chmod(0o755)  # an unsafe folder is not used: the server is asked again
        told = run(tool("types"), "--store", server.url, self.id, "struct packet",
                   environment=environment)
        self.assertEqual(told.status, 0, told.text)
        self.assertEqual(server.log.read_text().count("section/.SUNW_ctf"), 2)

    def test_a_distribution_is_asked_for_what_no_store_has(self) -> None:
        empty = self.folder / "empty"
        (empty / BUILD_IDS).mkdir(parents=True)
        behind = self.opened.enter_context(servers.python(self.store, self.folder))
        told = run(tool("types"), "--store", empty, self.away / "program", "struct packet",
                   environment=self.environment(behind.url))
        self.assertEqual(told.status, 0, told.text)
        self.assertIn("short", told.output)
        self.assertNotIn(".SUNW_ctf", behind.log.read_text())

    def test_the_sums_of_an_index(self) -> None:
        index = (self.store / "SHA256SUMS").read_text()
        changed = "".join("0" * 64 + line[64:] for line in index.splitlines(keepends=True))
        other = self.folder / "index"
        server = self.opened.enter_context(servers.python(self.store, self.folder))
        for text, why in ((index, ""), ("", "does not have section/.SUNW_ctf"),
                          (changed, "section/.SUNW_ctf is not the file that")):
            other.write_text(text)
            told = run(tool("types"), "--store", server.url, self.id, "weigh",
                       environment={**self.environment(""), "CTFD_STORE_INDEX": str(other)})
            self.assertEqual(told.status, 1 if why else 0, told.text)
            self.assertIn(why, told.errors)

    def test_damage_in_a_folder(self) -> None:
        place = self.store / BUILD_IDS / self.id / "section/.SUNW_ctf"
        data = bytearray(place.read_bytes())
        data[len(data) // 2] ^= 1
        place.write_bytes(data)
        told = run(tool("types"), "--store", self.store, self.id, "weigh")
        self.assertEqual(told.status, 1)
        self.assertIn("section/.SUNW_ctf is not the file that", told.errors)
