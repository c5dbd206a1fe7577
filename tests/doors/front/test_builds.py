"""Types by build-id: a store's types are published when a client first takes them, and withdrawn
when there is no more room."""
from __future__ import annotations

import json
import os
import shutil
import signal
import subprocess
from pathlib import Path
from typing import Any, Dict, List

from .support import TARGET, Front, Talker, WithFront, ask, until

OWNER = 4294967295
STORE = str(TARGET / "release" / "ctfd-store")
SOURCE = """
struct packet {{ char kind; struct packet *next; short port; }} first;
int number{n};
int weigh(struct packet *one) {{ return one->port; }}
int main(void) {{ return 0; }}
"""


class Builds(WithFront):
    def setUp(self) -> None:
        super().setUp()
        missing = [name for name in ("gcc", "readelf") if not shutil.which(name)]
        if missing:
            self.skipTest(f"{', '.join(missing)} is not here")
        self.store = os.path.join(self.folder, "store")
        self.ids = [self.add(n) for n in range(3)]

    def add(self, n: int) -> str:
        """Adds a program to the store, and returns its build-id."""
        source, program = Path(self.folder, f"{n}.c"), os.path.join(self.folder, str(n))
        source.write_text(SOURCE.format(n=n))
        subprocess.run(["gcc", "-g", "-Wl,--build-id", "-o", program, source], check=True)
        subprocess.run([STORE, "add", self.store, program], check=True, capture_output=True)
        said = subprocess.run(["readelf", "-n", program], capture_output=True, text=True)
        return said.stdout.split("Build ID: ")[1].split()[0]

    def serving(self, *words: str) -> Front:
        return self.front("--store", self.store, *words).start()

    def reply_to_take(self, talker: Talker, name: str, owner: int = OWNER) -> Dict[str, Any]:
        reply: Dict[str, Any] = json.loads(talker.ask(ask("take", owner=owner, name=name)))
        return reply

    def assert_absent(self, reply: Dict[str, Any]) -> None:
        self.assertEqual(reply["fault"]["name"], "NotPublished", reply)

    def bytes_of(self, *ids: str) -> int:
        """The size of the lists of some builds."""
        heads: List[Dict[str, Any]] = []
        for one in ids:
            said = subprocess.run([str(TARGET / "release" / "ctfd-convert"), "--bundle", one, "-"],
                                  env={"CTFD_STORE": self.store}, capture_output=True, check=True)
            heads.append(json.loads(said.stdout.split(b"\n", 1)[0]))
        return sum(sum(head["lists"]) for head in heads)

    def test_types_and_symbols(self) -> None:
        front = self.serving("--processes", "2")
        for talker in (self.talker(front) for _ in range(4)):
            for n, one in enumerate(self.ids):
                slot = self.reply_to_take(talker, one)["ok"]["d"]
                found = json.loads(talker.ask(ask("find", d=slot, text="struct packet")))
                size = talker.ask(ask("size", d=slot, t=found["ok"]["t"]))
                self.assertIn(b'"size":24', size)
                for name, kind in (("weigh", "function"), (f"number{n}", "object")):
                    symbol = json.loads(talker.ask(ask("symbol", d=slot, name=name)))
                    self.assertEqual(symbol["ok"]["class"], kind)
        self.assertEqual(front.output.count("published"), 0)

    def test_who_else_is_asked(self) -> None:
        """Owner 0 still has the files of the command line, and a client what it publishes."""
        front = self.serving()
        one, other = self.talker(front), self.talker(front)
        self.assertEqual(self.reply_to_take(one, "lua", 0)["ok"]["types"], 526)
        self.assert_absent(self.reply_to_take(one, "lua"))
        self.assert_absent(self.reply_to_take(one, self.ids[0], 0))
        slot = self.reply_to_take(one, self.ids[0])["ok"]["d"]
        one.ask(ask("publish", d=slot, name=self.ids[1]))
        self.assertIn("ok", self.reply_to_take(other, self.ids[1], one.number()))
        for name in ("abcd", "ab" * 20, self.ids[0].upper(), self.ids[0][:-1], "../x", ""):
            self.assertIn("fault", self.reply_to_take(other, name))

    def test_without_a_store(self) -> None:
        front = self.front().start()
        self.assert_absent(self.reply_to_take(self.talker(front), self.ids[0]))

    def test_no_session_is_the_stores(self) -> None:
        """The session that a client writes is never the number of the owner of builds."""
        talker = self.talker(self.serving())
        self.reply_to_take(talker, self.ids[0])
        reply = talker.ask(ask("withdraw", s=OWNER, name=self.ids[0]))
        self.assertIn(b"NotPublished", reply)
        self.assertIn("ok", self.reply_to_take(talker, self.ids[0]))

    def test_the_longest_unused_goes(self) -> None:
        first, second, third = self.ids
        room = max(self.bytes_of(first, second), self.bytes_of(first, third))
        front = self.serving("--store-memory", str(room))
        talker, later = self.talker(front), self.talker(front)
        slots = [self.reply_to_take(talker, one)["ok"]["d"] for one in (first, second, first)]
        # A published dictionary does not need its files; a withdrawn one cannot be taken without
        # them.
        subprocess.run([STORE, "remove", self.store, first, second], check=True,
                       capture_output=True)
        self.assertIn("ok", self.reply_to_take(later, second))
        self.assertIn("ok", self.reply_to_take(later, first))
        self.assertIn("ok", self.reply_to_take(talker, third))
        self.assert_absent(self.reply_to_take(later, second))
        self.assertIn("ok", self.reply_to_take(later, first))
        # Sessions that took it keep it.
        for slot in slots:
            self.assertIn(b'"ok"', talker.ask(ask("find", d=slot, text="struct packet")))

    def test_one_that_is_too_large(self) -> None:
        front = self.serving("--store-memory", str(self.bytes_of(self.ids[0]) - 1))
        self.assert_absent(self.reply_to_take(self.talker(front), self.ids[0]))
        until(lambda: "bytes are too many" in front.output)

    def test_many_that_come_and_go(self) -> None:
        front = self.serving("--store-memory", str(self.bytes_of(self.ids[0]) + 100))
        talker = self.talker(front)
        for n in range(60):
            slot = self.reply_to_take(talker, self.ids[n % 3])["ok"]["d"]
            symbol = talker.ask(ask("symbol", d=slot, name=f"number{n % 3}"))
            self.assertIn(b"object", symbol)
            talker.ask(ask("close", d=slot))

    def test_damage(self) -> None:
        place = Path(self.store, "buildid", self.ids[0], "section", ".SUNW_ctf")
        data = bytearray(place.read_bytes())
        data[len(data) // 2] ^= 1
        place.write_bytes(data)
        front = self.serving()
        talker = self.talker(front)
        for _ in range(3):
            self.assert_absent(self.reply_to_take(talker, self.ids[0]))
        self.assertIn("ok", self.reply_to_take(talker, self.ids[1]))
        self.assertEqual(front.output.count(f"build {self.ids[0]} is not published"), 1)

    def test_nothing_else_is_asked(self) -> None:
        """No server is asked, and no files are searched for a build that the store does not
        have."""
        if not shutil.which("strace"):
            self.skipTest("no strace")
        trace = os.path.join(self.folder, "trace")
        words = ("strace", "-D", "-f", "-o", trace, "-e", "trace=socket,connect,execve,openat")
        probe = subprocess.run([*words, "true"], capture_output=True)
        if probe.returncode != 0:
            self.skipTest("not possible here: strace may trace nothing")
        front = Front(self.folder, "--store", self.store,
                      under=("env", "DEBUGINFOD_URLS=http://127.0.0.1:1", *words)).start()
        self.addCleanup(front.end, signal.SIGKILL)
        talker = self.talker(front)
        self.assert_absent(self.reply_to_take(talker, "ab" * 20))
        begun = Path(trace).read_text().count("execve(")
        self.assertIn("ok", self.reply_to_take(talker, self.ids[0]))
        calls = Path(trace).read_text()
        self.assertEqual(calls.count("execve("), begun + 1)
        self.assertNotIn("connect(", calls)
        self.assertNotIn("debuginfod", calls)

    def test_wrong_words(self) -> None:
        for words, why in ((("--store", f"{self.folder}/none"), "is no folder"),
                           (("--store-memory", "268435457"), "is not in 1..=268435456")):
            front = self.front(*words)
            self.assertEqual(front.process.wait(60), 2)
            self.assertIn(why, front.output)
