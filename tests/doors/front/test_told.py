"""The operator's view: the file of statistics, as Prometheus reads it, and the journal's levels."""
from __future__ import annotations

import os
import signal
import socket
import subprocess
import time
import urllib.request
from pathlib import Path
from typing import Dict, Tuple

from .support import COMMAND, HAND_IN, LUA, PATIENCE, Talker, WithFront, ask, until

try:
    from prometheus_client.parser import text_string_to_metric_families
except ImportError:
    text_string_to_metric_families = None

KIND = ask("kind", d=1, t=1)
EXPORTER = "/usr/bin/prometheus-node-exporter"
Labels = Tuple[Tuple[str, str], ...]


class Metrics(WithFront):
    def page(self) -> str:
        """A file of statistics, after some requests and refusals."""
        path = os.path.join(self.folder, "front.prom")
        front = self.front("--metrics", path, "--processes", "2").start()
        talkers = [self.talker(front), self.talker(front)]
        for talker in talkers:
            talker.ask(HAND_IN, KIND, ask("kind", d=9, t=1), b"no\n")
        talkers[0].ask(b'{"op":"\\"\\u0041\\\\","s":1}\n')
        front.until_told("lines 11,")
        until(lambda: "ctfd_front_requests_total 11" in Path(path).read_text())
        return Path(path).read_text()

    def samples(self, text: str) -> Dict[str, Dict[Labels, float]]:
        found: Dict[str, Dict[Labels, float]] = {}
        for family in text_string_to_metric_families(text):
            self.assertIn(family.type, ("counter", "gauge"))
            self.assertTrue(family.documentation)
            for sample in family.samples:
                labels = tuple(sorted(sample.labels.items()))
                found.setdefault(sample.name, {})[labels] = sample.value
        return found

    def test_read_by_the_client_of_prometheus(self) -> None:
        if text_string_to_metric_families is None:
            self.skipTest("python3-prometheus-client is not there")
        found = self.samples(self.page())
        one = found["ctfd_front_requests_total"][()]
        self.assertEqual(one, 11)
        refusals = found["ctfd_front_refusals_total"]
        self.assertEqual(refusals[(("fault", "NoSlot"),)], 2)
        self.assertEqual(refusals[(("fault", "NotJson"),)], 2)
        self.assertEqual(sum(found["ctfd_front_connection_requests"].values()), one)
        self.assertEqual(sum(found["ctfd_front_connection_refusals"].values()), 5)
        self.assertEqual(len(found["ctfd_front_process_memory_bytes"]), 2)
        self.assertGreater(min(found["ctfd_front_process_memory_bytes"].values()), 500_000)
        self.assertGreater(max(found["ctfd_front_dearest_request_seconds"].values()), 0)
        user = (("user", str(os.getuid())),)
        self.assertEqual(found["ctfd_front_user_connections"][user], 2)

    def test_read_by_the_node_exporter(self) -> None:
        if not os.path.exists(EXPORTER):
            self.skipTest("not possible here: prometheus-node-exporter is not installed")
        self.page()
        with socket.socket() as free:
            free.bind(("127.0.0.1", 0))
            port = free.getsockname()[1]
        exporter = subprocess.Popen(
            [EXPORTER, "--collector.disable-defaults", "--collector.textfile",
             f"--collector.textfile.directory={self.folder}",
             f"--web.listen-address=127.0.0.1:{port}"], stderr=subprocess.DEVNULL)
        self.addCleanup(exporter.communicate)
        self.addCleanup(exporter.terminate)
        text = fetch(f"http://127.0.0.1:{port}/metrics")
        self.assertIn("ctfd_front_requests_total 11", text)
        self.assertIn("node_textfile_scrape_error 0", text)

    def test_written_again_and_again(self) -> None:
        path = os.path.join(self.folder, "front.prom")
        front = self.front("--metrics", path, "--stats", "0.2").start()
        until(lambda: os.path.exists(path))
        talker = self.talker(front)
        talker.ask(HAND_IN)
        until(lambda: "ctfd_front_requests_total 2" in Path(path).read_text())
        talker.ask(KIND)
        self.assertEqual(front.end(), 0)
        self.assertIn("ctfd_front_requests_total 3", Path(path).read_text())
        self.assertEqual([name for name in os.listdir(self.folder) if "new" in name], [])

    def test_folder_that_is_not_there(self) -> None:
        """If the folder of --metrics is missing, this is reported, and the front still answers."""
        front = self.front("--metrics", f"{self.folder}/no/file").start()
        self.assertIn("statistics can't be written there", front.tell())
        self.assertGreater(self.talker(front).number(), 0)


class Levels(WithFront):
    def messages(self, stream: "Tuple[int, int] | None") -> "list[str]":
        """The messages of a front whose standard error the journal reads."""
        path, log = os.path.join(self.folder, "s"), Path(self.folder) / "log"
        with log.open("wb") as writing:
            found = os.fstat(writing.fileno())
            name = f"{found.st_dev}:{found.st_ino}" if stream is None else "1:2"
            child = subprocess.Popen([COMMAND, "--socket", path, LUA],
                                     stderr=writing, env={**os.environ, "JOURNAL_STREAM": name})
        self.addCleanup(child.wait)
        self.addCleanup(child.kill)
        until(lambda: "listening" in log.read_text())
        Talker(path).number()
        child.send_signal(signal.SIGUSR1)
        until(lambda: "connections " in log.read_text())
        child.terminate()
        child.wait(PATIENCE)
        return log.read_text().splitlines()

    def test_levels_of_the_journal(self) -> None:
        lines = self.messages(None)
        self.assertTrue(lines[0].startswith("<5>ctfd-front: listening"), lines)
        self.assertTrue(lines[1].startswith("<6>ctfd-front: connections "), lines)

    def test_none_elsewhere(self) -> None:
        lines = self.messages((1, 2))
        self.assertTrue(all(line.startswith("ctfd-front: ") for line in lines), lines)


def fetch(address: str) -> str:
    """A page, as soon as it is served."""
    until_then = time.monotonic() + PATIENCE
    while True:
        try:
            with urllib.request.urlopen(address, timeout=5) as page:
                return str(page.read().decode())
        except OSError:
            if time.monotonic() > until_then:
                raise
            time.sleep(0.1)
