#!/usr/bin/env python3
"""Measures a store of types by build-id, compared with elfutils' debuginfod for the same packages.

usage: bench/store.py [--clients N] [--requests N] [--peer N] [--threads N] PACKAGE.deb..

Adds the packages to a new store, and prints the time, and the sizes of the packages, of the debug
files in them, and of everything in the store. Lets debuginfod scan the same packages, and prints
the time and the size of its index, including its database's log, which would otherwise have 4 MB or
none by chance. Then clients ask nginx (configured as in docs/STORE.md) and debuginfod for debug
files of all builds in turn, each with a new connection. Prints requests per second, the times of
the median and the 99th percentile, and the server's processor time. Dictionaries are asked of nginx
only. debuginfod unpacks a package for each debug file, so it gets fewer requests, N of them. Needs
nginx, debuginfod and dpkg-deb.
"""
from __future__ import annotations

import argparse
import asyncio
import os
import sqlite3
import subprocess
import sys
import tempfile
import time
import urllib.request
from pathlib import Path
from typing import List, NamedTuple, Sequence, Tuple

TOP = Path(__file__).resolve().parents[1]
sys.path[:0] = [str(TOP / "scripts"), str(TOP / "tests")]
import rust  # noqa: E402
from doors.store import servers  # noqa: E402

PIECE = 1 << 16
UNPACKER = ".deb=dpkg-deb --fsys-tarfile"
IDLE = ('thread_busy{role="scan"} 0', 'thread_busy{role="traverse"} 0',
        'thread_work_pending{role="scan"} 0')


class Cost(NamedTuple):
    """Wall time and processor time in seconds, and memory in MB."""

    clock: float
    processor: float
    memory: float

    def __str__(self) -> str:
        return f"{self.clock:.1f} s, {self.processor:.1f} s of processors, {self.memory:.0f} MB"


def cost(words: Sequence[str], threads: int) -> Cost:
    """The cost of a command, which prints its own refusals."""
    begun = time.monotonic()
    process = subprocess.Popen(words, env={**os.environ, "RAYON_NUM_THREADS": str(threads)})
    _, status, usage = os.wait4(process.pid, 0)
    process.returncode = os.waitstatus_to_exitcode(status)
    if process.returncode not in (0, 1):
        raise SystemExit(f"{words[0]}: status {process.returncode}")
    return Cost(time.monotonic() - begun, usage.ru_utime + usage.ru_stime,
                usage.ru_maxrss * 1024 / 1e6)


def add_packages(packages: Sequence[str], store: Path, threads: int) -> None:
    """Adds the packages, and prints the cost."""
    command = str(rust.folder() / "ctfd-store")
    print("add:", cost([command, "add", str(store), *packages], threads))
    print(f"packages: {sum(Path(one).stat().st_size for one in packages)} bytes")
    print(subprocess.run([command, "stats", str(store)], capture_output=True, text=True,
                         check=True).stdout, end="")
    print(f"index: {(store / 'SHA256SUMS').stat().st_size} bytes")


def processor(server: servers.Server) -> float:
    """The processor time in seconds of a server and its children, also of those that have ended."""
    ticks = 0
    for place in Path("/proc").glob("[0-9]*/stat"):
        try:
            fields = place.read_text().rsplit(")", 1)[1].split()
        except OSError:
            continue
        if server.process.pid in (int(place.parent.name), int(fields[1])):
            ticks += sum(map(int, fields[11:15]))
    return ticks / os.sysconf("SC_CLK_TCK")


def metrics(server: servers.Server) -> str:
    with urllib.request.urlopen(f"{server.url}/metrics") as page:
        text: str = page.read().decode()
        return text


def index_size(index: Path) -> int:
    """The size of debuginfod's index, with its log merged into it."""
    with sqlite3.connect(index, timeout=60) as database:
        is_busy, *_ = database.execute("PRAGMA wal_checkpoint(TRUNCATE)").fetchone()
        if is_busy:
            raise SystemExit(f"{index}: debuginfod still writes it")
    database.close()
    return index.stat().st_size


def scanning_server(packages: Sequence[str], folder: Path, threads: int) -> servers.Server:
    """elfutils' server, after it has scanned the packages."""
    place, index, port = folder / "packages", folder / "index", servers.free_port()
    place.mkdir()
    for one in packages:
        (place / Path(one).name).symlink_to(Path(one).resolve())
    begun = time.monotonic()
    words = ["debuginfod", "-p", port, "-d", index, "-L", "-t", 0, "-c", threads, "-Z", UNPACKER,
             place]
    server = servers.Server(words, port, folder, {"DEBUGINFOD_URLS": ""}).__enter__()
    time.sleep(1)
    while not all(line in metrics(server) for line in IDLE):
        time.sleep(0.5)
    print(f"debuginfod's scan: {time.monotonic() - begun:.1f} s, "
          f"{processor(server):.1f} s of processors")
    print(f"debuginfod's index: {index_size(index)} bytes")
    return server


async def request_cost(port: int, path: str) -> Tuple[float, int]:
    """The seconds that a request took, and the number of bytes received."""
    begun = time.perf_counter()
    reader, writer = await asyncio.open_connection(servers.HOST, port)
    writer.write(f"GET {path} HTTP/1.1\r\nHost: x\r\nConnection: close\r\n\r\n".encode())
    head = await reader.readuntil(b"\r\n\r\n")
    if b" 200 " not in head.split(b"\r\n", 1)[0]:
        raise SystemExit(f"{path}: {head[:40]!r}")
    count = 0
    while piece := await reader.read(PIECE):
        count += len(piece)
    writer.close()
    return time.perf_counter() - begun, count


async def load(port: int, paths: Sequence[str], clients: int) -> List[Tuple[float, int]]:
    """Sends all requests, from `clients` clients at once."""
    waiting = iter(paths)

    async def client() -> List[Tuple[float, int]]:
        return [await request_cost(port, path) for path in waiting]

    return [one for some in await asyncio.gather(*(client() for _ in range(clients)))
            for one in some]


def report_load(name: str, server: servers.Server, paths: Sequence[str], clients: int) -> None:
    """Prints how fast a server answers some requests."""
    begun, before = time.monotonic(), processor(server)
    told = asyncio.run(load(server.port, paths, clients))
    took, used = time.monotonic() - begun, processor(server) - before
    times = sorted(one for one, _ in told)
    size = sum(count for _, count in told)
    print(f"{name}: {len(told)} requests from {clients} clients, {len(told) / took:.0f} a second, "
          f"{size / len(told):.0f} bytes each; p50 {times[len(times) // 2] * 1e3:.1f} ms, "
          f"p99 {times[len(times) * 99 // 100] * 1e3:.1f} ms; {used / len(told) * 1e6:.0f} us of "
          "the server's processor each")


def main() -> int:
    parser = argparse.ArgumentParser(description=(__doc__ or "").split("\n", 1)[0])
    parser.add_argument("--clients", type=int, default=100)
    parser.add_argument("--requests", type=int, default=10_000)
    parser.add_argument("--peer", type=int, default=200)
    parser.add_argument("--threads", type=int, default=os.cpu_count() or 1)
    parser.add_argument("packages", nargs="+", metavar="PACKAGE.deb")
    words = parser.parse_args()
    with tempfile.TemporaryDirectory() as place:
        folder = Path(place)
        store = folder / "store"
        add_packages(words.packages, store, words.threads)
        ids = sorted(one.name for one in (store / "buildid").iterdir())

        def paths(name: str, count: int) -> List[str]:
            return [f"/buildid/{ids[n * 7919 % len(ids)]}/{name}" for n in range(count)]

        scanner = scanning_server(words.packages, folder, words.threads)
        try:
            with servers.nginx(store, folder, scanner.url) as server:
                report_load("nginx, dictionaries", server,
                            paths("section/.SUNW_ctf", words.requests), words.clients)
                report_load("nginx, debug files", server, paths("debuginfo", words.requests),
                            words.clients)
            report_load("debuginfod, debug files", scanner, paths("debuginfo", words.peer),
                        words.clients)
        finally:
            scanner.__exit__()
    return 0


if __name__ == "__main__":
    sys.exit(main())
