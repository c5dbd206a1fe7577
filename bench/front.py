#!/usr/bin/env python3
"""Measures the speed of ctfd-front, compared with redis-server answering PING, and an echo.

usage: front.py [--front CTFD-FRONT] [--program CTFD] [--seconds N] [--runs N] [--shards N,..]
                [--askers N] [--held] [--calls]

bench/lines.c, compiled by cc, is the client of all. The servers listen on a Unix socket: the front
with one shard and with four, or as --shards says, with a dictionary of a kernel's size (32,766
types); redis-server if it is installed; and an echo by the client's own loop. Each is asked in
bursts of 100 lines by 50 clients, and line by line by 1, 50 and 500. A pipe to `ctfd serve` is
asked line by line too. All are measured in turn, and the run with the most lines a second is
printed: lines a second, the server's processor time per line, the system's share of it, and the
time within which half of the bursts, and 99 of 100, were answered. With --askers, several processes
share the clients, since one needs a whole processor when it waits for each line; the times are then
those of the slowest. --held asks over 9,500 open connections, 500 at a time. --calls counts system
calls with strace, which slows everything.
"""
from __future__ import annotations

import argparse
import contextlib
import os
import re
import shutil
import signal
import struct
import subprocess
import sys
import tempfile
import time
from dataclasses import dataclass
from pathlib import Path
from typing import Dict, Iterator, List, Optional, Sequence, Tuple

TOP = Path(__file__).resolve().parents[1]
FRONT = TOP / "clients" / "rust" / "target" / "release" / "ctfd-front"
PROGRAM = TOP / "crates" / "ctfd" / "out" / "ctfd"
TAKE = '{"s":1,"op":"take","owner":0,"name":"types"}\n'
TYPES = 32_766
LINES = {
    "kind": '{"s":1,"op":"kind","d":1,"t":30000}\n',
    "record": '{"s":1,"op":"record","d":1,"t":30000}\n',
    "members": '{"s":1,"op":"members","d":1,"t":30000}\n',
    "find": '{"s":1,"op":"find","d":1,"text":"struct s30000"}\n',
    "mixed": '{ "op" : "kind", "d": 1, "t": 30000, "s" : 1 }\n'
             '{"op":"record","t":30000,"d":1,"s":1}\n{"s":1,"d":1,"op":"members","t":30000}\n'
             '{"op":"find","text":"struct s30000","d":1,"s":1}\n',
}
PING = "PING\r\n"
BURST = 100
HELD = 9_500


@dataclass(frozen=True)
class Server:
    """A server: its process, its socket, and what is sent first."""

    name: str
    pid: int
    path: str
    begin: str
    lines: Dict[str, str]


@dataclass(frozen=True)
class Measurement:
    """The result of a run; times are in microseconds."""

    per_second: float
    processor: float
    system: float
    half: float
    most: float

    def __str__(self) -> str:
        return (f"{self.per_second:12,.0f} lines/s, {self.processor:6.2f} us of a processor,"
                f" {100 * self.system:3.0f} % the system; {self.half:9,.1f}; {self.most:9,.1f} us")


def dictionary(types: int = TYPES) -> bytes:
    """Structs of three members each, and an int."""
    names = bytearray(b"\0int\0a\0b\0c\0")
    records = bytearray(struct.pack("<IHHI", 1, 1 << 11 | 1 << 10, 4, 1 << 24 | 32))
    for number in range(2, types + 1):
        place = len(names)
        names += f"s{number}\0".encode()
        records += struct.pack("<IHH", place, 6 << 11 | 1 << 10 | 3, 12)
        records += b"".join(struct.pack("<IHH", name, 1, 32 * at)
                            for at, name in enumerate((5, 7, 9)))
    head = struct.pack("<8I", 0, 0, 0, 0, 0, 0, len(records), len(names))
    return b"\xf1\xcf\x02\0" + head + bytes(records) + bytes(names)


def ticks(pid: int) -> List[int]:
    """The clock ticks that a process has used in user mode and in the system."""
    return list(map(int, Path(f"/proc/{pid}/stat").read_text().rsplit(")", 1)[1].split()[11:13]))


def processor_seconds(pid: int) -> float:
    """The seconds of processor time that a process has used."""
    return time.clock_gettime(~pid << 3 | 2)  # see clock_getcpuclockid(3)


@contextlib.contextmanager
def running(words: Sequence[str]) -> Iterator[subprocess.Popen[bytes]]:
    process = subprocess.Popen(words, stdout=subprocess.DEVNULL, stderr=subprocess.DEVNULL)
    try:
        yield process
    finally:
        process.send_signal(signal.SIGTERM)
        process.wait(30)


class Bench:
    """The running servers, and how to ask each."""

    def __init__(self, folder: str, given: argparse.Namespace, ends: contextlib.ExitStack) -> None:
        self.folder, self.given = folder, given
        self.client = f"{folder}/lines"
        subprocess.run(["cc", "-O2", "-o", self.client, str(TOP / "bench" / "lines.c")], check=True)
        Path(folder, "types.ctf").write_bytes(dictionary())
        self.servers = [*self._fronts(ends), *self._others(ends)]

    def _fronts(self, ends: contextlib.ExitStack) -> Iterator[Server]:
        for shards in map(int, self.given.shards.split(",")):
            path = f"{self.folder}/front-{shards}"
            words = [self.given.front, "--socket", path, "--processes", str(shards),
                     "--connections", "20000", "--user-connections", "20000",
                     "--user-sessions", "10000000", f"types={self.folder}/types.ctf"]
            name = f"front, {shards} shard{'s' * (shards > 1)}"
            yield Server(name, ends.enter_context(running(words)).pid, path, TAKE, LINES)

    def _others(self, ends: contextlib.ExitStack) -> Iterator[Server]:
        redis = shutil.which("redis-server")
        if redis:
            path = f"{self.folder}/redis"
            words = [redis, "--port", "0", "--unixsocket", path, "--save", "", "--maxclients",
                     "20000"]
            yield Server("redis, PING", ends.enter_context(running(words)).pid, path, "",
                         {"kind": PING})
        path = f"{self.folder}/echo"
        process = ends.enter_context(running([self.client, "--echo", path]))
        yield Server("echo", process.pid, path, "", {"kind": LINES["kind"]})

    def ask(self, server: Server, word: str, clients: int, burst: int,
            held: int = 0) -> Measurement:
        """Measures one run of clients that send a word to a server."""
        line = server.lines[word]
        count = line.count("\n")
        askers = min(self.given.askers, clients)
        words = [self.client, server.path, str((held or clients) // askers),
                 str(clients // askers), str(max(1, burst // count)), str(self.given.seconds),
                 server.begin, line]
        with contextlib.ExitStack() as ends:
            started = [ends.enter_context(subprocess.Popen(words, stdin=subprocess.PIPE,
                                                           stdout=subprocess.PIPE, text=True))
                       for _ in range(askers)]
            before, ticks_before = self._begin(started, server)
            told = [list(map(float, client.communicate()[0].split())) for client in started]
        seconds = processor_seconds(server.pid) - before
        own, system = (after - was for after, was in zip(ticks(server.pid), ticks_before))
        lines, took, half, most = (list(column) for column in zip(*told))
        return Measurement(sum(lines) / max(took), 1e6 * seconds / sum(lines),
                           system / max(1, own + system), max(half), max(most))

    def _begin(self, started: Sequence[subprocess.Popen[str]],
               server: Server) -> Tuple[float, List[int]]:
        """Lets clients begin when all are connected. Returns what the server has used until
        then."""
        for client in started:
            assert client.stdout
            client.stdout.readline()
        before = processor_seconds(server.pid), ticks(server.pid)
        for client in started:
            assert client.stdin
            client.stdin.write("\n")
            client.stdin.flush()
        return before

    def calls(self, server: Server, word: str, clients: int, burst: int) -> Optional[float]:
        """System calls per line, counted by strace."""
        out = f"{self.folder}/calls"
        tracer = subprocess.Popen(["strace", "-f", "-c", "-U", "calls,name", "-o", out, "-p",
                                   str(server.pid)], stderr=subprocess.DEVNULL)
        time.sleep(1)
        words = [self.client, server.path, str(clients), str(clients), str(burst), "2",
                 server.begin, server.lines[word]]
        told = subprocess.run(words, check=True, capture_output=True, text=True,
                              input="\n").stdout.split()[1:]
        tracer.send_signal(signal.SIGINT)
        tracer.wait()
        total = re.search(r"^\s*(\d+) total", Path(out).read_text(), re.MULTILINE)
        return int(total[1]) / int(told[0]) if total else None


def by_pipe(program: str, folder: str, seconds: float) -> Measurement:
    """Lines one by one through a pipe, including the client's own time."""
    with subprocess.Popen([program, "serve", f"types={folder}/types.ctf"], stdin=subprocess.PIPE,
                          stdout=subprocess.PIPE) as child:
        assert child.stdin and child.stdout
        to, back = child.stdin.fileno(), child.stdout.fileno()
        os.write(to, TAKE.encode())
        os.read(back, 65_536)
        waits, line, before = [], LINES["kind"].encode(), processor_seconds(child.pid)
        began = moment = time.perf_counter()
        while moment - began < seconds:
            os.write(to, line)
            os.read(back, 65_536)
            after = time.perf_counter()
            waits.append(after - moment)
            moment = after
        waits.sort()
        count = len(waits)
        used = processor_seconds(child.pid) - before
        return Measurement(count / (moment - began), 1e6 * used / count, 0,
                           1e6 * waits[count // 2], 1e6 * waits[count * 99 // 100])


def measure(bench: Bench, title: str, word: str, clients: int, burst: int, held: int = 0) -> None:
    """Runs all servers in turn, several times, and prints the best run of each."""
    able = [server for server in bench.servers if word in server.lines]
    runs = [[bench.ask(server, word, clients, burst, held) for server in able]
            for _ in range(bench.given.runs)]
    print(f"{title}, {word}:")
    for server, found in zip(able, zip(*runs)):
        print(f"  {server.name:16} {max(found, key=lambda run: run.per_second)}", flush=True)


def all_ways(bench: Bench) -> None:
    for word in LINES:
        measure(bench, f"50 clients, bursts of {BURST}", word, 50, BURST)
    for clients in (1, 50, 500):
        for word in ("kind", "record"):
            measure(bench, f"{clients} clients, line by line", word, clients, 1)
    given = bench.given
    print(f"a pipe, line by line: {by_pipe(given.program, bench.folder, given.seconds)}")
    if given.held:
        for burst, title in ((BURST, f"bursts of {BURST}"), (1, "line by line")):
            measure(bench, f"{HELD} connections, 500 at a time, {title}", "record", 500, burst,
                    HELD)
    if given.calls:
        for clients, burst in ((1, 1), (50, 1), (50, BURST)):
            told = bench.calls(bench.servers[0], "kind", clients, burst)
            print(f"{bench.servers[0].name}: {clients} clients, bursts of {burst}:"
                  f" {told:.2f} calls of the system a line")


def main() -> int:
    assert __doc__
    parser = argparse.ArgumentParser(description=__doc__.split("\n")[0])
    parser.add_argument("--front", default=str(FRONT))
    parser.add_argument("--program", default=str(PROGRAM))
    parser.add_argument("--seconds", type=float, default=2)
    parser.add_argument("--runs", type=int, default=3)
    parser.add_argument("--shards", default="1,4")
    parser.add_argument("--askers", type=int, default=1)
    parser.add_argument("--held", action="store_true")
    parser.add_argument("--calls", action="store_true")
    given = parser.parse_args()
    load = os.getloadavg()
    print(f"load {load[0]:.1f} on {os.cpu_count()} processors")
    with tempfile.TemporaryDirectory() as folder, contextlib.ExitStack() as ends:
        all_ways(Bench(folder, given, ends))
    return 0


if __name__ == "__main__":
    sys.exit(main())
