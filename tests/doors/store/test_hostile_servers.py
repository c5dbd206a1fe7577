"""Broken and hostile servers: each is refused with a line, within limits.

The tests count the bytes that a server could send, and the memory of its client. Clients leave
servers that would never end.
"""
from __future__ import annotations

import errno
import gzip
import struct
import threading
import time
import zlib
from collections import Counter
from concurrent.futures import ThreadPoolExecutor
from http.server import BaseHTTPRequestHandler, ThreadingHTTPServer
from pathlib import Path
from typing import Callable, Counter as Counts, Dict

from ..support import clean, tool

from .support import HEADERS, SOURCE, StoreCase, build_id, run

SECTION = "section/.SUNW_ctf"
PIECE = bytes(1 << 20)
# The buffers of two sockets come on top of the 64 MB that a client accepts.
MOST_BYTES, MOST_MEGABYTES = (64 + 16) << 20, 300
# The servers that wait; all others are asked one after the other.
WAITING = ("drip", "silent", "stalled")
# The servers that libctf's calls are tested with too (they run the same command), and those of
# which debuginfod-find reports that they have nothing.
BY_LIBCTF = ("a_page", "too_long", "endless", "bomb", "bomb_of_a_few_bytes", "a_program", "damaged",
             "short", "mixed", "other_build", "a_debug_file_of_nothing")
AS_ABSENT = ("absent", "empty", "cut", "broken")


class Handler(BaseHTTPRequestHandler):
    """Answers according to the first part of the path."""

    protocol_version = "HTTP/1.0"
    server: "Harm"

    def log_message(self, *_: object) -> None:
        pass

    def do_GET(self) -> None:
        kind, _, rest = self.path.lstrip("/").partition("/")
        name = rest.split("/", 2)[-1]
        try:
            self.server.kinds[kind](self, name)
        except OSError:
            pass

    def say(self, data: bytes, status: int = 200, **headers: str) -> None:
        self.send_response(status)
        for header, value in headers.items():
            self.send_header(header.replace("_", "-"), value)
        if "Content_Length" not in headers:
            self.send_header("Content-Length", str(len(data)))
        self.end_headers()
        self.wfile.write(data)

    def absent(self) -> None:
        self.say(b"none", 404)


class Harm(ThreadingHTTPServer):
    daemon_threads = True
    kinds: Dict[str, Callable[[Handler, str], None]]
    sent: Counts[str]


def endless(door: Handler, kind: str, length: int = 0) -> None:
    door.send_response(200)
    if length:
        door.send_header("Content-Length", str(length))
    door.end_headers()
    while True:
        door.wfile.write(PIECE)
        door.server.sent[kind] += len(PIECE)


def redirects(door: Handler, last: int) -> None:
    """A number of redirects, or endless ones."""
    _, _, count = door.path.partition("?")
    number = int(count or 0)
    if last and number >= last:
        door.absent()
    else:
        door.say(b"", 302, Location=f"{door.path.partition('?')[0]}?{number + 1}")


def drip(door: Handler) -> None:
    """A byte now and then, until the client has left."""
    door.send_response(200)
    door.end_headers()
    while True:
        door.wfile.write(b"\xf1")
        time.sleep(0.5)


def stall(door: Handler, is_begun: bool) -> None:
    """No data, at most a status and headers, until the client has left."""
    if is_begun:
        door.send_response(200)
        door.send_header("Content-Length", "1000")
        door.end_headers()
    door.connection.recv(1)


def bomb(told: int, megabytes: int) -> bytes:
    """A dictionary that states the inflated size `told`, and inflates to `megabytes` MiB."""
    header = bytes([0xf1, 0xcf, 2, 1]) + struct.pack("<8I", 0, 0, 0, 0, 0, 0, told, 0)
    packer = zlib.compressobj(1)
    return header + b"".join(packer.compress(PIECE) for _ in range(megabytes)) + packer.flush()


class Servers(StoreCase):
    def setUp(self) -> None:
        super().setUp()
        self.needs("debuginfod-find")
        self.built, self.other = self.program(), self.program("other", SOURCE + "int more(void);")
        self.add(self.built, self.other)
        self.id = build_id(self.built)
        folder = self.build(self.built)
        ctf = (folder / SECTION).read_bytes()
        debug = (self.build(self.other) / "debuginfo").read_bytes()
        mine = {name: (folder / f"section/{name}").read_bytes() for name in (".symtab", ".strtab")}

        def section(data: bytes) -> Callable[[Handler, str], None]:
            return lambda door, name: door.say(data) if name == SECTION else door.absent()

        def serve_other_symbols(door: Handler, name: str) -> None:
            """The dictionary, with the symbols of another build."""
            own = name.rpartition("/")[2]
            door.say(ctf if name == SECTION else mine[own][:len(mine[own]) // 48 * 24]
                     if own == ".symtab" else mine.get(own, b"x"))

        def other_build(door: Handler, name: str) -> None:
            door.say(debug) if name == "debuginfo" else door.absent()

        damaged = bytearray(ctf)
        damaged[len(damaged) // 2] ^= 0xff
        self.kinds: Dict[str, Callable[[Handler, str], None]] = {
            "a_page": lambda door, _: door.say(b"<!DOCTYPE html><title>Sign in</title>" * 40),
            "absent": lambda door, _: door.absent(),
            "broken": lambda door, _: door.say(b"oh", 500),
            "forbidden": lambda door, _: door.say(b"no", 403),
            "endless": lambda door, _: endless(door, "endless"),
            "too_long": lambda door, _: endless(door, "too_long", 4 << 30),
            "packed": lambda door, _: door.say(gzip.compress(PIECE * 30, 1),
                                               Content_Encoding="gzip"),
            "round": lambda door, _: redirects(door, 0),
            "far": lambda door, _: redirects(door, 4656),
            "to_a_file": lambda door, _: door.say(b"", 302, Location="file:///etc/passwd"),
            "to_nobody": lambda door, _: door.say(b"", 302, Location="http://127.0.0.1:1/x"),
            "drip": lambda door, _: drip(door),
            "silent": lambda door, _: stall(door, False),
            "stalled": lambda door, _: stall(door, True),
            "closed": lambda door, _: door.connection.close(),
            "cut": lambda door, _: door.say(ctf[:100], Content_Length=str(len(ctf))),
            "nonsense": lambda door, _: door.wfile.write(b"\x00\x01\x02" * 1000) and None,
            "long_headers": lambda door, _: door.say(b"x", X_Long="y" * (10 << 20)),
            "empty": lambda door, _: door.say(b""),
            "a_program": section(self.built.read_bytes()),
            "bomb": section(bomb(300 << 20, 2)),
            "bomb_of_a_few_bytes": section(bomb(1000, 2)),
            "damaged": section(bytes(damaged)),
            "short": section(ctf[:-20]),
            "mixed": serve_other_symbols,
            "other_build": other_build,
            "a_debug_file_of_nothing": lambda door, name: door.say(b"\x7fELF" + bytes(2000))
            if name == "debuginfo" else door.absent(),
        }
        self.server = Harm(("127.0.0.1", 0), Handler)
        self.server.kinds, self.server.sent = self.kinds, Counter()
        self.addCleanup(self.server.server_close)
        self.addCleanup(self.server.shutdown)
        threading.Thread(target=self.server.serve_forever, daemon=True).start()

    def url(self, kind: str) -> str:
        """The address of the store on this kind of server."""
        return f"http://127.0.0.1:{self.server.server_address[1]}/{kind}"

    def environment(self, kept: Path) -> Dict[str, str]:
        return clean({"XDG_CACHE_HOME": str(kept), "HOME": str(kept), "DEBUGINFOD_URLS": "",
                      "no_proxy": "*"})

    def ask(self, kind: str) -> str:
        """Errors in how this kind of server is handled; "" if it is refused."""
        kept = self.folder / f"kept.{kind}"
        done = run(tool("types"), "--store", self.url(kind), self.id, "struct packet",
                   environment=self.environment(kept))
        lines = done.errors.splitlines()
        left = [path for path in kept.rglob("*") if path.is_file()]
        is_refused = (done.status, len(lines), done.output, left) == (1, 1, "", [])
        sent = self.server.sent[kind]
        is_bounded = sent < MOST_BYTES and done.megabytes < MOST_MEGABYTES
        print(f"{kind}: {sent >> 20} MB sent, {done.megabytes:.0f} MB: {done.errors.strip()}")
        return "" if is_refused and is_bounded else f"{kind}: {sent} bytes, {done}, {left}"

    def test_each_is_refused(self) -> None:
        self.assertGreaterEqual(len(self.kinds), 20)
        others = [kind for kind in self.kinds if kind not in WAITING]
        with ThreadPoolExecutor(len(WAITING)) as pool:
            waiting = [pool.submit(self.ask, kind) for kind in WAITING]
            wrong = [*map(self.ask, others), *(one.result() for one in waiting)]
        self.assertEqual([one for one in wrong if one], [])

    def test_libctfs_calls_refuse_them(self) -> None:
        stripped, _ = self.split(self.built)
        for header in HEADERS:
            door = self.libctf(header)
            for kind in (*BY_LIBCTF, *AS_ABSENT) if header == "gnu" else BY_LIBCTF[:2]:
                kept = self.folder / f"kept.{header}.{kind}"
                done = run(door, stripped, environment={**self.environment(kept),
                                                        "CTFD_STORE": self.url(kind)})
                self.assertEqual(done.status, 1, (kind, done.text))
                begins = (f"{errno.EREMOTEIO}: the stores of CTFD_STORE gave no types"
                          if kind in BY_LIBCTF else "1008: no section .SUNW_ctf")
                self.assertTrue(done.output.startswith(begins), (kind, done.output))
                self.assertEqual(done.errors, "")
                self.assertEqual([path for path in kept.rglob("*") if path.is_file()], [])
                self.assertLess(self.server.sent[kind], 2 * MOST_BYTES)
