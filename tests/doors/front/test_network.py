"""The front behind nginx and haproxy, as in docs/SERVING.md: TCP on loopback with TLS and client
certificates, and several fronts, of which each client always reaches the same one.

The tests run the page's own blocks, with their own ports and files.
"""
from __future__ import annotations

import json
import os
import re
import shutil
import socket
import ssl
import subprocess
import sys
import unittest
from pathlib import Path
from typing import Callable, Dict, List

from .support import TOP, Front, WithFront, ask, until

sys.path.insert(0, str(TOP / "clients" / "python"))

import ctfd  # noqa: E402

TAKE = ask("take", owner=0, name="lua")
KIND = ask("kind", d=1, t=1)
BLOCK = re.compile(r"^<!-- ([a-z -]+): run by tests/doors/front -->\n```\n(.*?)^```$",
                   re.MULTILINE | re.DOTALL)
BLOCKS = dict(BLOCK.findall((TOP / "docs" / "SERVING.md").read_text()))
MODULE = Path("/usr/lib/nginx/modules/ngx_stream_module.so")
HAS_NGINX = MODULE.exists() and shutil.which("nginx", path="/usr/sbin:/usr/bin") is not None
HAS_HAPROXY = shutil.which("haproxy", path="/usr/sbin:/usr/bin") is not None
LINES = 2_000


def free_port() -> str:
    with socket.socket() as free:
        free.bind(("127.0.0.1", 0))
        return str(free.getsockname()[1])


class Network(WithFront):
    """A folder with certificates, one or two fronts, and a program in front of them."""

    def setUp(self) -> None:
        super().setUp()
        os.chmod(self.folder, 0o755)
        self.port = free_port()
        self.certify("authority", [])
        for name in ("server", "ann", "bob", "eve"):
            self.certify(name, ["-CA", "authority.crt", "-CAkey", "authority.key"])

    def certify(self, name: str, by: List[str]) -> None:
        """Makes a key and a certificate, signed by an authority or by itself."""
        self.run_here("openssl", "req", "-x509", "-newkey", "ec", "-pkeyopt",
                      "ec_paramgen_curve:P-256", "-nodes", "-days", "2", "-subj", f"/CN={name}",
                      "-keyout", f"{name}.key", "-out", f"{name}.crt", *by)
        both = [Path(self.folder, f"{name}.{end}").read_text() for end in ("crt", "key")]
        Path(self.folder, f"{name}.pem").write_text("".join(both))

    def run_here(self, *words: str) -> None:
        subprocess.run(words, cwd=self.folder, check=True, capture_output=True)

    def begin(self, name: str, front: str, *command: str) -> None:
        """Starts a program with a block of the page, and waits until it listens."""
        text = front + self.here(BLOCKS[name])
        path, log = (Path(self.folder, f"{end} of {name}") for end in ("words", "log"))
        path.write_text(text)
        with log.open("wb") as told:
            program = subprocess.Popen([*command, str(path)], cwd=self.folder, stderr=told,
                                       stdout=told)
        self.addCleanup(program.wait)
        self.addCleanup(program.terminate)
        until(lambda: self.listens(text) or program.poll() is not None)
        self.assertIsNone(program.poll(), log.read_text())

    def here(self, block: str) -> str:
        """A block with the test's own port, on loopback only, and its own files."""
        places = {"types.example:7700": "HERE", ":7700": "HERE", "7700": "HERE",
                  "HERE": f"127.0.0.1:{self.port}", "/etc/ctfd": self.folder,
                  "/run/ctfd-f": f"{self.folder}/ctfd-f"}
        for place, own in places.items():
            block = block.replace(place, own)
        return block

    def listens(self, text: str) -> bool:
        """Whether the program with this configuration listens."""
        if "listen unix:" in text:
            return Path(self.folder, "ctfd-far.sock").exists()
        try:
            socket.create_connection(("127.0.0.1", int(self.port))).close()
        except OSError:
            return False
        return True

    def client(self, name: str) -> ssl.SSLSocket:
        """A connection with a certificate."""
        context = ssl.create_default_context(cafile=f"{self.folder}/authority.crt")
        context.check_hostname = False
        if name:
            context.load_cert_chain(f"{self.folder}/{name}.pem")
        plain = socket.create_connection(("127.0.0.1", int(self.port)), 60)
        client = context.wrap_socket(plain)
        self.addCleanup(client.close)
        return client

    def nginx(self, name: str) -> None:
        self.begin(name, f"load_module {MODULE};\ndaemon off;\nerror_log stderr;\nevents {{}}\n"
                   f"pid '{self.folder}/pid of {name}';\n", "/usr/sbin/nginx", "-p", self.folder,
                   "-c")

    def haproxy(self, name: str) -> None:
        self.begin(name, "", "/usr/sbin/haproxy", "-db", "-f")

    def one_front(self, begin: Callable[[str], None], name: str) -> None:
        """Lines pass, replies come in order, and a client without a certificate is refused."""
        front = self.front("--mode", "666", path="ctfd-front.sock").start()
        begin(name)
        for who in ("ann", "bob"):
            client = self.client(who)
            client.sendall(TAKE + LINES * KIND + b"{}\n")
            replies = lines(client, LINES + 2)
            self.assertIn(b'"types":526', replies[0])
            self.assertEqual(set(replies[1:-1]), {replies[1]})
            self.assertGreater(json.loads(replies[-1])["s"], 0)
        with self.assertRaises((OSError, ssl.SSLError, AssertionError)):
            stranger = self.client("")
            stranger.sendall(b"{}\n")
            lines(stranger, 1)
        front.until_told(f"lines {2 * (LINES + 2)},")

    def two_fronts(self, begin: Callable[[str], None], name: str) -> None:
        """Each client always reaches the same front, and both fronts have clients."""
        fronts = [self.front("--mode", "666", path=f"ctfd-front-{number}.sock").start()
                  for number in (1, 2)]
        begin(name)
        places: Dict[str, int] = {}
        before, asked = [0, 0], 0
        for number in range(12):
            self.certify(f"user-{number}", ["-CA", "authority.crt", "-CAkey", "authority.key"])
            for _ in range(3):
                client = self.client(f"user-{number}")
                client.sendall(b"{}\n" * (number + 1))
                lines(client, number + 1)
                client.close()
                asked += number + 1
                until(lambda: sum(map(lines_of, fronts)) == asked)
                counts = [lines_of(front) for front in fronts]
                place = [old < new for old, new in zip(before, counts)].index(True)
                self.assertEqual(places.setdefault(f"user-{number}", place), place)
                before = counts
        self.assertEqual(set(places.values()), {0, 1})


def lines(client: ssl.SSLSocket, count: int) -> List[bytes]:
    """The next `count` lines."""
    data = b""
    while data.count(b"\n") < count:
        more = client.recv(65_536)
        assert more, data[-200:]
        data += more
    return data.split(b"\n")[:-1]


def lines_of(front: Front) -> int:
    """The number of lines that a front has answered."""
    return int(front.tell().split("lines ")[1].split(",")[0])


@unittest.skipUnless(HAS_NGINX, "there is no nginx")
class Nginx(Network):
    def test_one_front(self) -> None:
        self.one_front(self.nginx, "nginx")

    def test_several_fronts(self) -> None:
        self.two_fronts(self.nginx, "nginx of several")

    def test_client_in_python(self) -> None:
        """Over a Unix socket of the client's machine."""
        self.front("--mode", "666", path="ctfd-front.sock").start()
        self.nginx("nginx")
        self.nginx("nginx of a client")
        with ctfd.Client(socket=f"{self.folder}/ctfd-far.sock") as client:
            types = ctfd.taken(client.session(), 0, "lua")
            self.assertEqual(types.find("struct lua_State").size, 200)


@unittest.skipUnless(HAS_HAPROXY, "there is no haproxy")
class Haproxy(Network):
    def test_one_front(self) -> None:
        self.one_front(self.haproxy, "haproxy")

    def test_several_fronts(self) -> None:
        self.two_fronts(self.haproxy, "haproxy of several")


del Network
