"""Servers on loopback that the tests put in front of a store."""
from __future__ import annotations

import os
import re
import socket
import subprocess
import sys
import time
from pathlib import Path
from typing import Mapping, Optional, Sequence

HOST = "127.0.0.1"
# A server that takes longer hangs; no test measures the time of one.
SECONDS = 600
PAGE = Path(__file__).resolve().parents[3] / "docs" / "STORE.md"


def free_port() -> int:
    """A port without a listener."""
    with socket.socket() as probe:
        probe.bind((HOST, 0))
        port: int = probe.getsockname()[1]
        return port


def wait_for(port: int) -> None:
    """Waits until a server listens at a port."""
    last = time.monotonic() + SECONDS
    while True:
        with socket.socket() as probe:
            if probe.connect_ex((HOST, port)) == 0:
                return
        if time.monotonic() > last:
            raise TimeoutError(f"nobody listens at port {port}")
        time.sleep(0.05)


class Server:
    """A program that serves at a port inside a `with` block."""

    def __init__(self, words: Sequence[object], port: int, folder: Path,
                 environment: Optional[Mapping[str, str]] = None) -> None:
        self.port = port
        self.url = f"http://{HOST}:{port}"
        self.log = folder / f"log.{port}"
        with self.log.open("wb") as log:
            self.process = subprocess.Popen([str(word) for word in words], stdout=log, stderr=log,
                                            stdin=subprocess.DEVNULL, cwd=folder,
                                            env={**os.environ, **(environment or {})})

    def __enter__(self) -> Server:
        wait_for(self.port)
        return self

    def __exit__(self, *_: object) -> None:
        self.process.terminate()
        try:
            self.process.wait(10)
        except subprocess.TimeoutExpired:
            self.process.kill()
            self.process.wait()


def python(store: Path, folder: Path) -> Server:
    """Python's own server."""
    port = free_port()
    return Server([sys.executable, "-m", "http.server", "--bind", HOST, "-d", store, port], port,
                  folder)


def nginx(store: Path, folder: Path, distribution: str) -> Server:
    """nginx configured as on the page, with `distribution` as the server of a distribution."""
    port = free_port()
    lines = re.search(r"```\n(server \{.*?)```", PAGE.read_text("utf-8"), re.DOTALL)
    assert lines is not None
    recipe = lines[1].replace("listen 8002;", f"listen {HOST}:{port};")
    recipe = recipe.replace("root /srv/types;", f"root {store};")
    recipe = recipe.replace("https://debuginfod.debian.net", distribution)
    (folder / "nginx.conf").write_text(f"""
        daemon off; pid {folder}/nginx.pid; error_log stderr; worker_processes 1;
        {'user root;' if os.geteuid() == 0 else ''}
        events {{ }}
        http {{
            access_log {folder}/access.log;
            client_body_temp_path {folder}/body; proxy_temp_path {folder}/proxy;
            fastcgi_temp_path {folder}/fastcgi; uwsgi_temp_path {folder}/uwsgi;
            scgi_temp_path {folder}/scgi;
            {recipe}
        }}""")
    words = ["nginx", "-p", folder, "-c", folder / "nginx.conf", "-e", "stderr"]
    return Server(words, port, folder)


def debuginfod(folder: Path, store: Optional[Path], upstream: str = "") -> Server:
    """elfutils' server for a store, or for another server."""
    port = free_port()
    words = ["debuginfod", "-p", port, "-d", ":memory:", *(["-F", store] if store else [])]
    kept = folder / f"cache.{port}"
    return Server(words, port, folder, {"DEBUGINFOD_URLS": upstream, "HOME": str(folder),
                                        "DEBUGINFOD_CACHE_PATH": str(kept)})
