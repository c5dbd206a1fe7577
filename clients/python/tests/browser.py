"""A headless chromium, driven over its debugging pipe with JSON messages that end in a zero
byte."""
from __future__ import annotations

import json
import os
import selectors
import shutil
import subprocess
import tempfile
import time
from typing import Any, Dict, List

CHROMIUM = shutil.which("chromium") or ""
PATIENCE = 90.0
KEYS = {"Enter": ("Enter", "\r"), "/": ("Slash", "/")}


class Browser:
    """One page. `errors` lists the errors of its console and scripts."""

    def __init__(self) -> None:
        self.errors: List[str] = []
        self._asked = 0
        self._unread = b""
        self._folder = tempfile.mkdtemp()
        theirs, self._to = os.pipe()
        self._from, theirs_out = os.pipe()
        shell = 'exec 3<&"$1" 4>&"$2"; shift 2; exec "$@"'
        words = [CHROMIUM, "--headless", "--no-sandbox", "--disable-gpu", "--no-first-run",
                 f"--user-data-dir={self._folder}", "--remote-debugging-pipe", "about:blank"]
        self._process = subprocess.Popen(
            ["bash", "-c", shell, "bash", str(theirs), str(theirs_out), *words],
            pass_fds=(theirs, theirs_out), stderr=subprocess.DEVNULL)
        os.close(theirs)
        os.close(theirs_out)
        os.set_blocking(self._from, False)
        self._session = ""
        target = self.ask("Target.createTarget", url="about:blank")["targetId"]
        self._session = self.ask("Target.attachToTarget", targetId=target,
                                 flatten=True)["sessionId"]
        for domain in ("Page", "Runtime", "Log"):
            self.ask(f"{domain}.enable")

    def close(self) -> None:
        os.close(self._to)
        os.close(self._from)
        try:
            self._process.wait(10)
        except subprocess.TimeoutExpired:
            self._process.kill()
            self._process.wait()
        shutil.rmtree(self._folder, ignore_errors=True)

    def ask(self, method: str, **parameters: Any) -> Dict[str, Any]:
        """The browser's answer; errors that it reports in between are collected."""
        self._asked += 1
        message: Dict[str, Any] = {"id": self._asked, "method": method, "params": parameters}
        if self._session:
            message["sessionId"] = self._session
        os.write(self._to, json.dumps(message).encode() + b"\0")
        while True:
            said = self._next()
            if said.get("id") == self._asked:
                if "error" in said:
                    raise AssertionError(f"{method}: {said['error']}")
                return dict(said["result"])
            self._look_at(said)

    def _look_at(self, said: Dict[str, Any]) -> None:
        method, told = said.get("method"), said.get("params", {})
        if method == "Runtime.exceptionThrown":
            self.errors.append(json.dumps(told["exceptionDetails"]))
        elif method == "Log.entryAdded" and told["entry"]["level"] == "error":
            self.errors.append(told["entry"]["text"])
        elif method == "Runtime.consoleAPICalled" and told["type"] in ("error", "warning"):
            self.errors.append(json.dumps(told["args"]))

    def _next(self) -> Dict[str, Any]:
        with selectors.DefaultSelector() as ready:
            ready.register(self._from, selectors.EVENT_READ)
            while b"\0" not in self._unread:
                if not ready.select(PATIENCE):
                    raise AssertionError("the browser is silent")
                piece = os.read(self._from, 65536)
                if not piece:
                    raise AssertionError("the browser has ended")
                self._unread += piece
        line, self._unread = self._unread.split(b"\0", 1)
        return dict(json.loads(line))

    def open(self, path: str) -> None:
        self.ask("Page.navigate", url=f"file://{path}")
        self.until("document.readyState === 'complete' && document.body !== null")

    def value(self, script: str) -> Any:
        """The value of a script."""
        said = self.ask("Runtime.evaluate", expression=script, returnByValue=True)
        if "exceptionDetails" in said:
            raise AssertionError(str(said["exceptionDetails"]))
        return said["result"].get("value")

    def until(self, script: str) -> None:
        """Waits until a script is true."""
        end = time.monotonic() + PATIENCE
        while not self.value(script):
            if time.monotonic() > end:
                raise AssertionError(f"never true: {script}")
            time.sleep(0.02)

    def press(self, key: str) -> None:
        code, text = KEYS[key]
        for kind in ("keyDown", "keyUp"):
            said = {"text": text} if kind == "keyDown" else {}
            self.ask("Input.dispatchKeyEvent", type=kind, key=key, code=code, **said)

    def write(self, text: str) -> None:
        self.ask("Input.insertText", text=text)

    def looks(self, wide: int, high: int, scheme: str) -> None:
        """Sets the size of the window, and the preferred color scheme: light or dark."""
        self.ask("Emulation.setDeviceMetricsOverride", width=wide, height=high,
                 deviceScaleFactor=1, mobile=False)
        self.ask("Emulation.setEmulatedMedia",
                 features=[{"name": "prefers-color-scheme", "value": scheme}])

    def picture(self) -> str:
        """A screenshot as PNG, in base64."""
        return str(self.ask("Page.captureScreenshot", format="png")["data"])
