"""The progress of a build: each line with the seconds since the start, and a line after about half
a minute of silence, to show that it still runs."""
from __future__ import annotations

import threading
import time
from types import TracebackType
from typing import Optional

SILENT_SECONDS = 25


class Progress:
    """Prints lines with their seconds; inside its `with` block, also a line after each long
    silence."""

    def __init__(self) -> None:
        self.began = self.last = time.monotonic()
        self.text = ""
        self.ended = threading.Event()
        self.teller = threading.Thread(target=self._tell, daemon=True)

    def say(self, text: str) -> None:
        self.last, self.text = time.monotonic(), text
        self._print(text)

    def _print(self, text: str) -> None:
        print(f"{time.monotonic() - self.began:5.0f} s  {text}", flush=True)

    def _tell(self) -> None:
        while not self.ended.wait(1):
            if time.monotonic() - self.last > SILENT_SECONDS:
                self.last = time.monotonic()
                self._print(f"still: {self.text}")

    def __enter__(self) -> Progress:
        self.teller.start()
        return self

    def __exit__(self, kind: Optional[type[BaseException]], why: Optional[BaseException],
                 trace: Optional[TracebackType]) -> None:
        self.ended.set()
        self.teller.join()
