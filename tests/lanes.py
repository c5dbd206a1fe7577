"""Runs parts in parallel lanes, and prints how each went."""
from __future__ import annotations

import os
import re
import signal
import subprocess
import time
from dataclasses import dataclass, field
from pathlib import Path

from parts import Part

# As printed by scripts of this repository, and by pytest.
SKIPPED = re.compile(r"^skipped.*|^SKIPPED (?!.*not possible here).*", re.MULTILINE)
IMPOSSIBLE = re.compile(r"^not possible here: .*|^SKIPPED .*not possible here.*", re.MULTILINE)
# No part takes nearly as long, so one that does would not end.
LONGEST_SECONDS = 1800
LINES_SHOWN = 200
# After so many seconds of silence, a line lists what runs.
SILENT_SECONDS = 60
STEP_SECONDS = 0.1


@dataclass
class Running:
    """A part that runs, and the file for its output."""

    part: Part
    child: subprocess.Popen[bytes]
    log: Path
    began: float = field(default_factory=time.monotonic)

    @property
    def seconds(self) -> int:
        return round(time.monotonic() - self.began)

    def end(self, why: str) -> None:
        """Kills the part and all that it has started."""
        with self.log.open("ab") as out:
            out.write(f"{why}\n".encode())
        os.killpg(self.child.pid, signal.SIGKILL)
        self.child.wait()


@dataclass
class Lanes:
    """Waiting and running parts, and the results of those that have ended."""

    waiting: list[Part]
    count: int
    is_strict: bool
    folder: Path
    running: list[Running] = field(default_factory=list)
    well: dict[str, bool] = field(default_factory=dict)
    last_line: float = field(default_factory=time.monotonic)

    def run(self) -> dict[str, bool]:
        """Runs all parts. Returns whether each succeeded, by name."""
        of = len(self.waiting)
        try:
            while self.waiting or self.running:
                self.start()
                for one in [it for it in self.running if self.has_ended(it)]:
                    self.running.remove(one)
                    self.well[one.part.name] = self.report(one, of)
                self.tell_what_runs()
                time.sleep(STEP_SECONDS)
        finally:
            for one in self.running:
                one.end("ended with all others")
        return self.well

    def start(self) -> None:
        """Starts the parts that may begin."""
        for part in list(self.waiting):
            if self.may_begin(part):
                self.waiting.remove(part)
                self.begin(part)

    def may_begin(self, part: Part) -> bool:
        """Whether a lane is free, and the parts that this one needs have ended."""
        open_ones = {it.name for it in self.waiting} | {it.part.name for it in self.running}
        if len(self.running) == self.count or open_ones & set(part.after):
            return False
        return not part.is_alone or not self.running and all(it.is_alone for it in self.waiting)

    def begin(self, part: Part) -> None:
        log = self.folder / part.name
        with log.open("wb") as out:
            try:
                child = subprocess.Popen(part.command, cwd=part.folder, stdin=subprocess.DEVNULL,
                                         stdout=out, stderr=subprocess.STDOUT,
                                         env={**os.environ, **part.words}, start_new_session=True)
            except OSError as why:
                out.write(f"{part.command[0]}: {why}\n".encode())
                child = subprocess.Popen(["false"], start_new_session=True)
        self.running.append(Running(part, child, log))

    def has_ended(self, one: Running) -> bool:
        if one.child.poll() is None and one.seconds > LONGEST_SECONDS:
            one.end(f"no end within {LONGEST_SECONDS} seconds")
        return one.child.poll() is not None

    def report(self, one: Running, of: int) -> bool:
        """Prints how a part went."""
        status = one.child.returncode
        said = one.log.read_text(encoding="utf-8", errors="replace")
        skips = SKIPPED.findall(said)
        well = status == 0 and not (self.is_strict and skips)
        print(f"{'passed' if well else 'FAILED'}  {one.part.name}  ({one.seconds} s)"
              f"  {len(self.well) + 1} of {of}")
        for line in [*skips, *IMPOSSIBLE.findall(said)]:
            print(f"        {line}")
        if status != 0:
            print(*said.splitlines()[-LINES_SHOWN:], f"status {status}", sep="\n", flush=True)
        self.flush_line()
        return well

    def flush_line(self) -> None:
        print(end="", flush=True)
        self.last_line = time.monotonic()

    def tell_what_runs(self) -> None:
        if time.monotonic() - self.last_line > SILENT_SECONDS and self.running:
            print("running", ", ".join(f"{it.part.name} {it.seconds} s" for it in self.running))
            self.flush_line()
