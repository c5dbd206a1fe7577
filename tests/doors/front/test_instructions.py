"""The instructions of a line in the front and its service, counted by callgrind, so other work on
the machine makes no difference."""
from __future__ import annotations

import re
import shutil
import signal
import sys
import unittest
from pathlib import Path
from typing import Callable, Sequence

from .support import Front, Talker, WithFront, ask

TAKE = ask("take", owner=0, name="lua")
LINES = 2_000
BURST = 100
STRUCT = 218
WORDS = {
    "kind": ask("kind", d=1, t=STRUCT), "record": ask("record", d=1, t=STRUCT),
    "members": ask("members", d=1, t=STRUCT), "find": ask("find", d=1, text="struct lua_State"),
    "kind, spelled otherwise": b'{ "op" : "kind", "d": 1, "t": 218, "s" : 7 }\n',
}
# A quarter more than measured.
MOST = {"kind": 3_200, "record": 4_400, "members": 4_500, "find": 4_200,
        "kind, spelled otherwise": 3_800}
MOST_ALONE = 5_900  # for a line that is waited for
MOST_BYTE = 1_000  # the extra cost of a byte that comes by itself after 1 MB
HAS_VALGRIND = shutil.which("valgrind") is not None


@unittest.skipUnless(HAS_VALGRIND, "there is no valgrind")
class Instructions(WithFront):
    def count(self, does: Callable[[Talker], None], words: Sequence[str] = ()) -> int:
        """All instructions of a front with one client, from start to end."""
        out = Path(self.folder, "out")
        front = Front(self.folder, *words, under=(
            "valgrind", "--tool=callgrind", f"--callgrind-out-file={out}", "--quiet"))
        self.addCleanup(front.end, signal.SIGKILL)
        talker = self.talker(front.start())
        talker.ask(TAKE)
        does(talker)
        self.assertEqual(front.end(), 0)
        total = re.search(r"^(?:summary|totals): (\d+)", out.read_text(), re.MULTILINE)
        assert total
        return int(total[1])

    def test_lines(self) -> None:
        nothing = self.count(lambda talker: None)
        for name, line in WORDS.items():
            each = (self.count(lambda talker: bursts(talker, line)) - nothing) / LINES
            print(f"a line of {name}: {each:.0f} instructions", file=sys.stderr)
            self.assertLess(each, MOST[name], name)
        each = (self.count(one_by_one) - nothing) / LINES
        print(f"a line that is waited for: {each:.0f} instructions", file=sys.stderr)
        self.assertLess(each, MOST_ALONE)

    def test_bytes_behind_half_a_line(self) -> None:
        """Received bytes are searched once, and copied once."""
        few, many = (self.count(lambda talker: drops(talker, count)) for count in (1, 301))
        alone = (many - few) / 300
        few, many = (self.count(lambda talker: drops(talker, count, 1_000_000))
                     for count in (1, 301))
        behind = (many - few) / 300
        print(f"a byte: {alone:.0f} instructions; behind 1 MB: {behind:.0f}", file=sys.stderr)
        self.assertLess(behind - alone, MOST_BYTE)


def bursts(talker: Talker, line: bytes) -> None:
    """Sends lines, many at a time."""
    for _ in range(LINES // BURST):
        talker.ask(BURST * line)


def one_by_one(talker: Talker) -> None:
    """Sends lines, and waits for the reply to each."""
    for _ in range(LINES):
        talker.ask(WORDS["kind"])


def drops(talker: Talker, count: int, before: int = 0) -> None:
    """Sends the bytes of a line one by one, with another client's question between them."""
    talker.send(before * b" ")
    other = Talker(talker.path)
    other.number()
    for _ in range(count):
        talker.send(b" ")
        other.number()
    other.close()
    talker.ask(b"\n")
