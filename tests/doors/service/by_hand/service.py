"""A service that is asked line by line, and helpers to hand dictionaries in."""
from __future__ import annotations

import json
import os
import subprocess
import unittest
from typing import Any, NamedTuple, Optional, Union

from .dictionaries import Dictionary

# The number of bytes of a list that one line hands in.
PIECE_BYTES = 262_144


class Fault(NamedTuple):
    """A refusal: the fault's name and place."""

    name: str
    place: int = 0


class Service:
    """A `ctfd serve`, and one session of it."""

    def __init__(self) -> None:
        self.process = subprocess.Popen([os.environ["CTFD"], "serve"], stdin=subprocess.PIPE,
                                        stdout=subprocess.PIPE)

    def ask(self, op: str, **fields: Any) -> Union[dict[str, Any], Fault]:
        """The answer to one line, or the fault."""
        assert self.process.stdin and self.process.stdout
        line = json.dumps({"s": 1, "op": op, **fields}) + "\n"
        self.process.stdin.write(line.encode())
        self.process.stdin.flush()
        reply = json.loads(self.process.stdout.readline())
        if "fault" in reply:
            return Fault(reply["fault"]["name"], reply["fault"]["place"])
        answer: dict[str, Any] = reply["ok"]
        return answer

    def stage(self, ctf: bytes, sym: Optional[bytes] = None, strs: Optional[bytes] = None) -> None:
        """Stages lists, in place of those staged before."""
        self.ask("clear")
        for section, data in (("ctf", ctf), ("sym", sym), ("str", strs)):
            if data is not None:
                for at in range(0, max(len(data), 1), PIECE_BYTES):
                    piece = data[at:at + PIECE_BYTES].hex()
                    assert "length" in self.ask("part", section=section, bytes=piece)

    def close(self) -> None:
        assert self.process.stdin and self.process.stdout
        self.process.stdin.close()
        self.process.wait()
        self.process.stdout.close()


class OverService(unittest.TestCase):
    """Tests with a service of their own."""

    def setUp(self) -> None:
        self.service = Service()
        self.addCleanup(self.service.close)

    def ask(self, op: str, **fields: Any) -> Union[dict[str, Any], Fault]:
        return self.service.ask(op, **fields)

    def first_fault(self, dictionary: Union[Dictionary, bytes], sym: Optional[bytes] = None,
                    strs: Optional[bytes] = None) -> Optional[Fault]:
        """The first rule that the lists break, or None."""
        ctf = dictionary.bytes() if isinstance(dictionary, Dictionary) else dictionary
        self.service.stage(ctf, sym, strs)
        answer = self.ask("check")
        return answer if isinstance(answer, Fault) else None

    def open_lists(self, dictionary: Union[Dictionary, bytes], sym: Optional[bytes] = None,
                   strs: Optional[bytes] = None) -> int:
        """Opens lists that break no rule. Returns the number of the slot."""
        self.assertIsNone(self.first_fault(dictionary, sym, strs))
        answer = self.ask("open")
        assert isinstance(answer, dict)
        number: int = answer["d"]
        return number
