"""Valid and hostile lines that a client may send, each with the line that has the same reply.

A `SentLine` has the line, and the line that the client's own service gets instead: the same line if
its last `s` names the client's session, or if it names none; otherwise the same request with that
session. `named` is the session in the reply to the client.
"""
from __future__ import annotations

import json
import random
import struct
from dataclasses import dataclass
from typing import Any, Callable, Dict, List, Optional, Sequence

LONGEST = 1_048_576  # see docs/SERVING.md
Fields = Dict[str, Any]

NO_SESSIONS = ("null", "0", "-1", "-0", '"5"', "5.0", "5e0", "4294967296", "[]", "{}", "true",
               "1" + 30 * "0", '{"s":4}', '"s"')
NO_REQUESTS: Sequence[bytes] = (
    b"", b"[]", b"5", b'"s"', b"null", b"true}", b"}", b"{", b"{}}", b'{"s":1', b'{"s":1,}',
    b'{,"s":1}', b'{"s":1}{"s":2}', b"[" * 200, b'{"a":' * 200 + b"1" + b"}" * 200,
    b"[[]" * 90 + b"]" * 90, b'{"s":1,"op":"reset"', b'"s":1,"op":"reset"}', b'{"op":"reset\\',
    b'{"op":"reset","x":"\\}', b'{"op":"reset","x":"}', b'{"op":"reset","x}', b'{"op":reset}',
    b'\xef\xbb\xbf{"s":1,"op":"reset"}', b'{"s":1,"op":"reset"}\0', b'{"s":1,"op":"re\0set"}',
    b'{"s":1,"op":"reset","x":"\xff"}', b'{"s":1,"op":"reset","x":"\\ud800"}',
    b'{"s":1,"op":"reset","x":1e999}', b'{"s":1,"op":"reset","x":1' + 5000 * b"0" + b"}",
    b'{"s":1,"op":"reset","x":NaN}', b'{"s":01,"op":"reset"}', b"{'s':1,'op':'reset'}",
    b'{"s":1,"op":"reset"} x', b'\x0c{"s":1,"op":"reset"}', b'{"s":1 "op":"reset"}',
    b'{"s":1,"op":"reset",}', b'{"s":1;"op":"reset"}', b'{"s" 1}', b'{\x0b}', b"\\",
    b'{"s":1,"op":"reset"//}', b'\xfe\xff\0{\0}', b'{"s":1,"op":"reset","s":}', b'{:}', b'{"":}',
)


@dataclass(frozen=True)
class SentLine:
    """A line of a client. `took` is the owner and name of a take, or None."""

    line: bytes
    own: bytes
    named: Optional[int]
    took: Optional[tuple[int, str]] = None


def request_text(fields: Fields) -> str:
    return json.dumps(fields, separators=(",", ":"))


class Sender:
    """The lines of one client. `number` is its session, and `own` the one that it writes."""

    def __init__(self, number: int, own: int, others: Sequence[int], chance: random.Random) -> None:
        self.number, self.own, self._others, self._chance = number, own, others, chance

    def plain_request(self, fields: Fields) -> SentLine:
        """A request in the usual spelling."""
        line = request_text({"s": self.own, **fields}).encode()
        return SentLine(line, line, self.own, self._took(fields))

    def disguised_request(self, fields: Fields) -> SentLine:
        """A request whose session is written in one of many ways."""
        way = self._chance.choice(self._WAYS)
        other = self._chance.choice(self._others)
        plain = self.plain_request(fields)
        line, named = way(self, request_text(fields)[1:-1], other)
        return SentLine(line.encode(), plain.own, named, plain.took)

    def refused_request(self, fields: Fields) -> SentLine:
        """A line that names no session; the service's reply does not depend on the client."""
        if self._chance.random() < 0.5:
            line = self._chance.choice(NO_REQUESTS)
        else:
            session = self._chance.choice(NO_SESSIONS)
            first = self._chance.choice(("", f'"s":{self.own},'))
            key = self._chance.choice(('"s"', '"\\u0073"', ' "s" '))
            line = f"{{{first}{request_text(fields)[1:-1]},{key}:{session}}}".encode()
        return SentLine(line, line, None)

    def long_line(self) -> SentLine:
        """A line that is too long."""
        size = self._chance.choice((LONGEST + 1, LONGEST + 2, 1_200_000))
        line = request_text({"s": self.own, "op": "reset"}).encode().ljust(size)
        return SentLine(line, 1_048_577 * b" ", None)

    def longest(self) -> SentLine:
        """A line of the greatest allowed length."""
        line = request_text({"s": self.own, "op": "info", "d": 1}).encode()
        line = line[:-1] + b',"x":"' + (LONGEST - len(line) - 7) * b"y" + b'"}'
        return SentLine(line, line, self.own)

    def _took(self, fields: Fields) -> Optional[tuple[int, str]]:
        return (fields["owner"], fields["name"]) if fields["op"] == "take" else None

    # Each takes the fields without their braces, and another client's session.

    def _of_other(self, fields: str, other: int) -> tuple[str, int]:
        return f'{{"s":{other},{fields}}}', other

    def _behind(self, fields: str, other: int) -> tuple[str, int]:
        return f'{{{fields},"s":{other}}}', other

    def _twice(self, fields: str, other: int) -> tuple[str, int]:
        return f'{{"s":{self.own},{fields},"s":{other}}}', other

    def _twice_own(self, fields: str, other: int) -> tuple[str, int]:
        return f'{{"s":{other},{fields},"s":{self.own}}}', self.own

    def _with_escapes(self, fields: str, other: int) -> tuple[str, int]:
        return f'{{"s":{self.own},{fields},"\\u0073":{other}}}', other

    def _escaped_first(self, fields: str, other: int) -> tuple[str, int]:
        return f'{{"\\u0073":{other},{fields}}}', other

    def _in_text(self, fields: str, other: int) -> tuple[str, int]:
        return f'{{"s":{self.own},{fields},"x":"\\",\\"s\\":{other}}}"}}', self.own

    def _as_text(self, fields: str, other: int) -> tuple[str, int]:
        return f'{{"s":{self.own},{fields},"x":"s","y":"}}{other}{{"}}', self.own

    def _with_nesting(self, fields: str, other: int) -> tuple[str, int]:
        return f'{{"s":{self.own},{fields},"x":{{"s":{other}}}}}', self.own

    def _nested_alone(self, fields: str, other: int) -> tuple[str, int]:
        return f'{{"x":[{{"s":{other}}}],{fields}}}', self.number

    def _without(self, fields: str, other: int) -> tuple[str, int]:
        return f"{{{fields}}}", self.number

    def _blanks(self, fields: str, other: int) -> tuple[str, int]:
        return f'\t {{ {fields} ,\r "s" :\t{other} }} \r', other

    def _mend(self, fields: str, other: int) -> tuple[str, int]:
        return f'{{"s":null,{fields},"s":{other}}}', other

    def _with_depth(self, fields: str, other: int) -> tuple[str, int]:
        deep = '{"s":' * 120 + str(other) + "}" * 120
        return f'{{"x":{deep},{fields},"s":{self.own}}}', self.own

    _WAYS: Sequence[Callable[["Sender", str, int], "tuple[str, int]"]] = (
        _of_other, _behind, _twice, _twice_own, _with_escapes, _escaped_first, _in_text, _as_text,
        _with_nesting, _nested_alone, _without, _blanks, _mend, _with_depth)


def dictionary(types: int) -> bytes:
    """A dictionary of integers. The first has their number in its name."""
    names = b"\0of_%d\0" % types
    records = b"".join(struct.pack("<IHHI", 0 if place else 1, 1 << 11 | 1 << 10, 4, 1 << 24 | 32)
                       for place in range(types))
    head = struct.pack("<8I", 0, 0, 0, 0, 0, 0, len(records), len(names))
    return b"\xf1\xcf\x02\0" + head + records + names


def handed_in(types: int) -> List[Fields]:
    """The requests that hand in and open a dictionary."""
    data = dictionary(types).hex()
    half = len(data) // 4 * 2
    return [{"op": "part", "section": "ctf", "bytes": data[:half]},
            {"op": "part", "section": "ctf", "bytes": data[half:]}, {"op": "open"}]
