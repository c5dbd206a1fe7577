"""Gives a built ctfd damaged dictionaries, and compares its results with those of judge.py.

Eight small dictionaries are handed in, with their symbols and strings, cut at each shorter length,
and with each byte replaced by others: by each that differs in one bit, and by some of the rest,
depending on the byte's offset; by all 255 with --whole, as in the gate. The answer to `check` is
compared with the first fault that judge.py finds. Accepted lists are opened, and every question is
asked about the numbers 0 to 4 and 32,769 to 32,772, and again after a parent was imported, or
refused. Each question must have one reply, without a fault other than those of questions, and the
same reply again if the import was refused. Finally, a value that contains 2^512 others is shown.
"""
from __future__ import annotations

import multiprocessing
import re
import struct
from itertools import islice
from typing import Iterator, NamedTuple, Sequence

import pytest

from .judge import Fault, Lists, first_fault, parent_needs
from .runs import ask, stream_of, serve

BATCH = 400
# Without --whole, one in so many is tried of the bytes that differ in more than one bit.
SPARSE = 11
SESSION = 1
NUMBERS = (*range(5), *range(32_769, 32_773))
TYPE_WORDS = ("kind record members enumerators args array encoding reference resolve size align"
              " name pointer").split()
# The faults of questions about an existing slot: none of lines, of slots or of memory.
ANSWER = re.compile(rb'\{"(?:ok":\{.*\}|fault":\{"code":(?:2[3-9]|3[0-8]|48),'
                    rb'"name":"\w+","place":\d+\}),"s":1\}')
OK = b'{"ok":{},"s":1}'


def hand_in(lists: Lists) -> list[bytes]:
    """The requests that stage lists."""
    given = {"ctf": lists.ctf, "sym": lists.sym, "str": lists.strs}
    return [ask(SESSION, "part", section=section, bytes=data.hex())
            for section, data in given.items() if data is not None]


def questions(d: int) -> Iterator[bytes]:
    """Every question about a slot."""
    for t in NUMBERS:
        for word in TYPE_WORDS:
            yield ask(SESSION, word, d=d, t=t)
        for names in ([], ["a"], ["b", "a"]):
            yield ask(SESSION, "path", d=d, t=t, names=names)
        yield ask(SESSION, "show", d=d, t=t, bytes="0100000002000000", offset=0)
        yield ask(SESSION, "show", d=d, t=t, bytes="", offset=7)
        yield ask(SESSION, "object", d=d, sym=t)
        yield ask(SESSION, "function", d=d, sym=t)
    for word in ("labels", "info", "model"):
        yield ask(SESSION, word, d=d)
    for text in ("int", "int *", "struct a", "*"):
        yield ask(SESSION, "find", d=d, text=text)
    for name in ("a", "b", "f"):
        yield ask(SESSION, "symbol", d=d, name=name)
        yield ask(SESSION, "label", d=d, name=name)
    yield ask(SESSION, "bytes", d=d, **{"from": 0, "count": 16})


def section(types: str = "", strings: str = "", parname: int = 0, labels: str = "",
            objects: str = "", functions: str = "") -> bytes:
    """A CTF section of these parts, each in hexadecimal digits."""
    parts = [bytes.fromhex(part) for part in (labels, objects, functions, types, strings)]
    ends = [sum(map(len, parts[:count])) for count in range(1, 5)]
    header = struct.pack("<8I", 0, parname, 0, *ends, len(parts[4]))
    return b"\xf1\xcf\x02\x00" + header + b"".join(parts)


def symbol(name: int, info: int, place: int) -> bytes:
    """A symbol: the offset of its name, its info byte, and its section."""
    return struct.pack("<IBBHQQ", name, info, 0, place, 0, 0)


INT = "01000000 000c0400 20000001"
INT_NAME = "00 696e7400"
TWO_FUNCTIONS = "00000000 01280300 0300 ffff" "00000000 02280300 0300 0000"
NARROW_STRUCT = "00000000 0234ff1f" "05000000 01000000" "07000000 01002000"
WIDE_STRUCT = ("00000000 02340020" "05000000 01000000 00000000 00000000"
               "07000000 01000000 00000000 20000000")
STRUCTS = Lists(section(INT + NARROW_STRUCT + WIDE_STRUCT, INT_NAME + "6100 6200"))
SYMBOLS = b"".join((symbol(0, 0, 0), symbol(1, 0x11, 1), symbol(9, 0x11, 0),
                    symbol(11, 0x11, 0xFFF1), symbol(13, 0x11, 1), symbol(15, 0x11, 1),
                    symbol(17, 0x12, 1)))
DICTIONARIES = {
    "no types": Lists(section()),
    "an integer": Lists(section(INT, INT_NAME)),
    "two functions": Lists(section(TWO_FUNCTIONS + INT, INT_NAME)),
    "structs with members of both forms": STRUCTS,
    "a struct that holds a pointer to itself":
        Lists(section("00000000 01300800 00000000 02000000" "00000000 00180100")),
    "a child": Lists(section("00000000 00180300", "00 7000", parname=1)),
    "symbols": Lists(section(INT, INT_NAME, objects="0100", functions="0000"), SYMBOLS,
                     b"\0_START_\0x\0a\0b\0c\0f\0"),
    "a label": Lists(section(strings="00 6100", labels="01000000 05000000 00000000")),
}
PARENT, PARENT_TYPES = STRUCTS, 3
QUESTIONS = list(questions(1))
IMPORT = [*hand_in(PARENT), ask(SESSION, "open"), ask(SESSION, "import", d=1, parent=2)]


def replacements(at: int, byte: int, is_all: bool) -> Iterator[int]:
    """The other values for a byte at an offset."""
    for other in range(256):
        is_near = bin(byte ^ other).count("1") == 1
        if other != byte and (is_all or is_near or (other + at) % SPARSE == 0):
            yield other


def damage(whole: Lists, is_all: bool) -> Iterator[Lists]:
    """A dictionary, and copies of it with the CTF section cut or with another byte."""
    ctf = whole.ctf
    yield whole
    for length in range(len(ctf)):
        yield whole.with_ctf(ctf[:length])
    for at, byte in enumerate(ctf):
        for other in replacements(at, byte, is_all):
            yield whole.with_ctf(ctf[:at] + bytes([other]) + ctf[at + 1 :])


def refusal(fault: Fault) -> bytes:
    """The reply that reports a fault."""
    said = f'{{"code":{fault.code},"name":"{fault.name}","place":{fault.place}}}'
    return f'{{"fault":{said},"s":{SESSION}}}'.encode()


class Answers(NamedTuple):
    """The answers about lists: to `check`, and if that accepts them, to the rest."""

    check: bytes
    opened: bytes = b""
    first: Sequence[bytes] = ()
    imported: bytes = b""
    again: Sequence[bytes] = ()


class Subject:
    """Lists, the requests about them, and the errors in the replies."""

    def __init__(self, lists: Lists) -> None:
        self.lists = lists
        self.fault = first_fault(lists)
        self.parts = hand_in(lists)

    def lines(self) -> list[bytes]:
        """The requests for an empty session; at the end it is empty again."""
        judged = [*self.parts, ask(SESSION, "check")]
        asked = [ask(SESSION, "open"), *QUESTIONS, *IMPORT, *QUESTIONS]
        return judged + ([] if self.fault else asked) + [ask(SESSION, "reset")]

    def answers(self, replies: Sequence[bytes]) -> Answers:
        """The replies to these lines, taken apart."""
        check, *rest = replies[len(self.parts) : -1]
        if self.fault:
            return Answers(check)
        opened, *rest = rest
        first, rest = rest[: len(QUESTIONS)], rest[len(QUESTIONS) :]
        return Answers(check, opened, first, rest[len(IMPORT) - 1], rest[len(IMPORT) :])

    def import_reply(self) -> bytes:
        """The expected reply to the import of the parent."""
        if not self.lists.is_child:
            return refusal(Fault(20, "NotChild", 0))
        least = parent_needs(self.lists)
        return refusal(Fault(22, "ParentShort", least)) if least > PARENT_TYPES else OK

    def wrong(self, replies: Sequence[bytes]) -> Iterator[str]:
        """Errors in the replies."""
        answers = self.answers(replies)
        wanted = refusal(self.fault) if self.fault else OK
        if answers.check != wanted:
            yield f"check is answered {answers.check!r}, and by the judge {wanted!r}"
        elif not self.fault:
            yield from self.wrong_where_accepted(answers)

    def wrong_where_accepted(self, answers: Answers) -> Iterator[str]:
        if answers.opened != b'{"ok":{"d":1,"types":%d},"s":1}' % len(self.lists.records):
            yield f"open is answered {answers.opened!r}"
        if answers.imported != self.import_reply():
            yield f"import is answered {answers.imported!r}"
        if answers.imported != OK and answers.again != answers.first:
            yield "answers are others after an import that was refused"
        for question, reply in zip(QUESTIONS * 2, [*answers.first, *answers.again]):
            if not ANSWER.fullmatch(reply):
                yield f"{question!r} is answered {reply!r}"


class Counts(NamedTuple):
    """The numbers of lists and requests, and the errors."""

    lists: int
    accepted: int
    lines: int
    wrong: list[str]


class Batch(NamedTuple):
    """Some of the damaged copies of a dictionary."""

    program: str
    name: str
    damaged: list[Lists]


def try_batch(batch: Batch) -> Counts:
    """Asks one service about lists, each in an empty session."""
    subjects = [Subject(lists) for lists in batch.damaged]
    asked = [subject.lines() for subject in subjects]
    ended = serve(batch.program, b"".join(map(stream_of, asked)))
    *replies, rest = ended.out.split(b"\n")
    lines, wrong = sum(map(len, asked)), []
    if ended.status != 0 or rest or len(replies) != lines:
        wrong = [f"{batch.name}: status {ended.status}, {len(replies)} replies to {lines} lines"]
    else:
        left = iter(replies)
        for subject, its_lines in zip(subjects, asked):
            its_replies = list(islice(left, len(its_lines)))
            told = f"{batch.name}, {subject.lists.ctf.hex()}"
            wrong += (f"{told}: {why}" for why in subject.wrong(its_replies))
    accepted = sum(subject.fault is None for subject in subjects)
    return Counts(len(subjects), accepted, lines, wrong)


def batches(program: str, name: str, is_all: bool) -> Iterator[Batch]:
    rest = damage(DICTIONARIES[name], is_all)
    while batch := list(islice(rest, BATCH)):
        yield Batch(program, name, batch)


def unions(count: int) -> Lists:
    """An int and `count` unions, each of which contains the previous type twice."""
    each = (struct.pack("<IHH IHH IHH", 0, 7 << 11 | 2, 4, 0, t, 0, 0, t, 0)
            for t in range(1, count + 1))
    return Lists(section(INT + b"".join(each).hex(), INT_NAME))


def wrong_unions(program: str) -> Iterator[str]:
    """Errors in how a value that contains 2^512 others is shown."""
    shown = [ask(SESSION, "show", d=1, t=513, bytes=memory, offset=0)
             for memory in ("01000000", "")]
    lines = [*hand_in(unions(512)), ask(SESSION, "open"), *shown]
    wanted = [b'{"ok":{"d":1,"types":513},"s":1}', refusal(Fault(31, "TooLong", 0)),
              refusal(Fault(48, "ShortMemory", 0))]
    replies = serve(program, stream_of(lines)).out.splitlines()[1:]
    if replies != wanted:
        yield f"unions of unions are answered {replies}"


def test_unions_of_unions(program: str) -> None:
    assert not list(wrong_unions(program))


@pytest.mark.parametrize("name", DICTIONARIES)
def test_damaged(program: str, whole: bool, name: str) -> None:
    with multiprocessing.Pool(2) as pool:
        counts = pool.map(try_batch, batches(program, name, whole))
    assert not [why for one in counts for why in one.wrong][:20]
    assert sum(one.lists for one in counts) > sum(one.accepted for one in counts) > 0
