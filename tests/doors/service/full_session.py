#!/usr/bin/env python3
"""Writes a run of requests that fills a session to its quota, or the expected replies.

usage: full_session.py requests | replies

A list gets the greatest allowed length: the integer `int`, followed by zero bytes. It is opened and
published until four times its bytes are held, which is the quota. Then drafts of other sessions get
names with more bytes in all than a dictionary may have, a member whose type is too big, and the
greatest number of enumerators and of types.
"""
import json
import sys

INT = bytes.fromhex("f1cf0200" + 24 * "00" + "0c00000005000000" + "01000000000c040020000001"
                    + "00696e7400")
LONGEST, PIECE = 67_108_864, 262_144
# A name, and the number of such names that is too many for the strings of one dictionary.
NAME, NAMES = 1_000_000, 68
MOST_ENUMERATORS, MOST_TYPES = 1_023, 32_766


def ok(session, body):
    return '{"ok":%s,"s":%d}' % (body, session)


def fault(session, code, name):
    return '{"fault":{"code":%d,"name":"%s","place":0},"s":%d}' % (code, name, session)


def parts():
    """The list in pieces, each with its reply."""
    for at in range(0, LONGEST, PIECE):
        piece = (INT if at == 0 else b"").ljust(PIECE, b"\0")
        request = '{"s":1,"op":"part","section":"ctf","bytes":"%s"}' % piece.hex()
        yield request, ok(1, '{"length":%d}' % (at + PIECE))


def named_types():
    """A draft of types with long names, all different."""
    yield '{"s":3,"op":"create"}', ok(3, '{"d":1}')
    for number in range(1, NAMES + 1):
        name = str(number).rjust(NAME, "n")
        request = '{"s":3,"op":"add","d":1,"what":"struct","size":0,"name":"%s"}' % name
        yield request, ok(3, '{"t":%d}' % number)
    yield '{"s":3,"op":"update","d":1}', fault(3, 47, "DictTooBig")
    yield '{"s":3,"op":"discard","d":1}', ok(3, '{"types":0}')


def add_request(what, **fields):
    """A request that adds to the draft of session 4."""
    return json.dumps({"s": 4, "op": "add", "d": 1, "what": what, **fields}, separators=(",", ":"))


def full_draft():
    """A draft with the greatest number of enumerators and types."""
    yield '{"s":4,"op":"create"}', ok(4, '{"d":1}')
    yield add_request("struct", size=2**63), ok(4, '{"t":1}')
    yield add_request("array", contents=1, index=1, count=2), ok(4, '{"t":2}')
    yield add_request("struct"), ok(4, '{"t":3}')
    yield add_request("member", t=3, type=2), fault(4, 27, "TooBig")
    yield add_request("enum"), ok(4, '{"t":4}')
    for value in range(MOST_ENUMERATORS):
        yield add_request("enumerator", t=4, name=f"e{value}", value=value), ok(4, "{}")
    yield add_request("enumerator", t=4, name="last", value=0), fault(4, 43, "VlenFull")
    for number in range(5, MOST_TYPES + 1):
        yield add_request("unknown"), ok(4, '{"t":%d}' % number)
    yield add_request("unknown"), fault(4, 40, "Full")


def rows():
    """Each request with its reply."""
    yield from parts()
    yield '{"s":1,"op":"part","section":"ctf","bytes":"00"}', fault(1, 51, "StageFull")
    yield '{"s":1,"op":"open"}', ok(1, '{"d":1,"types":1}')
    for name in "abc":
        yield '{"s":1,"op":"publish","d":1,"name":"%s"}' % name, ok(1, "{}")
    yield '{"s":1,"op":"publish","d":1,"name":"d"}', fault(1, 61, "QuotaFull")
    yield '{"s":1,"op":"part","section":"str","bytes":""}', ok(1, '{"length":0}')
    yield '{"s":1,"op":"part","section":"str","bytes":"00"}', fault(1, 61, "QuotaFull")
    yield '{"s":1,"op":"withdraw","name":"c"}', ok(1, "{}")
    yield '{"s":1,"op":"part","section":"str","bytes":"00"}', ok(1, '{"length":1}')
    yield '{"s":2,"op":"take","owner":1,"name":"a"}', ok(2, '{"d":1,"types":1}')
    yield from named_types()
    yield from full_draft()


def main(which):
    sys.stdout.writelines(row[which == "replies"] + "\n" for row in rows())


if __name__ == "__main__":
    sys.exit(main(sys.argv[1]) if sys.argv[1:] in (["requests"], ["replies"]) else __doc__)
