#!/usr/bin/env python3
"""Prints the service's answers about each type, in the format of tests/doors/c_library/answers.c.

usage: tests/doors/c_library/answers.py PROGRAM CTF SYM STR
"""
from __future__ import annotations

import json
import subprocess
import sys
from pathlib import Path
from typing import Any

PIECE = 200_000
OTHERS = [32767, 32768, 32769, 65535]
TAGS = {"struct": 6, "union": 7, "enum": 8}
Reply = dict[str, Any]


class Service:
    """A session with one dictionary open, in slot 1."""

    def __init__(self, program: str, *lists: str) -> None:
        self.program = program
        self.front = []
        for section, file in zip(("ctf", "sym", "str"), lists):
            data = Path(file).read_bytes()
            for at in range(0, len(data), PIECE):
                self.front.append({"op": "part", "section": section,
                                   "bytes": data[at:at + PIECE].hex()})
        self.front.append({"op": "open"})

    def ask(self, questions: list[dict[str, Any]]) -> list[Reply]:
        """The replies: the content of `ok`, or the name of a fault as `fault`, and its place."""
        asked = self.front + [{"d": 1, **question} for question in questions]
        lines = "".join(json.dumps({"s": 1, **one}) + "\n" for one in asked)
        said = subprocess.run([self.program, "serve"], input=lines, text=True, check=True,
                              capture_output=True).stdout
        replies = [json.loads(line) for line in said.splitlines()][len(self.front):]
        assert len(replies) == len(questions)
        return [one["ok"] if "ok" in one
                else {"fault": one["fault"]["name"], "place": one["fault"]["place"]}
                for one in replies]


def reply_text(reply: Reply, *fields: str) -> str:
    """Fields of a reply, or its fault."""
    return reply.get("fault") or " ".join(str(reply[one]) for one in fields)


def of_record(t: int, record: Reply) -> list[str]:
    fault = record.get("fault", "")
    return [f"kind {t}: {reply_text(record, 'kind')}", f"length {t}: {reply_text(record, 'vlen')}",
            f"root {t}: {fault or int(record['root'])}",
            f"declared {t}: {reply_text(record, 'name')}",
            f"tag {t}: {fault or TAGS.get(record.get('tag', ''), 'WrongKind')}"]


def of_args(t: int, args: Reply) -> list[str]:
    if "fault" in args:
        return [f"return {t}: {args['fault']}", f"arguments {t}: 0 {args['fault']}"]
    listed = args["args"] + [0] * args["varargs"]
    return [f"return {t}: {args['return']}",
            *(f"argument {t} {i}: {to}" for i, to in enumerate(listed)),
            f"arguments {t}: {len(listed)} NoMember"]


def of_lists(t: int, members: Reply, enumerators: Reply) -> list[str]:
    if "fault" in members:
        lines = [f"members {t}: 0 {members['fault']}"]
    else:
        lines = [f"member {t} {i}: {one['name']} {one['offset']} {one['type']}"
                 for i, one in enumerate(members["members"])]
        lines.append(f"members {t}: {members['total']} NoMember")
    if "fault" in enumerators:
        return [*lines, f"enumerators {t}: 0 {enumerators['fault']}"]
    listed = [(one["name"], one["value"]) for one in enumerators["enumerators"]]
    lines += [f"enumerator {t} {i}: {name} {value}" for i, (name, value) in enumerate(listed)]
    by_name, by_value = {}, {}
    for name, value in listed:
        by_name.setdefault(name, value)
        by_value.setdefault(value, name)
    lines += [f"enum value {t} {name}: Ok {by_name[name]}" for name, _ in listed]
    lines += [f"enum name {t} {value}: {by_value[value]}" for _, value in listed]
    return [*lines, f"enumerators {t}: {enumerators['total']} NoMember"]


def of_types(service: Service, types: list[int]) -> list[str]:
    """Lines with the answers about each type, and then about the names in them."""
    words = ["record", "size", "align", "resolve", "reference", "pointer", "encoding", "array",
             "args", "members", "enumerators", "name", "show"]
    asked = []
    for t in types:
        memory = bytes((37 * i + t) % 256 for i in range(64)).hex()
        asked += [{"op": word, "t": t, **({"bytes": memory, "offset": t % 16}
                                          if word == "show" else {})} for word in words]
    replies = service.ask(asked)
    lines, places, names = [], [], []
    for i, t in enumerate(types):
        of = dict(zip(words, replies[i * len(words):]))
        lines += of_record(t, of["record"])
        lines += [f"{word} {t}: {reply_text(of[word], field)}" for word, field in
                  [("size", "size"), ("align", "align"), ("resolve", "t"), ("reference", "t"),
                   ("pointer", "t"), ("name", "name"), ("show", "text")]]
        lines.append(f"encoding {t}: {reply_text(of['encoding'], 'encoding', 'offset', 'bits')}")
        lines.append(f"array {t}: {reply_text(of['array'], 'contents', 'index', 'count')}")
        lines += of_args(t, of["args"]) + of_lists(t, of["members"], of["enumerators"])
        places += [(t, one["name"]) for one in of["members"].get("members", [])]
        names += [(t, of["name"]["name"])] if "name" in of["name"] else []
    return lines + of_names(service, places, names)


def of_names(service: Service, places: list[tuple[int, str]],
             names: list[tuple[int, str]]) -> list[str]:
    replies = service.ask([{"op": "path", "t": t, "names": [name]} for t, name in places]
                          + [{"op": "path", "t": t, "names": [name, "?"]} for t, name in places]
                          + [{"op": "find", "text": name} for _, name in names])
    lines = []
    for (t, name), reply, further in zip(places, replies, replies[len(places):]):
        status = reply.get("fault", "Ok")
        where = f"{reply.get('offset', 0)} {reply.get('t', 0)}"
        lines += [f"{word} {t} {name}: {status} {where}" for word in ("field", "path")]
        lines.append(f"further {t} {name}: {further['fault']} {further['place']}")
    lines += [f"find {t}: {reply_text(reply, 't')}"
              for (t, _), reply in zip(names, replies[2 * len(places):])]
    return lines


def of_function(i: int, reply: Reply) -> list[str]:
    if "fault" in reply:
        return [f"function {i}: {reply['fault']} 0 0 0"]
    args = reply["args"]
    return [f"function {i}: Ok {reply['return']} {len(args)} {int(reply['varargs'])}",
            *(f"function argument {i} {at}: Ok {to}" for at, to in enumerate(args))]


def of_symbols(service: Service, sym: bytes, strings: bytes) -> list[str]:
    """Lines with the answers about each symbol; the names are read from the program's strings."""
    count = len(sym) // 24
    numbers = range(count + 1)
    objects = service.ask([{"op": "object", "sym": i} for i in numbers])
    functions = service.ask([{"op": "function", "sym": i} for i in numbers])
    names = []
    for i in range(count):
        at = int.from_bytes(sym[24 * i:24 * i + 4], "little")
        text = strings[at:strings.index(b"\0", at)]
        names.append("".join(chr(b) if 32 <= b < 127 and b not in b'"\\' else f"\\x{b:02x}"
                             for b in text))
    found = service.ask([{"op": "symbol", "name": name} for name in names])
    lines = [f"object {i}: {reply_text(reply, 't')}" for i, reply in enumerate(objects)]
    for i, reply in enumerate(functions):
        lines += of_function(i, reply)
    for name, reply in zip(names, found):
        lines.append(f"symbol {name}: {reply.get('fault', '')}")
        if "sym" in reply:
            lines.append(f"symbol number {name}: {reply['sym']}")
    return lines


def main() -> None:
    program, *lists = sys.argv[1:]
    service = Service(program, *lists)
    count = service.ask([{"op": "info"}])[0]["types"]
    lines = of_types(service, [*range(count + 2), *OTHERS])
    lines += of_symbols(service, Path(lists[1]).read_bytes(), Path(lists[2]).read_bytes())
    print(*lines, sep="\n")


if __name__ == "__main__":
    main()
