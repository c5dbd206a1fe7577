"""Sessions whose last request is made to be slow, and requests whose cost may grow with their
number.

Each function yields the lines of requests: all but the last prepare for the last, which is
timed."""
import json
import random
import struct
from dataclasses import dataclass
from typing import Callable, Iterator

import hostile_dictionaries as made
from dictionaries import VISIBLE, all_parts, dictionary, record, symbol, with_entries

LINE = 1_048_576
INT = '"what":"integer","name":"int","size":4,"encoding":1,"offset":0,"bits":32'


@dataclass(frozen=True)
class Session:
    """Requests that prepare for the last one, which is timed. `read` is the size in megabytes of
    the dictionary that it reads."""

    name: str
    lines: Callable[[], Iterator[str]]
    read: float = 0.0


@dataclass(frozen=True)
class HeldBytes:
    """Requests after which the service holds `counted` bytes of a quota. It may use up to `most`
    times as much memory for them."""

    name: str
    lines: Callable[[], Iterator[str]]
    counted: int
    most: float


@dataclass(frozen=True)
class Growth:
    """Requests for a given number of sessions, slots or types."""

    name: str
    size: int
    lines: Callable[[int], Iterator[str]]


def line(op, rest="", session=1):
    return '{"s":%d,"op":"%s"%s}\n' % (session, op, "," + rest if rest else "")


def open_requests(lists, session=1):
    """The requests that hand in lists and open them."""
    yield from all_parts(session, lists)
    yield line("open", session=session)


def add_request(what, d=1):
    return line("add", '"d":%d,%s' % (d, what))


def member(t, tnum, name="", d=1):
    return add_request('"what":"member","t":%d,"type":%d,"name":"%s"' % (t, tnum, name), d)


# ---- lines of a MB


def full_line(front, item, back, limit=LINE):
    """A line of items, separated by commas, as long as a line may be."""
    room = limit - len(front) - len(back)
    return front + ",".join([item] * (room // (len(item) + 1))) + back + "\n"


def unknown_field(item):
    """A question with a list of items in an unknown field."""
    yield from open_requests((dictionary(made.integer(0), b"\0"), b"", b""))
    yield full_line('{"s":1,"op":"kind","d":1,"t":1,"x":[', item, "]}")


def too_deep():
    """A question with an unknown field of nested brackets, as long as a line may be."""
    yield from open_requests((dictionary(made.integer(0), b"\0"), b"", b""))
    front, half = '{"s":1,"op":"kind","d":1,"t":1,"x":', (LINE - 60) // 2
    yield front + "[" * half + "]" * half + "}\n"


def many_names(item):
    """A path of names, or other items, as long as a line may be."""
    yield from open_requests((dictionary(made.integer(0), b"\0"), b"", b""))
    yield full_line('{"s":1,"op":"path","d":1,"t":1,"names":[', item, "]}")


def repeated_field():
    """A question that repeats its session many times."""
    yield from open_requests((dictionary(made.integer(0), b"\0"), b"", b""))
    yield full_line('{"op":"kind","d":1,"t":1,', '"s":1', "}")


def many_arguments():
    yield line("create")
    yield add_request(INT)
    yield full_line('{"s":1,"op":"add","d":1,"what":"function","type":1,"args":[', "1", "]}")


# ---- paths


LONG_NAME = 2000


def unlike_at(place):
    """1,023 names that differ in four bytes at an offset."""
    front, back = b"a" * place, b"a" * (LONG_NAME - 4 - place)
    return [front + b"%04d" % i + back for i in range(1023)]


def unlike_each_elsewhere(length=LONG_NAME, first=400):
    """1,023 names, each of which differs from the last one at a different offset, as long as there
    are enough."""
    places = [first + i % (length - first - 8) for i in range(1022)]
    return [b"a" * at + b"b" + b"a" * (length - 1 - at) for at in places] + [b"a" * length]


# The factors with which a search picks the two slots, of 4,096, that remember where a name differs.
FACTORS = (0x9e3779b97f4a7c15, 0xc2b2ae3d27d4eb4f)


def is_crowded(end):
    """Whether both slots of a name with this end are among the first 256."""
    return all((end * factor) % (1 << 64) >> 52 < 256 for factor in FACTORS)


def overlapping_table(texts, may_end):
    """A table of texts that end only at allowed offsets, and the offsets where they begin."""
    table, begins = bytearray(1), []
    for text in texts:
        while not may_end(len(table) + len(text)):
            table.append(0)
        begins.append(len(table))
        table += text + b"\0"
    return bytes(table), begins


def steps(count, texts, shorter=0, may_end=lambda end: True):
    """Nested structs, each with a member of each of these names, and a path through the last ones.
    The names in each step are `shorter` bytes shorter than those before; they are ends of the same
    texts."""
    table, begins = overlapping_table(texts, may_end)
    types = made.integer(0)
    for i in range(count):
        cut = shorter * (count - 1 - i)
        items = b"".join(struct.pack("<IHH", begin + cut, 1 + i, 0) for begin in begins)
        types += record(0, 6, len(begins), 4, items)
    yield from open_requests((dictionary(types, table), b"", b""))
    way = json.dumps([texts[-1][shorter * i:].decode() for i in range(count)],
                     separators=(",", ":"))
    yield line("path", '"d":1,"t":%d,"names":%s' % (1 + count, way))


# ---- names


def unlike_in_the_middle(count, length):
    """`count` names of one length that differ in five bytes in the middle."""
    front = b"p" * (length // 2)
    back = b"p" * (length - 5 - len(front))
    return [front + b"%05d" % i + back for i in range(count)]


def look_ups_of(count, length):
    """A struct, found among `count` others by such a name."""
    table, begins = overlapping_table(unlike_in_the_middle(count, length), lambda end: True)
    types = b"".join(record(begin, 6, VISIBLE, 0) for begin in begins)
    yield from open_requests((dictionary(types, table), b"", b""))
    yield line("find", '"d":1,"text":"struct %s"' % text_at(table, begins[count // 2]))


def symbol_found(count, length):
    """A symbol, found among `count` others by such a name."""
    table, begins = overlapping_table(unlike_in_the_middle(count, length), lambda end: True)
    symbols = b"".join(symbol(begin, 1) for begin in begins)
    yield from open_requests((with_entries(struct.pack("<H", 1) * count, b""), symbols, table))
    yield line("symbol", '"d":1,"name":"%s"' % text_at(table, begins[count // 2]))


def text_at(table, begin):
    return table[begin:table.index(0, begin)].decode()


# ---- values


def nested_structs(depth):
    """A value of nested structs."""
    types = made.integer(0)
    for i in range(depth):
        types += record(0, 6, 1, 4, struct.pack("<IHH", 0, 1 + i, 0))
    yield from open_requests((dictionary(types, b"\0"), b"", b""))
    yield line("show", '"d":1,"t":%d,"bytes":"00000000","offset":0' % (1 + depth))


# ---- drafts


def chained_draft(depth, width, kind="struct"):
    """A chain of structs or unions, each with `width` members of the previous one. Then the first
    gets an integer, and the last one contains the chain."""
    yield line("create")
    yield add_request(INT)
    for i in range(depth + 1):
        yield add_request('"what":"%s","name":"s%d"' % (kind, i))
    for i in range(1, depth):
        for _ in range(width):
            yield member(2 + i, 1 + i)
    yield member(2, 1)
    yield member(2 + depth, 1 + depth)


def struct_over_unions(depth, width):
    """A struct's second member, whose offset depends on the alignment of a chain of unions that
    grew at its bottom."""
    yield from chained_draft(depth, width, "union")
    yield add_request('"what":"struct","name":"top"')
    yield member(3 + depth, 1)
    yield member(3 + depth, 2 + depth)


def grown_again(depth, width):
    """A third member of that struct, after a member at the bottom of the unions that does not
    change their alignment."""
    yield from struct_over_unions(depth, width)
    yield member(2, 1)
    yield member(3 + depth, 2 + depth)


def aligned_again(depth, width):
    """A third member of that struct, after a member at the bottom of the unions that changes the
    alignment of all of them."""
    yield from struct_over_unions(depth, width)
    yield add_request('"what":"integer","name":"long","size":8,"encoding":1,"offset":0,"bits":64')
    yield member(2, 4 + depth)
    yield member(3 + depth, 2 + depth)


def deeper(count):
    """A struct that becomes one step deeper, below `count` types."""
    yield line("create")
    yield add_request('"what":"struct","name":"inner"')
    yield add_request('"what":"struct","name":"outer"')
    for _ in range(count):
        yield add_request('"what":"typedef","name":"","type":2')
    yield member(2, 1)


def deeper_by_each_way(ways, count):
    """A struct that becomes deeper through `ways` ways to another one, each a step longer than the
    one before, below `count` types."""
    yield line("create")
    yield add_request('"what":"struct","name":"s"')
    for i in range(ways):
        yield add_request('"what":"typedef","name":"t","type":%d' % (1 + i))
    bottom, top = 2 + ways, 3 + ways
    yield add_request('"what":"struct","name":"bottom"')
    yield add_request('"what":"struct","name":"top"')
    yield member(top, bottom)
    for i in range(ways):
        yield add_request('"what":"struct","name":"w%d"' % i)
        yield member(top, 1 + top + i)
    yield member(1 + top, bottom)
    for i in range(1, ways):
        yield member(1 + top + i, top + i)
    for _ in range(count):
        yield add_request('"what":"typedef","name":"","type":%d' % top)
    yield member(bottom, 1 + ways)


def circle(count):
    """Two structs that come to contain each other, and `count` types above one of them."""
    yield line("create")
    yield add_request('"what":"struct","name":"a"')
    yield add_request('"what":"struct","name":"b"')
    for _ in range(count):
        yield add_request('"what":"typedef","name":"","type":1')
    yield member(2, 1)
    yield member(1, 2)


def taken_name(count, size):
    """A member whose name another member has. The names of all members differ only at their
    ends."""
    yield line("create")
    yield add_request(INT)
    yield add_request('"what":"struct","name":"s"')
    for i in [*range(count), count - 1]:
        yield member(2, 1, ("%04d" % i).rjust(size, "n"))


def updated_again(megabytes):
    """An update of a draft that has not changed since the last one. Its members have names of 1
    MB."""
    yield line("create")
    yield add_request(INT)
    yield add_request('"what":"struct","name":"s"')
    for i in range(megabytes):
        yield member(2, 1, ("%03d" % i).rjust(1_000_000, "n"))
    yield line("update", '"d":1')
    yield line("update", '"d":1')


# ---- staged or imported again


def checked_again():
    """A second check of 155 MB of lists."""
    lists, _ = made.untold(2_600_000, 60_000_000)
    filling = dictionary(made.integer(0), b"\0" + b"n" * 31_000_000 + b"\0")
    yield from all_parts(1, (filling, *lists[1:]))
    yield line("check")
    yield line("check")


def imported_again(count):
    """A second import of the parent into a child of unions."""
    yield from open_requests((dictionary(made.integer(0), b"\0"), b"", b""))
    items = struct.pack("<IHH", 0, 1, 0) * 1023
    types = record(0, 7, 1023, 4, items) * count
    yield from open_requests((dictionary(types, b"\0p\0", 1), b"", b""))
    yield line("import", '"d":2,"parent":1')
    yield line("import", '"d":2,"parent":1')


# ---- memory of small types


SMALL_TYPES, SMALL_SLOTS = 32_766, 30
# A quota's count for each dictionary: its bytes, and four more for each type.
SMALL_BYTES = 36 + (8 + 4) * SMALL_TYPES + 1 + SMALL_TYPES + 12


def small_types():
    """Dictionaries of typedefs only, each named by an end of one text, which differs at its end in
    each dictionary."""
    types = b"".join(record(1 + i, 10, VISIBLE, 0) for i in range(SMALL_TYPES))
    for i in range(SMALL_SLOTS):
        names = b"\0" + b"a" * SMALL_TYPES + b"%011d\0" % i
        yield from open_requests((dictionary(types, names), b"", b""))


SESSIONS = [
    Session("line: 1 MB of lists, 100 deep, in an unknown field",
            lambda: unknown_field("[" * 100 + "]" * 100)),
    Session("line: 1 MB of brackets in each other", too_deep),
    Session("line: 1 MB of [],[],.. in an unknown field", lambda: unknown_field("[]")),
    Session("line: 1 MB of 0,0,.. in an unknown field", lambda: unknown_field("0")),
    Session("line: 1 MB of one field", repeated_field),
    Session("line: 1 MB of lists, 100 deep, in a path",
            lambda: many_names("[" * 100 + "]" * 100)),
    Session("line: 1 MB of names of a path", lambda: many_names('"a"')),
    Session("line: 1 MB of arguments", many_arguments),
    Session("path: 500 steps, 1,023 names unlike at the front",
            lambda: steps(500, unlike_at(0)), read=6.1),
    Session("path: 500 steps, 1,023 names unlike at the end",
            lambda: steps(500, unlike_at(1996)), read=6.1),
    Session("path: 500 steps, 1,023 names unlike in the middle",
            lambda: steps(500, unlike_at(1000)), read=6.1),
    Session("path: 500 steps, 1,023 names unlike each elsewhere",
            lambda: steps(500, unlike_each_elsewhere()), read=6.1),
    Session("path: the same, made for the slots of a search",
            lambda: steps(500, unlike_each_elsewhere(), may_end=is_crowded), read=6.4),
    Session("path: the same, ends of the names before",
            lambda: steps(500, unlike_each_elsewhere(first=600), shorter=1), read=6.1),
    Session("path: 500 steps, 1,023 names of 255 bytes unlike each elsewhere",
            lambda: steps(500, unlike_each_elsewhere(255, 8)), read=4.4),
    Session("find: one of 32,000 names unlike in the middle", lambda: look_ups_of(32_000, 2_000)),
    Session("symbol: one of 60,000 names unlike in the middle",
            lambda: symbol_found(60_000, 1_000)),
    Session("show: 500 structs in each other", lambda: nested_structs(500)),
    Session("add: a member on top of 500,000", lambda: chained_draft(500, 1000)),
    Session("add: a member on top of 500,000 in unions",
            lambda: chained_draft(500, 1000, "union")),
    Session("add: a member of a struct over 500,000 in unions",
            lambda: struct_over_unions(500, 1000)),
    Session("add: the same, one of which grew", lambda: grown_again(500, 1000)),
    Session("add: the same, all of which are aligned otherwise", lambda: aligned_again(500, 1000)),
    Session("add: a member that makes 32,000 types deeper", lambda: deeper(32_000)),
    Session("add: the same, by 255 ways", lambda: deeper_by_each_way(255, 31_000)),
    Session("add: a member that closes a circle under 32,000 types", lambda: circle(32_000)),
    Session("add: a member with one of 1,000 names unlike at the end",
            lambda: taken_name(1000, 60_000)),
    Session("update: nothing pending, 60 MB", lambda: updated_again(60)),
    Session("check: 155 MB again", checked_again),
    Session("import: the same parent, 65 MB", lambda: imported_again(7940)),
]


HELD = [
    HeldBytes("memory: 30 dictionaries of 32,766 typedefs", small_types, SMALL_SLOTS * SMALL_BYTES,
              3.0),
]


# ---- growth


def come_and_go(count):
    """`count` sessions that each create a dictionary and close it; then once more, in random
    order."""
    numbers = list(range(1, 1 + count))
    for d in (1, 2):
        for session in numbers:
            yield line("create", session=session)
            yield line("close", '"d":%d' % d, session=session)
        random.Random(1).shuffle(numbers)


def sessions(count):
    """`count` sessions, with two requests each."""
    for session in range(1, 1 + count):
        yield line("clear", session=session)
    for session in range(1, 1 + count):
        yield line("clear", session=session)


def slots(count):
    """Slots of one session, and a question to each."""
    for d in range(1, 1 + count):
        yield line("create")
    for d in range(1, 1 + count):
        yield line("info", '"d":%d' % d)


def pending(count):
    """Types of a draft, each of which refers to the previous one, and an update."""
    yield line("create")
    yield add_request(INT)
    for i in range(1, count):
        yield add_request('"what":"typedef","name":"t%d","type":%d' % (i, i if i % 400 else 1))
    yield line("update", '"d":1')


def publications(count):
    """Publications of one session under different names. Another session takes and closes each, and
    then they are withdrawn."""
    yield from open_requests((dictionary(made.integer(0), b"\0"), b"", b""))
    for i in range(count):
        yield line("publish", '"d":1,"name":"p%d"' % i)
    for i in range(count):
        yield line("take", '"owner":1,"name":"p%d"' % i, session=2)
        yield line("close", '"d":%d' % (1 + i), session=2)
    for i in range(count):
        yield line("withdraw", '"name":"p%d"' % i)


GROWTHS = [
    Growth("sessions", 40_000, sessions),
    Growth("sessions that come and go", 40_000, come_and_go),
    Growth("slots", 1_000, slots),
    Growth("publications", 64_000, publications),
    Growth("pending types", 32_000, pending),
]
