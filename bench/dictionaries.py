#!/usr/bin/env python3
"""Large dictionaries for streams and for measuring `open`. Each run makes the same bytes."""
import struct

PIECE = 500_000


def record(name, kind, vlen, field, rest=b""):
    return struct.pack("<IHH", name, kind << 11 | vlen, field) + rest


def dictionary(types, strings=b"", parname=0):
    words = struct.pack("<8I", 0, parname, 0, 0, 0, 0, len(types), len(strings))
    return b"\xf1\xcf\x02\x00" + words + types + strings


def mixed_types(count):
    """Types of mixed kinds, most of them with members, that refer to types before them."""
    types = [record(1, 1, 0, 4, struct.pack("<I", 0x01000020))]
    for i in range(2, count + 1):
        before = i - 1
        if i % 4 == 0:
            members = b"".join(struct.pack("<IHH", 1, 1, 32 * k) for k in range(14))
            types.append(record(1, 6, 14, 56, members))
        elif i % 4 == 1:
            types.append(record(0, 3, 0, 1 if i % 64 else before))
        elif i % 4 == 2:
            types.append(record(0, 4, 0, 0, struct.pack("<HHI", 1, 1, 10)))
        else:
            types.append(record(0, 5, 3, 1, struct.pack("<4H", 1, 1, 0, 0)))
    return dictionary(b"".join(types), b"\0int\0")


VISIBLE = 1 << 10


def name_of(i):
    """The name of a type of `named_types`."""
    return b"type_%d" % i


def named_types(count):
    """Visible integers, structs, typedefs and pointers. All but the pointers have different
    names."""
    strings, types = bytearray(b"\0"), []
    for i in range(1, count + 1):
        name = len(strings)
        if i % 4 == 0:
            types.append(record(0, 3, VISIBLE, i - 1))
            continue
        strings += name_of(i) + b"\0"
        if i % 4 == 1:
            types.append(record(name, 1, VISIBLE, 4, struct.pack("<I", 0x01000020)))
        elif i % 4 == 2:
            members = b"".join(struct.pack("<IHH", name, i - 1, 32 * k) for k in range(14))
            types.append(record(name, 6, VISIBLE | 14, 56, members))
        else:
            types.append(record(name, 10, VISIBLE, i - 1))
    return dictionary(b"".join(types), bytes(strings))


def spelling(i):
    """A type of `named_types` as C writes it, for `find`."""
    if i % 4 == 0:
        return spelling(i - 1) + b" *"
    return (b"struct " if i % 4 == 2 else b"") + name_of(i)


def overlapping_names(count, front=16_000_000):
    """Visible integers with overlapping names: ends of one text that repeats one byte many million
    times."""
    types = b"".join(
        record(1 + front // count * i, 1, VISIBLE, 4, struct.pack("<I", 0x01000020))
        for i in range(count)
    )
    return dictionary(types, b"\0" + front * b"n" + b"\0")


def plain_names(count, size=16_000_000):
    """Visible integers with separate names, of `size` bytes in all."""
    each = size // count
    types = b"".join(record(1 + each * i, 1, VISIBLE, 4, struct.pack("<I", 0x01000020))
                     for i in range(count))
    strings = b"".join((b"%d" % i).rjust(each - 1, b"n") + b"\0" for i in range(count))
    return dictionary(types, b"\0" + strings)


def unions(count):
    """Groups of an integer and 511 unions; the two members of a union have the type before it."""
    types = []
    for i in range(count):
        if i % 512 == 0:
            types.append(record(0, 1, 0, 4, struct.pack("<I", 0x01000020)))
        else:
            types.append(record(0, 7, 2, 4, struct.pack("<IHHIHH", 0, i, 0, 0, i, 0)))
    return dictionary(b"".join(types))


def enumerators(count):
    """Enums of 1,023 enumerators each."""
    items = b"".join(struct.pack("<Ii", 1, k) for k in range(1023))
    return dictionary(count * record(1, 8, 1023, 4, items), b"\0name\0")


def child(t):
    """A child with a pointer to a type of its parent."""
    return dictionary(record(0, 3, 0, t), b"\0p\0", 1)


def symbol(name, sort, section=1, value=0x1000):
    """A symbol of 24 bytes; sort 1 is an object, 2 a function."""
    return struct.pack("<IBBHQQ", name, 0x10 | sort, 0, section, value, 8)


def symbols(count):
    """An integer, and a program with `count` symbols: an object, and then three functions of two
    arguments, again and again."""
    offsets, strs = [], bytearray(1)
    for i in range(count):
        offsets.append(len(strs))
        strs += b"%s_%d\0" % (b"module_function" if i % 4 else b"object", i * 7_919 % 1_000_003)
    table = b"".join(symbol(at, 2 if i % 4 else 1) for i, at in enumerate(offsets))
    objects = struct.pack("<H", 1) * sum(i % 4 == 0 for i in range(count))
    functions = struct.pack("<4H", 5 << 11 | 2, 1, 1, 1) * sum(i % 4 != 0 for i in range(count))
    return with_entries(objects, functions), table, bytes(strs)


def with_entries(objects, functions):
    """A dictionary of an integer, with entries for objects and functions."""
    ends = len(objects), len(objects) + len(functions)
    pad = bytes(-ends[1] % 4)
    types = record(1, 1, 0, 4, struct.pack("<I", 0x01000020))
    at = ends[1] + len(pad)
    header = b"\xf1\xcf\x02\x00" + struct.pack("<8I", 0, 0, 0, 0, ends[0], at, at + len(types), 5)
    return header + objects + functions + pad + types + b"\0int\0"


def endless(count):
    """`count` symbols over 16 MiB of strings without a zero byte, so none of them has a name."""
    table = b"".join(symbol(1 + i, 1) for i in range(count))
    return with_entries(b"", b""), table, 16_777_216 * b"n"


def overlapping(count):
    """`count` objects, each named by the end of the previous one's name."""
    table = b"".join(symbol(1 + i, 1) for i in range(count))
    return with_entries(struct.pack("<H", 1) * count, b""), table, b"\0" + count * b"n" + b"\0"


def labels(count):
    """`count` labels, each named by the end of the previous one's name, the first by LONG_NAME."""
    at = 8 * count
    header = b"\xf1\xcf\x02\x00" + struct.pack("<8I", 0, 0, 0, at, at, at, at, 0)
    labels = b"".join(struct.pack("<II", 0x80000001 + i, 1) for i in range(count))
    return header + labels, b"", LONG_NAME


LONG_NAME = b"\0" + 15_000_000 * b"n" + b"\0"


def long_names():
    """A struct of 1,023 members and an integer; all have the name in LONG_NAME."""
    name = 0x80000001
    members = 1023 * struct.pack("<IHH", name, 2, 0)
    whole = record(name, 1, 0, 4, struct.pack("<I", 0x01000020))
    return dictionary(record(0, 6, 1023, 4, members) + whole)


def parts(session, data, section="ctf"):
    """The requests that hand in a list."""
    for at in range(0, len(data), PIECE):
        piece = data[at : at + PIECE].hex()
        yield '{"s":%d,"op":"part","section":"%s","bytes":"%s"}\n' % (session, section, piece)


def all_parts(session, lists):
    """The requests that hand in a CTF section, a symbol table and its strings."""
    for section, data in zip(("ctf", "sym", "str"), lists):
        yield from parts(session, data, section)


# The number of types in each group of `every_kind`.
GROUP = 10


def of_group(at, names):
    """An integer, a struct, an enum, an array, a pointer, a function, a typedef, a const, a pointer
    and a union, numbered from `at`. `names` has the offsets of four names."""
    integer, struct_, enum, union = names
    members = b"".join(struct.pack("<IHH", integer, at, 32 * k) for k in range(4))
    enumerated = b"".join(struct.pack("<Ii", enum, k) for k in range(4))
    return b"".join((
        record(integer, 1, VISIBLE, 4, struct.pack("<I", 0x01000020)),
        record(struct_, 6, VISIBLE | 4, 16, members),
        record(enum, 8, VISIBLE | 4, 4, enumerated),
        record(0, 4, 0, 0, struct.pack("<HHI", at, at, 8)),
        record(0, 3, 0, at + 1),
        record(0, 5, 2, at, struct.pack("<2H", at, at + 4)),
        record(struct_, 10, VISIBLE, at + 1),
        record(0, 12, 0, at + 6),
        record(0, 3, 0, at),
        record(union, 7, VISIBLE | 2, 16, members[:16]),
    ))


def every_kind(count):
    """Groups of ten types, a label for each of the first hundred groups, and a program with as many
    symbols, as in `symbols`."""
    groups = count // GROUP
    strings, types, labels = bytearray(b"\0"), [], []
    for group in range(groups):
        places = []
        for what in ("integer", "struct", "enum", "union"):
            places.append(len(strings))
            strings += b"%s_%d\0" % (what.encode(), group)
        types.append(of_group(1 + GROUP * group, places))
        labels.append(struct.pack("<II", places[0], GROUP * (group + 1)))
    labels = b"".join(labels[:100])
    _, table, strs = symbols(count)
    objects = struct.pack("<H", 1) * sum(i % 4 == 0 for i in range(count))
    functions = struct.pack("<4H", 5 << 11 | 2, 1, 1, 1) * sum(i % 4 != 0 for i in range(count))
    front = labels + objects + functions
    front += bytes(-len(front) % 4)
    whole = b"".join(types)
    ends = (len(labels), len(labels) + len(objects))
    header = b"\xf1\xcf\x02\x00" + struct.pack(
        "<8I", 0, 0, 0, ends[0], ends[1], len(front), len(front) + len(whole), len(strings))
    return header + front + whole + bytes(strings), table, strs
