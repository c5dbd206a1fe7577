#!/usr/bin/env python3
"""Dictionaries that pass every rule and are made to be slow. Each function takes a size."""
import struct

from dictionaries import dictionary, record, symbol, with_entries

INT = struct.pack("<I", 0x01000020)
FRONT = 0x80000000


def integer(name=1):
    return record(name, 1, 0, 4, INT)


def array(contents, count):
    """An array, with type 1 as its index."""
    return record(0, 4, 0, 0, struct.pack("<HHI", contents, 1, count))


def enum(names, size=1):
    """An enum whose enumerators have the values 1000, 1001, .. and 0 for the last one."""
    items = b"".join(struct.pack("<Ii", name, 1000 + i) for i, name in enumerate(names[:-1]))
    return record(0, 8, len(names), size, items + struct.pack("<Ii", names[-1], 0))


def overlapping(length, count):
    """The references of `count` names, each the end of the previous one, in one text of a given
    length."""
    return [1 + min(i, length) for i in range(count)]


def text(length):
    return b"\0" + b"a" * length + b"\0"


def enums(elements, length, kinds=1):
    """An array of enums of 1,023 enumerators; each element is shown as nothing but a comma."""
    names = overlapping(length, 1022) + [0]
    each = max(1, elements // kinds)
    types = integer(0)
    members = []
    for kind in range(kinds):
        types += enum(names)
    for kind in range(kinds):
        types += array(2 + kind, each)
        members.append(struct.pack("<IHH", 0, 2 + kinds + kind, 0))
    if kinds > 1:
        types += record(0, 6, kinds, 1, b"".join(members))
    top = 2 if kinds == 1 else 1 + 2 * kinds
    return (dictionary(types, text(length)), b"", b""), top + 1 if kinds == 1 else top + 1


def typedefs(elements, depth=511):
    """An array of elements behind typedefs of an enum that shows nothing."""
    types = integer(0) + record(0, 8, 1, 1, struct.pack("<Ii", 0, 0))
    for i in range(depth):
        types += record(0, 10, 0, 2 + i)
    types += array(2 + depth, elements)
    return (dictionary(types, b"\0"), b"", b""), 3 + depth


def integers(elements, offset=0):
    """An array of integers of 64 bits without a size, so all are in the same eight bytes."""
    types = integer(0) + record(0, 1, 0, 0, struct.pack("<I", offset << 16 | 64))
    return (dictionary(types + array(2, elements), b"\0"), b"", b""), 3


def many_values(elements):
    """An array of enums of two bytes, with 1,023 enumerators that are searched for each."""
    items = b"".join(struct.pack("<Ii", 0, (i * 7919) % 1023) for i in range(1023))
    types = integer(0) + record(0, 8, 1023, 2, items) + array(2, elements)
    return (dictionary(types, b"\0"), b"", b""), 3


def nested_nothing(depth):
    """Nested arrays of one element, around an empty struct, in an array."""
    types = integer(0) + record(0, 6, 0, 0)
    for i in range(depth):
        types += array(2 + i, 1)
    types += array(2 + depth, 1000)
    return (dictionary(types, b"\0"), b"", b""), 3 + depth


def empty_members(elements):
    """An array of structs of 1,023 members, each an empty struct."""
    members = struct.pack("<IHH", 0, 2, 0) * 1023
    types = integer(0) + record(0, 6, 0, 0) + record(0, 6, 1023, 0, members) + array(3, elements)
    return (dictionary(types, b"\0"), b"", b""), 4


def overlapping_members(length):
    """A struct of 1,023 members, each named by the end of the previous one's name."""
    members = b"".join(struct.pack("<IHH", name, 1, 0) for name in overlapping(length, 1023))
    return (dictionary(integer(0) + record(0, 6, 1023, 4, members), text(length)), b"", b""), 2


def same_members(length):
    """A struct of 1,023 members with the same long name."""
    members = struct.pack("<IHH", 1, 1, 0) * 1023
    return (dictionary(integer(0) + record(0, 6, 1023, 4, members), text(length)), b"", b""), 2


def ends_far_off(length):
    """A struct of 1,023 members with long names that end at the same place, with zeros where a name
    of that length would end."""
    members = b"".join(struct.pack("<IHH", 1 + i, 1, 0) for i in range(1023))
    strings = b"\0" + b"a" * length + bytes(length + 1024)
    return (dictionary(integer(0) + record(0, 6, 1023, 4, members), strings), b"", b""), 2


def long_names(length):
    """A struct and its 1,023 members of the same name, which is an integer's too."""
    members = struct.pack("<IHH", FRONT + 1, 2, 0) * 1023
    types = record(FRONT + 1, 6, 1023, 4, members) + integer(FRONT + 1)
    return (dictionary(types, b""), b"", text(length)), 1


def alike(count):
    """Visible integers whose names have the same length and beginning."""
    each = 80
    types = b"".join(record(1 + each * i, 1, 1 << 10, 4, INT) for i in range(count))
    strings = b"".join((b"%d" % i).rjust(each - 1, b"n") + b"\0" for i in range(count))
    return (dictionary(types, b"\0" + strings), b"", b""), 1


def unions(count):
    """Unions whose 1,023 members have the type before them."""
    types = integer(0)
    for i in range(count):
        before = 1 + i if i % 500 else 1
        types += record(0, 7, 1023, 4, struct.pack("<IHH", 0, before, 0) * 1023)
    return (dictionary(types, b"\0"), b"", b""), 1


def untold(count, length):
    """Symbols of one long name, for which the dictionary has no types."""
    table = b"".join(symbol(1, 1 + i % 2) for i in range(count))
    return (with_entries(b"", b""), table, text(length)), 1


def named_symbols(count, order):
    """Objects with names of seven digits, in a given order."""
    strings = b"\0" + b"".join(b"%07x\0" % i for i in range(count))
    table = b"".join(symbol(1 + 8 * i, 1) for i in order(count))
    return (with_entries(struct.pack("<H", 1) * count, b""), table, strings), 1


def pointers(count, length):
    """Unnamed pointers to a struct with a long name."""
    types = record(1, 6, 0, 0) + record(0, 3, 0, 1) * count
    return (dictionary(types, text(length)), b"", b""), 1


def deep_pointers(count, length, depth=510):
    """Unnamed pointers to the top of a chain of pointers to a struct with a long name."""
    types = record(1, 6, 0, 0) + b"".join(record(0, 3, 0, 1 + i) for i in range(depth))
    types += record(0, 3, 0, depth + 1) * count
    return (dictionary(types, text(length)), b"", b""), 1
