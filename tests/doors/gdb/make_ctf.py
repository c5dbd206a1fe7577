"""Writes a CTF section of version 2 from gdb's view of a program's DWARF.

usage: MADE_OF=PROGRAM MADE=FILE [ALL=1] gdb -batch -nx -x make_ctf.py TWIN

TWIN has debug information; PROGRAM is the same program without it, and the object and function
sections are written for its symbol table. The types are those that its symbols lead to; with ALL,
all that have a name or enumerators in the sources of these symbols. Only C is supported, not C++ or
Fortran. The program may have 64 bits or 32: CTF has no size of pointers, and all other sizes are
those of the debug information. What CTF cannot represent is lost: widths of enums as bit-fields,
which of two arrays without elements was declared without a length, all but 32 bits of an
enumerator, and formats of floats such as _Float128.
"""
import operator
import os
import pathlib
import struct
import sys
import traceback

import gdb

sys.path.insert(0, str(pathlib.Path(__file__).resolve().parents[3] / "clients/python"))
from tests import elf  # noqa: E402

(INTEGER, FLOAT, POINTER, ARRAY, FUNCTION, STRUCT, UNION, ENUM, FORWARD, TYPEDEF, VOLATILE, CONST,
 RESTRICT) = range(1, 14)
SIGNED, CHARACTER, BOOLEAN = 1, 2, 4
LONG_MEMBERS = 8192
FLOATS = {"float": 1, "double": 2, "long double": 6,
          "complex float": 3, "complex double": 4, "complex long double": 5}
OBJECT_SYMBOL, FUNCTION_SYMBOL, ABSOLUTE = 1, 2, 0xFFF1
# The entries of a symbol table, and the positions of name, info, section and value in each.
SYMBOLS = {"lp64": (struct.Struct("<IBBHQQ"), operator.itemgetter(0, 1, 3, 4)),
           "ilp32": (struct.Struct("<IIIBBH"), operator.itemgetter(0, 3, 5, 1))}


class Maker:
    """The types so far, numbered from 1; `known` finds them again."""

    def __init__(self):
        self.records = []
        self.known = {}
        self.names = bytearray(b"\0")
        self.fields = 0

    def name(self, text):
        """Stores a name, and returns its reference. Equal texts are stored twice."""
        if not text:
            return 0
        self.names += text.encode() + b"\0"
        return len(self.names) - len(text.encode()) - 1

    def record(self, key, kind, name, field, tail=b"", length=0):
        """Stores a record under its reserved number, or a new one, and returns the number."""
        info = kind << 11 | 1 << 10 | length
        head = struct.pack("<IHH", self.name(name), info, field if field < 0xFFFF else 0xFFFF)
        if field >= 0xFFFF:
            head += struct.pack("<II", field >> 32, field & 0xFFFFFFFF)
        number = self.known.get(key) or self.keep(key)
        self.records[number - 1] = head + tail
        return number

    def keep(self, key):
        self.records.append(None)
        self.known[key] = len(self.records)
        return len(self.records)

    def type(self, t):
        """The number of one of gdb's types; 0 for void."""
        key = description(t)
        if key in self.known:
            return self.known[key]
        if t != t.unqualified():
            return self.qualify(t, key)
        return 0 if t.code == gdb.TYPE_CODE_VOID else WRITERS[t.code](self, t, key)

    def qualify(self, t, key):
        plain = t.unqualified()
        kind, inner = CONST, plain
        if t == plain.volatile():
            kind = VOLATILE
        elif t != plain.const():
            inner = plain.volatile()
        return self.record(key, kind, "", self.type(inner))

    def integer(self, t, key, bits=None, offset=0):
        flags = SIGNED if t.is_signed else 0
        if t.code == gdb.TYPE_CODE_BOOL:
            flags = BOOLEAN
        elif t.sizeof == 1:
            flags |= CHARACTER
        lies = flags << 24 | offset << 16 | (8 * t.sizeof if bits is None else bits)
        return self.record(key, INTEGER, t.name, t.sizeof, struct.pack("<I", lies))

    def float(self, t, key):
        name = t.name or str(t)
        return self.record(key, FLOAT, name, t.sizeof,
                           struct.pack("<I", FLOATS.get(name, 0) << 24 | 8 * t.sizeof))

    def pointer(self, t, key):
        if str(t).endswith("restrict"):
            bare = (*key, "bare")
            inner = self.known.get(bare) or self.record(bare, POINTER, "", self.type(t.target()))
            return self.record(key, RESTRICT, "", inner)
        number = self.keep(key)
        self.record(key, POINTER, "", self.type(t.target()))
        return number

    def array(self, t, key):
        contents, index = self.type(t.target()), self.type(gdb.lookup_type("int"))
        count = t.sizeof // (t.target().sizeof or 1)
        return self.record(key, ARRAY, "", 0, struct.pack("<HHI", contents, index, count))

    def function(self, t, key):
        number = self.keep(key)
        returns, listed = self.signature(t)
        pad = [0] * (len(listed) % 2)
        tail = struct.pack(f"<{len(listed + pad)}H", *listed, *pad)
        self.record(key, FUNCTION, "", returns, tail, len(listed))
        return number

    def signature(self, t):
        """The return type of a function, and its arguments, followed by 0 if it is variadic."""
        listed = [self.type(field.type) for field in t.fields()]
        more = [0] if str(t).rstrip().endswith("...)") else []
        return self.type(t.target()), listed + more

    def aggregate(self, t, key):
        kind = STRUCT if t.code == gdb.TYPE_CODE_STRUCT else UNION
        if not t.fields() and not is_complete(t):
            return self.record(key, FORWARD, t.tag, kind)
        number = self.keep(key)
        members = b""
        for field in t.fields():
            held, offset = self.member(field)
            name = self.name(field.name)
            if t.sizeof < LONG_MEMBERS:
                members += struct.pack("<IHH", name, held, offset)
            else:
                members += struct.pack("<IHHII", name, held, 0, offset >> 32, offset & 0xFFFFFFFF)
        self.record(key, kind, t.tag, t.sizeof, members, len(t.fields()))
        return number

    def member(self, field):
        """The type and offset of a member.

        A bit-field has an integer of its width. Every other bit-field has its offset in the
        integer's encoding, as some compilers write it, and not in the member.
        """
        if not field.bitsize:
            return self.type(field.type), field.bitpos
        self.fields += 1
        inside = field.bitpos % 8 if self.fields % 2 else 0
        t = field.type.strip_typedefs().unqualified()
        key = (t.code, str(t), field.bitsize, inside, "bits")
        number = self.known.get(key) or self.integer(t, key, field.bitsize, inside)
        return number, field.bitpos - inside

    def enum(self, t, key):
        listed = b"".join(struct.pack("<II", self.name(e.name), e.enumval & 0xFFFFFFFF)
                          for e in t.fields())
        return self.record(key, ENUM, t.tag, t.sizeof, listed, len(t.fields()))

    def typedef(self, t, key):
        number = self.keep(key)
        self.record(key, TYPEDEF, t.name, self.type(t.target()))
        return number


WRITERS = {
    gdb.TYPE_CODE_INT: Maker.integer, gdb.TYPE_CODE_BOOL: Maker.integer,
    gdb.TYPE_CODE_CHAR: Maker.integer, gdb.TYPE_CODE_FLT: Maker.float,
    gdb.TYPE_CODE_COMPLEX: Maker.float, gdb.TYPE_CODE_PTR: Maker.pointer,
    gdb.TYPE_CODE_ARRAY: Maker.array, gdb.TYPE_CODE_FUNC: Maker.function,
    gdb.TYPE_CODE_STRUCT: Maker.aggregate, gdb.TYPE_CODE_UNION: Maker.aggregate,
    gdb.TYPE_CODE_ENUM: Maker.enum, gdb.TYPE_CODE_TYPEDEF: Maker.typedef,
}


def is_complete(t):
    """Whether a struct or union without members is defined anywhere."""
    try:
        return bool(gdb.lookup_type(str(t)))
    except gdb.error:
        return not t.tag


def description(t):
    """A key that two types share only if they are the same.

    A struct, union or enum without a name is identified by its members, also within an array or
    behind a pointer, since gdb spells all of them alike.
    """
    base = t
    while base.code in (gdb.TYPE_CODE_ARRAY, gdb.TYPE_CODE_PTR):
        base = base.target()
    inner = ()
    if base.code in (gdb.TYPE_CODE_STRUCT, gdb.TYPE_CODE_UNION) and not base.tag:
        inner = tuple((f.name, f.bitpos, *description(f.type)) for f in base.fields())
    elif base.code == gdb.TYPE_CODE_ENUM and not base.tag:
        inner = tuple((e.name, e.enumval) for e in base.fields())
    return (t.code, str(t), t.sizeof, inner)


def symbols(program):
    """The kind and name of each considered symbol."""
    whole = program.read_bytes()
    table = elf.section_named(whole, ".symtab")
    data, strings = table.bytes(whole), elf.sections(whole)[table.link].bytes(whole)
    entry, parts = SYMBOLS[elf.model(whole)]
    for at, info, section, value in map(parts, entry.iter_unpack(data)):
        name = strings[at:strings.index(b"\0", at)].decode()
        kind = info & 15
        absolute = kind == OBJECT_SYMBOL and section == ABSOLUTE and not value
        if kind in (OBJECT_SYMBOL, FUNCTION_SYMBOL) and section and name and not absolute \
                and name not in ("_START_", "_END_"):
            yield kind, name


def symbol_of(name):
    """gdb's symbol, or None if the compiler described none."""
    return gdb.lookup_global_symbol(name) or gdb.lookup_static_symbol(name)


def object_entry(maker, symbol):
    """The entry of a symbol in the object section."""
    return struct.pack("<H", maker.type(symbol.type) if symbol else 0)


def function_entry(maker, symbol):
    """The entry of a symbol in the function section."""
    if symbol is None:
        return struct.pack("<H", 0)
    returns, listed = maker.signature(symbol.type)
    info = FUNCTION << 11 | 1 << 10 | len(listed)
    return struct.pack(f"<{2 + len(listed)}H", info, returns, *listed)


def named_beside(found):
    """The types of everything that has a name in the sources of some symbols, including tags and
    enumerators."""
    tables = [symbol.symtab for symbol in found]
    for table in {(one.static_block().start, one.filename): one for one in tables}.values():
        for block in (table.global_block(), table.static_block()):
            yield from (symbol.type for symbol in block if symbol.type)


def main():
    sys.setrecursionlimit(20_000)  # deep through pointers from struct to struct
    maker = Maker()
    if os.environ.get("ALL"):  # when all is read, a symbol has its definition, not a declaration
        gdb.execute("maint expand-symtabs")
    known = [(kind, symbol_of(name)) for kind, name in symbols(pathlib.Path(os.environ["MADE_OF"]))]
    objects = b"".join(object_entry(maker, s) for kind, s in known if kind == OBJECT_SYMBOL)
    functions = b"".join(function_entry(maker, s) for kind, s in known if kind == FUNCTION_SYMBOL)
    if os.environ.get("ALL"):
        for t in named_beside([symbol for _, symbol in known if symbol]):
            maker.type(t)
    functions += bytes(-(len(objects) + len(functions)) % 4)
    types = b"".join(maker.records)
    ends = [0, 0, 0, 0, len(objects), len(objects + functions), len(objects + functions + types)]
    header = struct.pack("<HBB8I", 0xCFF1, 2, 0, *ends, len(maker.names))
    made = header + objects + functions + types + maker.names
    pathlib.Path(os.environ["MADE"]).write_bytes(made)


try:
    main()
except Exception:
    traceback.print_exc()
    gdb.execute("quit 1")  # gdb's own status would be 0
