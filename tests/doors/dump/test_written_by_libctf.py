"""Gives a dictionary that this project writes to GNU libctf, and checks how libctf reads it.

Needs libctf, which comes with binutils (tested with 2.40 of Debian 12).

libctf descends from the library that the format comes from, and still reads its types, but as a
version 1 of its own: the magic differs, and the header has one more word, the offset of variables.
So the header of examples/written.ctf is rewritten. The rest is unchanged, except for type 6, a
function: libctf stops with a failed assertion (`upgrade_types_v1`) at any function in this form. A
copy of type 2, which has the same size, replaces it; tests/doors/dump/written_by_pahole.sh tests
the function. libctf looks for labels of such a dictionary in the wrong place, so they are not
compared.

The expected text was worked out by hand from the types.
"""
import ctypes
import pathlib
import re
import struct

import pytest

from . import written_bytes

DICTIONARY = pathlib.Path(__file__).resolve().parents[3] / "examples/written.ctf"
HEADER, TYPE_2, TYPE_6, LENGTH = 36, 52, 100, 12
TYPES = 5  # the number of the section that libctf dumps
EXPECTED = """\
0x1: (kind 0) (nonrepresentable type)
0x2: (kind 1) int (format 0x1) (size 0x4) (aligned at 0x4)
0x3: (kind 2) f (format 0x2) (size 0x8) (aligned at 0x8)
0x4: (kind 3) int * (size 0x8) (aligned at 0x8) -> 0x2
0x5: (kind 4) int [10] (size 0x28) (aligned at 0x4) -> 0x2
10 of 2 by 3
0x6: (kind 1) int (format 0x1) (size 0x4) (aligned at 0x4)
0x7: (kind 6) struct s (size 0x4) (aligned at 0x4)
     [0x0] i: ID 0x2
0x8: (kind 7) union u (size 0x8) (aligned at 0x8)
     [0x0] f: ID 0x3
0x9: (kind 8) enum e (size 0x4) (aligned at 0x4)
     A: -1
0xa: (kind 9) struct w
0xb: (kind 10) t (size 0x4) (aligned at 0x4) -> 0x2
0xc: (kind 11) volatile int (size 0x4) (aligned at 0x4) -> 0x2
0xd: (kind 12) const int (size 0x4) (aligned at 0x4) -> 0x2
0xe: (kind 13) int *restrict (size 0x8) (aligned at 0x8) -> 0x4
"""


class Array(ctypes.Structure):
    _fields_ = [("contents", ctypes.c_long), ("index", ctypes.c_long), ("count", ctypes.c_uint32)]


def rewritten(dictionary):
    """The dictionary with a header for libctf, and without its function."""
    _, _, flags, parlabel, parname, labels, objects, functions, types, strings, length = (
        struct.unpack_from("<HBB8I", dictionary))
    words = parlabel, parname, labels, objects, functions, types, types, strings, length
    function = slice(TYPE_6, TYPE_6 + LENGTH)
    body = bytearray(dictionary)
    body[function] = dictionary[TYPE_2 : TYPE_2 + LENGTH]
    return struct.pack("<HBB9I", 0xDFF2, 1, flags, *words) + bytes(body[HEADER:])


class Read:
    """A dictionary, read by libctf."""

    def __init__(self, dictionary):
        try:
            self.libctf = ctypes.CDLL("libctf.so.0")
        except OSError:
            pytest.skip("no libctf.so.0 here")
        self.libctf.ctf_simple_open.restype = ctypes.c_void_p
        self.libctf.ctf_dump.restype = ctypes.c_char_p
        size, fault = ctypes.c_size_t(len(dictionary)), ctypes.c_int()
        none = None, ctypes.c_size_t(0)
        opened = self.libctf.ctf_simple_open(
            dictionary, size, *none, ctypes.c_size_t(0), *none, ctypes.byref(fault)
        )
        assert opened, f"libctf does not open it: error {fault.value}"
        self.dictionary = ctypes.c_void_p(opened)

    def dump(self):
        """The types as libctf prints them, with references reduced to numbers."""
        state = ctypes.c_void_p()
        while text := self.libctf.ctf_dump(self.dictionary, ctypes.byref(state), TYPES, None, None):
            for line in filter(str.strip, text.decode().split("\n")):
                yield re.sub(r"((->|ID) 0x\w+):.*", r"\1", line.rstrip())

    def array(self, number):
        array = Array()
        self.libctf.ctf_array_info(self.dictionary, ctypes.c_long(number), ctypes.byref(array))
        return f"{array.count} of {array.contents} by {array.index}"


def test_written() -> None:
    read = Read(rewritten(DICTIONARY.read_bytes()))
    said = []
    for line in read.dump():
        said.append(line)
        if line.startswith("0x5:"):
            said.append(read.array(5))
    assert said == EXPECTED.splitlines()


def test_example_is_what_is_written_now() -> None:
    """examples/written.ctf has the bytes that the service writes in a transcript."""
    assert written_bytes.bytes_by_service() == DICTIONARY.read_bytes()
