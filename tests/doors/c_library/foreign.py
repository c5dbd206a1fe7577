#!/usr/bin/env python3
"""Calls libctfd.so through ctypes, as a foreign-function interface does, with a callback.

usage: tests/doors/c_library/foreign.py LIBRARY CTF

Prints the same as tests/doors/c_library/unchanged.c for the same file.
"""
from __future__ import annotations

import ctypes
import sys

MEMBER = ctypes.CFUNCTYPE(ctypes.c_int, ctypes.c_char_p, ctypes.c_long, ctypes.c_ulong,
                          ctypes.c_void_p)


def main() -> int:
    library = ctypes.CDLL(sys.argv[1])
    library.ctf_open.restype = ctypes.c_void_p
    library.ctf_errmsg.restype = ctypes.c_char_p
    library.ctf_lookup_by_name.restype = ctypes.c_long
    library.ctf_type_size.restype = ctypes.c_ssize_t
    error, names = ctypes.c_int(0), []

    def each(name: bytes, _type: int, _offset: int, _arg: object) -> int:
        names.append(name)
        return 0

    opened = library.ctf_open(sys.argv[2].encode(), ctypes.byref(error))
    if not opened:
        print(library.ctf_errmsg(error).decode())
        return 1
    file = ctypes.c_void_p(opened)
    state = ctypes.c_long(library.ctf_lookup_by_name(file, b"struct lua_State"))
    library.ctf_member_iter(file, state, MEMBER(each), None)
    print(f"{library.ctf_type_size(file, state)} bytes, {len(names)} members")
    library.ctf_close(file)
    return 0


if __name__ == "__main__":
    sys.exit(main())
