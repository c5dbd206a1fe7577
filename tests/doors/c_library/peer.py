#!/usr/bin/env python3
"""Writes the types of a dictionary with GNU libctf, for tests/doors/c_library/run.sh.

usage: peer.py PROGRAM CTF FOLDER

FOLDER gets gnu.ctf, which GNU libctf itself writes (bench/gnu_dictionary.py), and the numbers of
the types that it accepted: `ours` has their numbers in CTF, and `theirs` those in gnu.ctf, one per
line. Prints the number of types, and of those that were refused. Needs libctf-nobfd.so.0 of the
Debian package binutils-dev.
"""
import sys
from pathlib import Path

TOP = Path(__file__).resolve().parents[3]
sys.path[:0] = [str(TOP / "clients" / "python"), str(TOP / "bench")]
import ctfd  # noqa: E402

import gnu_dictionary  # noqa: E402


def main() -> int:
    program, ctf, folder = sys.argv[1:]
    with ctfd.Client(program) as client:
        session = client.session()
        opened = session.open(Path(ctf).read_bytes())
        writer = gnu_dictionary.Writer(session, opened["d"], opened["types"])
        (Path(folder) / "gnu.ctf").write_bytes(writer.bytes())
    pairs = [(t, made) for t, made in sorted(writer.made.items()) if made]
    for name, place in ("ours", 0), ("theirs", 1):
        (Path(folder) / name).write_text("".join(f"{pair[place]}\n" for pair in pairs))
    print(f"{len(pairs)} types, {writer.refused} refused")
    return 0


if __name__ == "__main__":
    sys.exit(main())
