#!/usr/bin/env python3
"""Converts a kernel's BTF within a minute and two gigabytes, and compares its structs with
pahole's.

usage: kernel.py SERVICE BTF

SERVICE is a built ctfd, and BTF the file, such as /sys/kernel/btf/vmlinux. Prints the number of
types, the time and memory used, and how many structs and unions are listed as by pahole. The status
is 1 if a limit was exceeded, or one is listed differently.
"""
from __future__ import annotations

import resource
import subprocess
import sys
import tempfile
from pathlib import Path

import headers  # noqa: E402  it knows where the client is

import ctfd
from command import convert

SECONDS, KILOBYTES = 60, 2_000_000
MOST = 20


def main(service: str, btf: str) -> int:
    with tempfile.TemporaryDirectory() as folder:
        made = str(Path(folder) / "kernel.ctf")
        losses = convert("--one", btf, made)
        used = resource.getrusage(resource.RUSAGE_CHILDREN)
        took, memory = used.ru_utime + used.ru_stime, used.ru_maxrss
        with ctfd.Client(service) as client:
            types = ctfd.open_file(client.session(), made)
            own = [t for t in types.types() if t.kind in ("struct", "union") and t.name]
            types.gather([t.number for t in own])
            ours = headers.parse("\n".join(ctfd.listing(t) for t in own if t.is_root))
    print(f"{types.own} types in {took:.1f} s of the processor and {memory // 1000} MB;"
          f" {len(losses)} lines on what CTF cannot represent")
    shown = subprocess.run(["pahole", "-F", "btf", btf], capture_output=True, text=True)
    theirs = headers.parse(shown.stdout)
    wrong = [name for name in theirs if ours.get(name) != theirs[name]]
    for name in wrong[:MOST]:
        print(f"{name}\n  pahole {theirs[name]}\n  ctfd   {ours.get(name)}")
    print(f"{len(theirs)} structs and unions, {len(wrong)} of them listed otherwise than by pahole")
    return 1 if wrong or took > SECONDS or memory > KILOBYTES else 0


if __name__ == "__main__":
    sys.exit(main(*sys.argv[1:]))
