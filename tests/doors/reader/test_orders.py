"""The compiled ctfd-convert on files of big-endian machines, and on FreeBSD's CTF of version 3.

A program has the same types when compiled for machines of either byte order: clang compiles it for
powerpc64 and s390x, and for BPF with BTF, and gcc, if installed, for powerpc64 with GNU's CTF. A
dictionary that is rewritten with big-endian numbers, or as version 3, keeps its types. Needs clang
and the compiled commands.
"""
from __future__ import annotations

import shutil
import struct
import subprocess
import sys
from pathlib import Path
from typing import Iterator, Optional

import pytest

TOP = Path(__file__).resolve().parents[3]
sys.path.insert(0, str(TOP / "scripts"))
import rust  # noqa: E402

from .type_sets import HEADER, type_set  # noqa: E402

SOURCE = Path(__file__).with_name("orders.c")
LITTLE, BIG = "powerpc64le-linux-gnu", ("powerpc64-linux-gnu", "s390x-linux-gnu")
SECONDS = 60
LONG = 0xFFFF


def convert(path: Path, *words: str) -> bytes:
    """The dictionary of a file."""
    command = [str(rust.folder() / "ctfd-convert"), str(path), "-", "--lossy", *words]
    done = subprocess.run(command, capture_output=True, timeout=SECONDS)
    if done.returncode:
        raise AssertionError(f"{' '.join(command)}: {done.stderr.decode(errors='replace')}")
    return done.stdout


def compile_source(command: str, output: Path) -> Optional[Path]:
    """An object file of the source, or None if it cannot be compiled here."""
    words = [*command.split(), "-w", "-c", str(SOURCE), "-o", str(output)]
    is_there = shutil.which(words[0])
    return output if is_there and subprocess.run(words, capture_output=True).returncode == 0 else None


def foreign(ctf: bytes, order: str, is_wide: bool) -> bytes:
    """A dictionary of version 2, rewritten in another byte order, or as version 3."""
    label, parent, *ends, length = struct.unpack_from("<8I", ctf, 4)
    body = ctf[HEADER:]
    types = b"".join(records(body[ends[3]:ends[4]], order, is_wide))
    number = "I" if is_wide else "H"
    objects = body[ends[1]:ends[2]] if not is_wide else b""
    objects = b"".join(struct.pack(order + number, one) for one, in struct.iter_unpack("<H", objects))
    objects += bytes(-len(objects) % 4)
    places = [0, 0, len(objects), len(objects), len(objects) + len(types)]
    head = struct.pack(order + "HBB8I", 0xCFF1, 3 if is_wide else 2, 0, 0, 0, *places, length)
    assert not label and not parent
    return head + objects + types + body[ends[4]:ends[4] + length]


def records(types: bytes, order: str, is_wide: bool) -> Iterator[bytes]:
    """The records of a dictionary, rewritten one by one."""
    at = 0
    number = "I" if is_wide else "H"
    while at < len(types):
        name, info, size = struct.unpack_from("<IHH", types, at)
        at += 8
        kind, root, count = info >> 11, info >> 10 & 1, info & 0x3FF
        is_long = size == LONG
        if is_long:
            high, low = struct.unpack_from("<II", types, at)
            at, size = at + 8, high << 32 | low
        if is_wide:
            yield struct.pack(order + "III", name, kind << 26 | root << 25 | count, size)
        else:
            yield struct.pack(order + "IHH", name, info, LONG if is_long else size)
            yield struct.pack(order + "II", size >> 32, size & 0xFFFFFFFF) if is_long else b""
        if kind in (1, 2):
            yield struct.pack(order + "I", *struct.unpack_from("<I", types, at))
            at += 4
        elif kind == 4:
            yield struct.pack(f"{order}{number}{number}I", *struct.unpack_from("<HHI", types, at))
            at += 8
        elif kind == 5:
            padded = count + count % 2
            yield struct.pack(f"{order}{padded}{number}", *struct.unpack_from(f"<{padded}H", types, at))
            at += 2 * padded
        elif kind in (6, 7):
            is_large = size >= 8192
            for _ in range(count):
                form = "<IHxxII" if is_large else "<IHH"
                member, of, *offset = struct.unpack_from(form, types, at)
                at += struct.calcsize(form)
                whole = offset[0] << 32 | offset[1] if is_large else offset[0]
                wide = (order + "III", member, of, whole)
                narrow = (order + form[1:], member, of, *offset)
                yield struct.pack(*(wide if is_wide else narrow))
        elif kind == 8:
            for value in struct.iter_unpack("<Ii", types[at:at + 8 * count]):
                yield struct.pack(order + "Ii", *value)
            at += 8 * count


@pytest.fixture(autouse=True)
def tools() -> None:
    if not (rust.folder() / "ctfd-convert").exists() or not shutil.which("clang"):
        pytest.skip("not possible here: no clang, or the compiled commands are not built")


def have_same_types(one: bytes, other: bytes) -> bool:
    return type_set(one) == type_set(other)


@pytest.mark.parametrize("version", ("2", "3", "4", "5"))
@pytest.mark.parametrize("target", BIG)
def test_big_endian(tmp_path: Path, target: str, version: str) -> None:
    options = f"-gdwarf-{version} -fsigned-char"
    little = compile_source(f"clang --target={LITTLE} {options}", tmp_path / "little.o")
    big = compile_source(f"clang --target={target} {options}", tmp_path / "big.o")
    assert little and big
    assert have_same_types(convert(little), convert(big))


def test_btf(tmp_path: Path) -> None:
    one = compile_source("clang --target=bpfel -g", tmp_path / "el.o")
    other = compile_source("clang --target=bpfeb -g", tmp_path / "eb.o")
    assert one and other
    assert have_same_types(convert(one, "--from", "btf"), convert(other, "--from", "btf"))


@pytest.mark.skipif(not shutil.which("powerpc64-linux-gnu-gcc"),
                    reason="not possible here: no powerpc64-linux-gnu-gcc")
@pytest.mark.parametrize("option", ("-gctf", "-gbtf", "-gdwarf-3 -gstrict-dwarf", "-g -gz"))
def test_gcc(tmp_path: Path, option: str) -> None:
    one = compile_source(f"gcc {option}", tmp_path / "one.o")
    other = compile_source(f"powerpc64-linux-gnu-gcc {option} -fsigned-char", tmp_path / "other.o")
    if not one or not other:
        pytest.skip(f"not possible here: gcc does not know {option}")
    assert have_same_types(convert(one), convert(other))


@pytest.mark.parametrize("order, is_wide", ((">", False), ("<", True), (">", True)))
@pytest.mark.parametrize("name", ("lua", "zlib"))
def test_written_anew(tmp_path: Path, name: str, order: str, is_wide: bool) -> None:
    whole = (TOP / "examples" / f"{name}.ctf").read_bytes()
    path = tmp_path / "foreign"
    path.write_bytes(foreign(whole, order, is_wide))
    assert have_same_types(whole, convert(path))
