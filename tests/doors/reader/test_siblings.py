"""A unit that is most of a program, read by several threads.

The entries of functions give the offset of the next entry, and further threads begin there.
Whatever these offsets are, also if they are wrong, all threads together write what a single one
does, with the same messages and status; a single thread does not use them. Local variables without
an address are skipped. Needs gcc and the compiled commands.
"""
from __future__ import annotations

import re
import shutil
import subprocess
import sys
from pathlib import Path
from typing import Callable

import pytest

from .test_many_types import convert

TOP = Path(__file__).resolve().parents[3]
sys.path.insert(0, str(TOP / "scripts"))
import rust  # noqa: E402

FUNCTIONS = 3_000
SIBLING = re.compile(r"(\(DIE \((0x[0-9a-f]+)\) DW_TAG_subprogram\)\n(?:(?!DIE).)*?"
                     r"\.long\t)(0x[0-9a-f]+)(\t# DW_AT_sibling)", re.DOTALL)
# The wrong offset of a sibling, from the function's own, the right one and a number.
Wrong = Callable[[int, int, int], int]
WRONG: dict[str, Wrong] = {
    "within its last entry": lambda own, sibling, _: sibling - 1,
    "in a later function": lambda own, sibling, _: sibling + 9,
    "itself": lambda own, sibling, _: own,
    "far behind": lambda own, sibling, number: sibling + 40 * number,
    "behind all": lambda own, sibling, _: 0x7fff_ffff,
    "the first byte": lambda own, sibling, _: 0,
}

pytestmark = pytest.mark.skipif(
    not (rust.folder() / "ctfd-convert").exists() or not shutil.which("gcc"),
    reason="not possible here: no gcc, or the compiled commands are not built")


def source() -> str:
    """Functions, each with types, objects and variables of its own, also in blocks."""
    lines = []
    for n in range(FUNCTIONS):
        lines.append(f"struct s{n} {{ int a; struct s{max(0, n - 3)} *near; }};\n"
                     f"static int object{n} = {n};\n"
                     f"int function{n}(struct s{n} *one, long more) {{ static struct s{n} kept{n};"
                     f" int here = one->a; {{ long there = more + here; static char mark{n};"
                     f" mark{n} = there; kept{n}.a = mark{n}; }} return here + object{n}; }}")
    return "\n".join(lines)


@pytest.fixture(scope="module")
def assembly(tmp_path_factory: pytest.TempPathFactory) -> str:
    folder = tmp_path_factory.mktemp("siblings")
    (folder / "code.c").write_text(source())
    subprocess.run(["gcc", "-g", "-dA", "-O0", "-S", "-o", folder / "code.s", folder / "code.c"],
                   check=True)
    text = (folder / "code.s").read_text()
    assert len(SIBLING.findall(text)) == FUNCTIONS - 1  # nothing follows the last
    return text


def outcome(text: str, folder: Path, threads: int) -> tuple[int, str, bytes]:
    """The status, the messages and the bytes of a conversion."""
    (folder / "code.s").write_text(text)
    program, out = folder / "code.o", folder / "out"
    subprocess.run(["gcc", "-c", folder / "code.s", "-o", program], check=True)
    out.unlink(missing_ok=True)
    done = convert(program, out, threads=str(threads))
    return done.returncode, done.stderr, out.read_bytes() if out.exists() else b""


def test_as_it_is(assembly: str, tmp_path: Path) -> None:
    alone = outcome(assembly, tmp_path, 1)
    assert alone[:2] == (0, "")
    assert f"=.symtab,{3 * FUNCTIONS},{FUNCTIONS},".encode() in alone[2]  # objects and functions
    assert [outcome(assembly, tmp_path, threads) for threads in (2, 3, 4, 16)] == [alone] * 4


@pytest.mark.parametrize("name", WRONG)
def test_wrong_siblings(assembly: str, tmp_path: Path, name: str) -> None:
    """Wrong siblings of one function in fifty do not change the output."""
    count = 0

    def changes(found: re.Match[str]) -> str:
        nonlocal count
        count += 1
        if count % 50:
            return found[0]
        place = WRONG[name](int(found[2], 16), int(found[3], 16), count)
        return f"{found[1]}{place:#x}{found[4]}"

    text = SIBLING.sub(changes, assembly)
    assert text != assembly
    as_it_is = outcome(assembly, tmp_path, 1)
    assert [outcome(text, tmp_path, threads) for threads in (1, 4)] == [as_it_is] * 2
