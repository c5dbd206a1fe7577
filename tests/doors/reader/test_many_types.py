"""A program of 150,000 types, more than one dictionary can have, with the compiled commands.

`ctfd.open` opens the dictionaries in one file, and finds each struct with its size and members. One
thread writes the same bytes as many; `--one` writes one dictionary, and reports what is left out.
`ctfd-types`, `ctfd-diff` and `ctfd-explore` treat all dictionaries as one, for the program and for
the file alike, and their answers must match pahole's about each struct, and the source. Needs gcc
and the compiled commands; pahole is optional.
"""
from __future__ import annotations

import json
import os
import random
import shutil
import subprocess
import sys
from dataclasses import dataclass
from pathlib import Path

import pytest

TOP = Path(__file__).resolve().parents[3]
sys.path[:0] = [str(TOP / "scripts"), str(TOP / "clients" / "python")]
import ctfd  # noqa: E402
import rust  # noqa: E402

STRUCTS, LONGEST, NEAR, ASKED = 57_000, 60_000, 40, 60
LEAST = 150_000


def size(number: int) -> int:
    """The size of a struct in bytes: an int, a pointer and its array, aligned."""
    return -(-(16 + number % LONGEST + 1) // 8) * 8


def source(chance: random.Random) -> str:
    """Structs that refer to each other, each with an array and a pointer."""
    lines = []
    for number in range(STRUCTS):
        lines.append(f"struct s{number} {{ int a{number % 7};"
                     f" struct s{target_of(chance, number)} *near;"
                     f" char text[{number % LONGEST + 1}]; }};")
    last = f"struct s{STRUCTS - 1}"
    lines += [f"struct holder {{ long first; {last} held; }} object;",
              f"int function({last} *taken, struct s0 *other) {{ return taken == (void *) other; }}"]
    return "\n".join(lines)


def target_of(chance: random.Random, number: int) -> int:
    """The number of the struct to which another one has a pointer."""
    return max(0, number - chance.randrange(1, NEAR))


def answer(name: str, *words: str) -> str:
    """The output of a command, which must succeed without messages."""
    done = subprocess.run([str(rust.folder() / name), *words], capture_output=True, text=True)
    assert (done.returncode, done.stderr) == (0, ""), (words, done)
    return done.stdout


def ask_commands(program: str, out: str, count: int) -> None:
    """Checks that the commands treat the parts as one, and answer the same for program and file."""
    for words in (["--sizes"], ["--plain", "struct s4?"]):
        of_program, of_file = (answer("ctfd-types", one, *words) for one in (program, out))
        assert of_program == of_file, words
    sizes = answer("ctfd-types", out, "--sizes").splitlines()[1:]
    wanted = [f"struct s{number}" for number in range(STRUCTS)] + ["struct holder"]
    assert sorted(line[51:] for line in sizes) == sorted(wanted), "each struct once"
    assert len(answer("ctfd-types", out).splitlines()) == count, "each type once"
    chance = random.Random(5)
    users = [n for n in range(STRUCTS) if target_of(chance, n) == 50]
    uses = answer("ctfd-types", out, "--uses", "s50").splitlines()
    assert [line.split()[2] for line in uses] == [f"s{n}" for n in users], uses
    held = answer("ctfd-types", out, "--contains", f"s{STRUCTS - 1}").splitlines()
    assert held == [f"       8  struct holder  struct s{STRUCTS - 1} held"], held
    takes = answer("ctfd-types", program, "--functions", "s0")
    assert takes == f"int function(struct s{STRUCTS - 1} *, struct s0 *);\n", takes
    assert answer("ctfd-types", program, "object") == "struct holder object;\n"
    page = answer("ctfd-explore", program, "-o", "-")
    told = json.loads(page.split('json">')[1].split("</script>")[0])
    assert len(told["types"]) == count + 1, len(told["types"])
    assert [row[0] for row in told["functions"] + told["objects"]] == ["function", "object"]
    refused = subprocess.run([str(rust.folder() / "ctfd-types"), out, "--parent", out, "--sizes"],
                             capture_output=True, text=True)
    assert refused.returncode == 1 and "leave --parent out" in refused.stderr, refused


def compare(folder: Path, out: Path) -> None:
    """Checks that a difference between two programs is found, whatever part it is in."""
    code, program, other = folder / "other.c", folder / "other.o", folder / "other.ctf"
    text = source(random.Random(5))
    code.write_text(text.replace("struct s56000 { int", "struct s56000 { long"))
    compile_to(code, program)
    convert(program, other)
    done = subprocess.run([str(rust.folder() / "ctfd-diff"), str(out), str(other)],
                          capture_output=True, text=True)
    assert (done.returncode, done.stderr) == (4, ""), done
    assert done.stdout == "struct s56000: a0 is long int, was int\n", done.stdout


def compile_to(code: Path, program: Path) -> None:
    subprocess.run(["gcc", "-g", "-fno-eliminate-unused-debug-types", "-c", str(code), "-o",
                    str(program)], check=True)


def ask_pahole(program: str, out: str) -> None:
    """Compares sizes with pahole's for the program itself."""
    if not shutil.which("pahole"):
        return
    done = subprocess.run(["pahole", "--sizes", program], capture_output=True, text=True)
    theirs = dict(line.split("\t")[:2] for line in done.stdout.splitlines())
    ours = {line[58:]: line.split()[0] for line in
            answer("ctfd-types", out, "--sizes").splitlines()[1:]}
    assert ours == theirs, len(theirs)


def convert(program: Path, out: Path, *words: str, threads: str = "") -> subprocess.CompletedProcess[str]:
    environment = {**os.environ, **({"RAYON_NUM_THREADS": threads} if threads else {})}
    command = [str(rust.folder() / "ctfd-convert"), str(program), str(out), *words]
    return subprocess.run(command, capture_output=True, text=True, env=environment)


@dataclass(frozen=True)
class Conversion:
    """A program of many types, its dictionaries in one file, and the number of their types."""

    program: Path
    out: Path
    count: int


@pytest.fixture(scope="module")
def conversion(tmp_path_factory: pytest.TempPathFactory) -> Conversion:
    if not (rust.folder() / "ctfd-convert").exists() or not shutil.which("gcc"):
        pytest.skip("not possible here: no gcc, or the compiled commands are not built")
    folder = tmp_path_factory.mktemp("many")
    code, program, out = folder / "many.c", folder / "many.o", folder / "many.ctf"
    code.write_text(source(random.Random(5)))
    compile_to(code, program)
    done = convert(program, out, "--report", "-")
    assert (done.returncode, done.stderr) == (0, "")
    return Conversion(program, out, int(done.stdout.split("written: ")[1].split()[0]))


def test_count(conversion: Conversion) -> None:
    assert conversion.count >= LEAST


def test_one_thread_writes_the_same(conversion: Conversion, tmp_path: Path) -> None:
    convert(conversion.program, tmp_path / "alone", threads="1")
    assert (tmp_path / "alone").read_bytes() == conversion.out.read_bytes()


def test_commands(conversion: Conversion) -> None:
    ask_commands(str(conversion.program), str(conversion.out), conversion.count)


def test_beside_pahole(conversion: Conversion) -> None:
    ask_pahole(str(conversion.program), str(conversion.out))


def test_diff(conversion: Conversion, tmp_path: Path) -> None:
    compare(tmp_path, conversion.out)


def test_one_dictionary(conversion: Conversion, tmp_path: Path) -> None:
    done = convert(conversion.program, tmp_path / "one", "--one")
    assert done.returncode == 1 and "a dictionary holds" in done.stderr


def test_opened_from_python(conversion: Conversion, program: str) -> None:
    with ctfd.open(str(conversion.out)) as types:
        for number in sorted(random.Random(5).sample(range(STRUCTS), ASKED)):
            found = types.find(f"struct s{number}")
            names = [member.name for member in found.members]
            assert (found.size, names) == (size(number), [f"a{number % 7}", "near", "text"])
            assert " struct s" in str(found.members[1].type)
        assert types["struct s1"].sizeof == size(1)
        assert len(types) >= LEAST and "struct s2" in types and "no" not in types
