"""The command that checks one crate over libraries that are built already."""
from __future__ import annotations

import shutil
import subprocess
from pathlib import Path

TOP = Path(__file__).resolve().parents[2]


def listed_in_crates(name: str) -> tuple[list[str], list[str]]:
    """The kind of a crate, and the crates that it uses, as crates.txt lists them."""
    for line in (TOP / "crates.txt").read_text(encoding="utf-8").splitlines():
        head, colon, uses = line.partition(":")
        if colon and head.split()[0] == name:
            return head.split()[1:], uses.split()
    raise SystemExit(f"crates.txt has no {name}")


def command_over(libraries: Path, name: str, kept: Path) -> list[str]:
    """The command that checks a crate in the working folder, and leaves its results in `kept`.
    `libraries` has crates/NAME/out/rlib of each crate below."""
    kit = Path(shutil.which("rattle") or "rattle").resolve().parents[1]
    kinds, uses = listed_in_crates(name)
    is_program = (TOP / "crates" / name / "src" / "main.rt").exists()
    words = ["rattle", "check", "--crate-name", name, f"src/{'main' if is_program else 'lib'}.rt"]
    words += ["--crate-type=staticlib"] if "staticlib" in kinds else []
    for used in ["std", *uses]:
        built = libraries / "crates" / used / "out" / "rlib" / f"{used}.rlib"
        rlib = built if built.exists() else kit / "rlibs" / built.name
        words += ["--extern", f"{used}={rlib}"]
    for folder in [kit / "rlibs", *sorted(libraries.glob("crates/*/out/rlib"))]:
        words += ["-L", f"dependency={folder}"]
    logic = kit / "rattle" / "logic" / "antt-project.json"
    words += ["--antt-project", str(logic), "--logic-built", str(kit / "logic_built")]
    return [*words, "--incremental", str(kept / name)]


def check_says(crate: Path, command: list[str]) -> str:
    """The output of a check of a crate."""
    ended = subprocess.run(command, cwd=crate, stdout=subprocess.PIPE, check=False,
                           stderr=subprocess.STDOUT, stdin=subprocess.DEVNULL, text=True,
                           errors="replace")
    return ended.stdout
