#!/usr/bin/env python3
"""Checks the style of everything outside crates/, which `rt fmt` formats: Rust with rustfmt
(clients/rust/rustfmt.toml), C and C++ with clang-format 14 (.clang-format), shell scripts with
shellcheck, Python with pyflakes. C files that tests give to compilers as input are skipped.

usage: tests/house/style.py

Prints the tools' output; the status is 1 if there is any. A missing tool is skipped, with a line
that says so.
"""
from __future__ import annotations

import shutil
import subprocess
import sys
from pathlib import Path

import tracked

TOP = Path(__file__).resolve().parents[2]
RUSTFMT = ("rustfmt", "--check", "--edition", "2021", "--config-path", "clients/rust/rustfmt.toml")
CLANG_FORMAT = ("clang-format-14", "--dry-run", "--Werror", "--style=file")
OF_C = (".c", ".h", ".cc", ".cpp")
INPUTS = ("tests/doors/opens.c", *(f"tests/doors/{name}/" for name in (
    "convert", "debuginfo", "gdb", "ilp32", "reader", "show")))


def sources() -> list[Path]:
    """The files of the repository outside crates/."""
    return [TOP / name for name in tracked.tracked_files()
            if not name.startswith("crates/") and (TOP / name).is_file()]


def is_script(path: Path) -> bool:
    if path.suffix == ".sh":
        return True
    with path.open("rb") as file:
        first = file.readline(64)
    return first.startswith(b"#!") and first.rstrip().endswith((b"/sh", b"bash"))


def is_formatted_c(path: Path) -> bool:
    name = str(path.relative_to(TOP))
    return path.suffix in OF_C and not name.startswith(INPUTS)


def complains(words: tuple[str, ...], files: list[Path]) -> bool:
    """Whether a tool reports errors in some files; it prints them itself."""
    if not files:
        return False
    names = [str(path.relative_to(TOP)) for path in files]
    return subprocess.run([*words, *names], cwd=TOP, check=False).returncode != 0


def pyflakes() -> tuple[str, ...]:
    """Debian's command, or this Python's module; empty if neither is installed."""
    if shutil.which("pyflakes3"):
        return ("pyflakes3",)
    words = (sys.executable, "-m", "pyflakes")
    here = subprocess.run([*words, "--version"], capture_output=True, check=False).returncode == 0
    return words if here else ()


def main() -> int:
    files = sources()
    scripts = [path for path in files if is_script(path)]
    tools = [(RUSTFMT if shutil.which("rustfmt") else (), "rustfmt",
              [path for path in files if path.suffix == ".rs"]),
             (CLANG_FORMAT if shutil.which(CLANG_FORMAT[0]) else (), "clang-format",
              [path for path in files if is_formatted_c(path)]),
             (("shellcheck", "-x") if shutil.which("shellcheck") else (), "shellcheck", scripts),
             (pyflakes(), "pyflakes", [path for path in files if path.suffix == ".py"])]
    failed = 0
    for words, name, listed in tools:
        if not words:
            print(f"skipped: {name} is not here")
        elif complains(words, listed):
            print(f"{name}: see above")
            failed = 1
    return failed


if __name__ == "__main__":
    sys.exit(main())
