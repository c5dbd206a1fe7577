#!/usr/bin/env python3
"""Builds the compiled commands in Rust, with the built library.

usage: scripts/rust.py [--quiet | --packages | --ahead] [CARGO-WORD..]

`--packages` prints the names of Debian's packages with the crates. `--ahead` compiles everything
except the programs that are linked with the library, which need not exist yet; it prints nothing,
since the later build reports the same errors. Without words it builds
clients/rust/target/release/ctfd-tools, a link beside it for each command that it contains, and
ctfd-front. With words it runs cargo with these: `scripts/rust.py test`.

The crates that these need come from the folder clients/rust/vendor of the source tarball, else from
Debian's packages (librust-*-dev) if they are installed, else from crates.io. Needs cargo and rustc
1.82 or later; without them, or without the crates, nothing is built, and a line says so.
"""
from __future__ import annotations

import os
import re
import shutil
import subprocess
import sys
from pathlib import Path
from typing import Optional, Sequence

from progress import Progress

TOP = Path(__file__).resolve().parents[1]
WORKSPACE = TOP / "clients" / "rust"
ARCHIVE = TOP / "crates" / "ctf_c" / "out" / "libctfd.a"
PROGRAM, FRONT = "ctfd-tools", "ctfd-front"
PACKAGE, LIBRARIES = "ctfd-commands", ("ctfd-tools", "ctfd-front")
LATER = {"CTFD_LINKED_LATER": "1"}  # the library is linked with the programs, and read by no crate
COMMANDS = ("ctfd-convert", "ctfd-debuginfo", "ctfd-diff", "ctfd-explore", "ctfd-show",
            "ctfd-store", "ctfd-types")
DEBIAN = Path("/usr/share/cargo/registry")
# Debian's packages of the crates that are named; they bring the crates that these name.
PACKAGES = tuple(f"librust-{name}-dev" for name in ("ahash-0.7", "clap", "crc32fast", "flate2",
                                                    "gimli", "indicatif", "libc", "memchr", "mio",
                                                    "object", "rayon", "regex", "rustix",
                                                    "sha2", "signal-hook", "smallvec", "tar"))
PACKAGES += ("libzstd-dev",)  # without it, sections compressed by zstd are not read
LEAST = (1, 82)


class NotBuilt(Exception):
    """Something is missing, or cargo failed."""


def sources() -> list[str]:
    """The arguments for cargo that say where crates come from."""
    carried = WORKSPACE / "vendor"
    if carried.is_dir():
        return [*_source_replacement("vendored", carried), "--offline"]
    if not list(DEBIAN.glob("gimli-*")):
        return []
    return [*_source_replacement("debian", DEBIAN), "--offline"]


def _source_replacement(name: str, folder: Path) -> list[str]:
    return ["--config", f'source.crates-io.replace-with="{name}"',
            "--config", f'source.{name}.directory="{folder}"']


def cargo() -> str:
    """The program cargo. Raises NotBuilt."""
    found = shutil.which("cargo")
    if not found:
        raise NotBuilt("there is no cargo: install Rust 1.82 or later")
    said = subprocess.run([found, "--version"], capture_output=True, text=True, check=False)
    version = re.search(r"(\d+)\.(\d+)", said.stdout)
    if not version or (int(version[1]), int(version[2])) < LEAST:
        raise NotBuilt(f"cargo is {said.stdout.strip() or 'not installed'}: install Rust 1.82 or"
                       " later")
    return found


def run(words: Sequence[str], more: Optional[dict[str, str]] = None) -> int:
    """Runs cargo in the workspace, with `more` added to its environment. Returns its status. Raises
    NotBuilt."""
    environment = {**os.environ, **(more or {})}
    if "DOCS_RS" not in environment:
        environment.setdefault("CTFD_ARCHIVE", str(ARCHIVE))
    command = [cargo(), words[0], *sources(), *words[1:]]
    return subprocess.run(command, cwd=WORKSPACE, env=environment, check=False).returncode


def vendor(into: Path) -> None:
    """Copies the crates that these need into a folder. Raises NotBuilt."""
    words = ["vendor", "--quiet", "--respect-source-config", *sources(), "--versioned-dirs"]
    if subprocess.run([cargo(), *words, str(into)], cwd=WORKSPACE, check=False,
                      stdout=subprocess.DEVNULL).returncode != 0:
        raise NotBuilt("cargo vendor has failed")


def folder() -> Path:
    """The folder of the compiled commands."""
    return Path(os.environ.get("CARGO_TARGET_DIR") or WORKSPACE / "target") / "release"


def build(*words: str) -> Path:
    """Builds the commands and the front, and returns their folder. Raises NotBuilt."""
    with Progress() as progress:
        progress.text = "compiles the commands"
        status = run(["build", "--release", "--package", PACKAGE, *words], LATER)
    if status != 0:
        raise NotBuilt("cargo has failed: are all of Debian's packages installed that"
                       f" scripts/rust.py needs ({' '.join(PACKAGES)})?")
    for name in COMMANDS:
        link = folder() / name
        link.unlink(missing_ok=True)
        link.symlink_to(PROGRAM)
    return folder()


def compile_ahead() -> None:
    """Compiles everything except the programs."""
    silence = os.open(os.devnull, os.O_WRONLY)
    os.dup2(silence, sys.stderr.fileno())
    run(["build", "--release", "--quiet", "--lib",
         *(word for name in LIBRARIES for word in ("--package", name))], LATER)


def main() -> int:
    words = sys.argv[1:]
    try:
        if words and words[0] not in ("--quiet", "--packages", "--ahead", "-h", "--help"):
            return run(words)
        if words[:1] == ["--ahead"]:
            compile_ahead()
            return 0
        if words[:1] == ["--packages"]:
            print(*PACKAGES, sep="\n")
            return 0
        if words[:1] in (["-h"], ["--help"]):
            print(__doc__)
            return 0
        print(f"{build(*words)}: the compiled commands, {', '.join((*COMMANDS, FRONT))}")
    except NotBuilt as why:
        if words[:1] == ["--ahead"]:
            return 0
        print(f"without the compiled commands: {why}", file=sys.stderr)
    return 0


if __name__ == "__main__":
    sys.exit(main())
