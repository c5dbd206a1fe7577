#!/usr/bin/env python3
"""Makes crates/ctf_c/out/libctfd.a, the library for C, and prints its path.

usage: tests/doors/c_library/archive.py [--kept]

With --kept nothing is made: the existing archive is used, and a line says if there is none. If
CTFD_ARCHIVE in the environment names an archive, that one is used.

`rt ci` proves the crate that C calls, but makes no archive. It leaves the crates below built, but
without the stamps by which `rt lib` knows that they are up to date. So this script stamps each
crate that was built after the last change to its files, and `rt lib` then makes only the one crate.
If that fails, it makes all crates again, which takes as long as `make prove`.

The archive has the crate's exports, and the kit's three functions that allocate memory, which use
malloc, realloc and free. A program may define these itself. Then scripts/libctf.py adds libctf's
calls, and makes libctfd.so beside it. Needs ar, nm and a C compiler.
"""
from __future__ import annotations

import argparse
import functools
import importlib.machinery
import importlib.util
import os
import shutil
import subprocess
import sys
from pathlib import Path

TOP = Path(__file__).resolve().parents[3]
sys.path.insert(0, str(TOP / "scripts"))
import built  # noqa: E402
import libctf  # noqa: E402

CRATE = TOP / "crates" / "ctf_c"
ARCHIVE = CRATE / "out" / "libctfd.a"
TOOLS = ("ar", "cc", "nm")


def skip(why: str) -> None:
    print(f"skipped: {why}")
    sys.exit(0)


def newest(folder: Path) -> float:
    """The time of the last change to a crate's own files."""
    return max(path.stat().st_mtime for path in folder.rglob("*")
               if path.is_file() and "out" not in path.relative_to(folder).parts)


def stamp_what_was_built(kit: Path) -> None:
    """Stamps each crate that was built and not changed since, as `rt lib` expects it."""
    loader = importlib.machinery.SourceFileLoader("rtlib", str(kit / "bin" / "rtlib.py"))
    made = importlib.util.spec_from_loader("rtlib", loader)
    assert made
    library = importlib.util.module_from_spec(made)
    sys.modules["rtlib"] = library
    loader.exec_module(library)
    setattr(library, "Crate", stamped_once(library.Crate))
    crates = library.crates_below(str(TOP))
    below = {low.name: low for crate in crates if Path(crate.folder) == CRATE
             for low in crate.below()}
    for low in below.values():
        built = Path(low.folder) / "out" / "rlib"
        rlib = built / f"{low.name}.rlib"
        if rlib.exists() and not (built / "stamp").exists() \
                and rlib.stat().st_mtime > newest(Path(low.folder)):
            (built / "stamp").write_text(low.stamp(), encoding="utf-8")


def stamped_once(kind: type) -> type:
    """A subclass of the kit's crate that caches its stamp: the original computes it again for each
    path that leads to the crate. The kit's own `rt ci` also substitutes a class here."""

    class StampedArchive(kind):  # type: ignore[misc]
        @functools.lru_cache(maxsize=None)
        def stamp(self) -> str:
            return str(super().stamp())

    return StampedArchive


def extract(archive: Path, into: Path, *names: str) -> list[Path]:
    """Extracts the objects of an archive, or some of them, into an empty folder."""
    shutil.rmtree(into, ignore_errors=True)
    into.mkdir(parents=True)
    subprocess.run(["ar", "x", archive, *names], cwd=into, check=True)
    return sorted(into.iterdir())


def make(kit: Path) -> None:
    """Builds the crate, and puts its object and the kit's into an archive."""
    ARCHIVE.unlink(missing_ok=True)
    os.chdir(TOP)
    try:
        stamp_what_was_built(kit)
    except (Exception, SystemExit) as why:  # the kit's internals may change
        print(f"all crates are made anew: {why!r}", file=sys.stderr)
    subprocess.run(["rt", "lib"], cwd=CRATE, stdout=sys.stderr, check=True)
    objects = extract(CRATE / "out" / f"lib{CRATE.name}.a", CRATE / "out" / "objects")
    objects += extract(kit / "c" / "liblibc_c.a", CRATE / "out" / "heap", "heap.pic.o")
    subprocess.run(["ar", "rcsD", ARCHIVE, *objects], check=True)
    libctf.make(ARCHIVE, says=built.SAYS[built.How.PROVED])


def main() -> None:
    assert __doc__
    options = argparse.ArgumentParser(usage=__doc__.split("usage: ")[1].split("\n")[0])
    options.add_argument("--kept", action="store_true")
    is_kept = options.parse_args().kept
    if named := os.environ.get("CTFD_ARCHIVE"):
        print(Path(named).resolve(strict=True))
        return
    if is_kept:
        if not ARCHIVE.exists():
            skip("there is no libctfd.a, which `make` builds")
    else:
        rt = shutil.which("rt")
        missing = [tool for tool in TOOLS if not shutil.which(tool)]
        if not rt or missing:
            skip(f"{' '.join(missing) or 'rt'} is not on the path")
        else:
            make(Path(rt).resolve().parents[1])
    print(ARCHIVE)


if __name__ == "__main__":
    main()
