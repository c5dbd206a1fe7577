"""Each check of the repository as a test: `pytest tests/house -k pages` runs one."""
from __future__ import annotations

import subprocess
import sys
from pathlib import Path

import pytest

TOP = Path(__file__).resolve().parents[2]
sys.path.insert(0, str(TOP / "tests"))
from house.crate_functions import all_functions  # noqa: E402

CHECKS = {
    **{name: [f"tests/house/{name}.py"] for name in (
        "tracked", "style", "links", "names", "bare_names", "pages", "reading", "refusals",
        "examples")},
    "edits": ["tests/house/further_edits.py", "--apply"],
    "faults": ["scripts/faults.py", "--check"],
    "raw": ["scripts/raw.py", "--check"],
}


@pytest.mark.parametrize("check", CHECKS)
def test_house(check: str) -> None:
    done = subprocess.run([sys.executable, *CHECKS[check]], cwd=TOP, capture_output=True, text=True)
    assert done.returncode == 0, done.stdout + done.stderr
    lacking = [line for line in done.stdout.splitlines() if line.startswith("skipped")]
    if lacking:
        pytest.skip("; ".join(lacking))


@pytest.mark.parametrize("crate", sorted((TOP / "crates").iterdir()), ids=lambda it: it.name)
def test_places_of_proofs(crate: Path) -> None:
    """Each written proof of a function is at the place that crate_functions computes."""
    known = list(all_functions(crate))
    places, shared = {it.place for it in known}, {it.name for it in known if not it.place}
    written = {path.parent.relative_to(crate / "proofs")
               for name in ("Answers.antt", "Invariants.antt", "Proof.antt")
               for path in crate.glob(f"proofs/**/{name}")}
    named = {str(it) for it in written if it.name in {one.name for one in known} - shared}
    assert not named - places
