#!/usr/bin/env python3
"""Writes the dictionary of a draft with one type of each kind to standard output.

usage: tests/doors/dump/written_bytes.py > examples/written.ctf

The bytes are those of the run "each kind is written" in
crates/test_service/data/draft_calls.transcript, which the gate compares with what the service
writes.
"""
import json
import pathlib
import sys

TOP = pathlib.Path(__file__).resolve().parents[3]
SOURCE = TOP / "crates" / "test_service" / "data" / "draft_calls.transcript"


def bytes_by_service() -> bytes:
    runs = SOURCE.read_text().split("\n# ")
    run = next(run for run in runs if run.startswith("each kind is written\n"))
    replies = [json.loads(line[2:]) for line in run.splitlines() if line.startswith("< ")]
    written = replies[-1]["ok"]
    dictionary = bytes.fromhex(written["bytes"])
    assert len(dictionary) == written["length"]
    return dictionary


if __name__ == "__main__":
    sys.stdout.buffer.write(bytes_by_service())
