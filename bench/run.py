#!/usr/bin/env python3
"""Runs a command on each stream of streams.py, and prints processor time, lines per second and peak
memory.

usage: run.py COMMAND [WORD]..

Each stream is run five times from a file, with the output read from a pipe to its end. The run with
the least processor time (user and system) counts.
"""
import resource
import subprocess
import sys
import tempfile

import streams


def high_water(pid):
    """The peak memory of a running process, in KiB."""
    with open(f"/proc/{pid}/status") as status:
        return next((int(line.split()[1]) for line in status if line.startswith("VmHWM:")), 0)


def processor_seconds():
    """The seconds of processor time that ended children have used."""
    usage = resource.getrusage(resource.RUSAGE_CHILDREN)
    return usage.ru_utime + usage.ru_stime


def run(command, path):
    """The processor time in seconds, the number of lines, and the peak memory in KiB as of the last
    read."""
    lines, memory, before = 0, 0, processor_seconds()
    with open(path, "rb") as stdin:
        child = subprocess.Popen(command, stdin=stdin, stdout=subprocess.PIPE)
    while piece := child.stdout.read1(65_536):
        lines += piece.count(b"\n")
        memory = max(memory, high_water(child.pid))
    if child.wait():
        sys.exit(f"{command[0]} ended with status {child.returncode}")
    return processor_seconds() - before, lines, memory


def main(command):
    for name, make in streams.STREAMS.items():
        with tempfile.NamedTemporaryFile("w", suffix=".jsonl") as file:
            file.writelines(make())
            file.flush()
            seconds, lines, memory = min(run(command, file.name) for _ in range(5))
        print(f"{name:10}{lines:8} lines {seconds:8.3f} s {lines / seconds:12.0f} lines/s"
              f" {memory:8} KiB")


if __name__ == "__main__":
    sys.exit(main(sys.argv[1:]) if len(sys.argv) > 1 else __doc__)
