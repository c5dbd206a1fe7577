"""Prints the line for `.gdbinit` that loads the commands into gdb: `python3 -m ctfd.plugin`."""
from pathlib import Path

print(f"source {Path(__file__).resolve().with_name('ctfgdb.py')}")
