"""The script that an installed package gives gdb; `python3 -m ctfd.plugin` prints the line to
source it."""
import pathlib
import sys

FOLDER = pathlib.Path((lambda: None).__code__.co_filename).resolve().parents[2]
if str(FOLDER) not in sys.path:
    sys.path.append(str(FOLDER))

from ctfd.plugin import commands  # noqa: E402  (gdb runs this file by itself)

commands.register()
