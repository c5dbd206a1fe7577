"""gdb commands that print types and values from CTF: `source` this file, then `help ctf`."""
import pathlib
import sys

# Not from __file__: if another script sources this one, that names the other script.
FOLDER = pathlib.Path((lambda: None).__code__.co_filename).resolve().parent
if str(FOLDER.parent / "python") not in sys.path:
    sys.path.insert(0, str(FOLDER.parent / "python"))

from ctfd.plugin import commands  # noqa: E402

commands.register()
