"""The types of C programs as Python objects, read from CTF dictionaries that ctfd has checked.

    with ctfd.open("examples/lua.ctf") as types:
        print(ctfd.listing(types["struct lua_State"]))

Each public name is imported at its first use, which keeps `import ctfd` fast.
"""
import sys

if sys.version_info < (3, 9):
    sys.exit("ctfd: %s is Python %d.%d, and 3.9 or later is needed: put another first on the PATH,"
             " such as Debian's python3" % ((sys.executable,) + sys.version_info[:2]))

__all__ = [
    "BadDictionary", "BadSymbols", "Client", "Dictionary", "Encoding", "Enumerator", "Error",
    "Gone", "Incomplete", "Layout", "Member", "Model", "NoMemory", "NoParent", "NoSuchType",
    "NotFound", "Place", "PointerTo", "Refused", "Service", "Session", "Signature", "Source",
    "Type", "Unreadable", "__version__", "build", "connect", "declaration", "definition",
    "expressions", "formats", "layout", "listing", "open", "open_file", "open_source", "read",
    "replies", "taken", "text", "values", "withdraw",
]

TYPE_CHECKING = False  # as typing's, without its slow import
if TYPE_CHECKING:
    from . import build, expressions, formats, replies, text, values
    from .client.connecting import connect
    from .client.dictionary import Dictionary, open_file, open_source, taken, withdraw
    from .client.easy import open_path as open
    from .client.faults import (BadDictionary, BadSymbols, Error, Gone, Incomplete, NoMemory,
                                NoParent, NoSuchType, NotFound, Refused, Unreadable)
    from .client.model import Model
    from .client.session import Service, Session
    from .client.types import Encoding, Enumerator, Member, PointerTo, Signature, Type
    from .client.wire import Client
    from .files.source import Source, read
    from .layout.places import Layout, Place, layout
    from .version import VERSION as __version__
    from .view.declare import declaration
    from .view.listing import definition, listing
else:
    from .client.public import begin as _begin

    __getattr__ = _begin(sys.modules[__name__])

    def __dir__():
        return sorted(__all__)
