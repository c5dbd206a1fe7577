"""The modules that the public names of the package are imported from."""
import sys

from . import startup

# The modules, each with the public names that it defines.
_NAMES = {
    "client.connecting": ("connect",),
    "client.dictionary": ("Dictionary", "open_file", "open_source", "taken", "withdraw"),
    "client.easy": ("open",),
    "client.faults": ("BadDictionary", "BadSymbols", "Error", "Gone", "Incomplete", "NoMemory",
                      "NoParent", "NoSuchType", "NotFound", "Refused", "Unreadable"),
    "client.model": ("Model",),
    "client.session": ("Service", "Session"),
    "client.types": ("Encoding", "Enumerator", "Member", "PointerTo", "Signature", "Type"),
    "client.wire": ("Client",),
    "files.source": ("Source", "read"),
    "layout.places": ("Layout", "Place", "layout"),
    "version": ("__version__",),
    "view.declare": ("declaration",),
    "view.listing": ("definition", "listing"),
}
_MODULES = {name: module for module, names in _NAMES.items() for name in names}
_CALLED = {"open": "open_path", "__version__": "VERSION"}
_PUBLIC_MODULES = ("build", "expressions", "formats", "replies", "text", "values")


class _Package(type(sys)):  # type: ignore[misc]
    """The class of the package. It keeps `layout` the function: importing the folder of that name
    would otherwise replace it by a module."""

    def __setattr__(self, name: str, value: object) -> None:
        if name != "layout" or not isinstance(value, type(sys)):
            super().__setattr__(name, value)


def begin(package):  # type: ignore[no-untyped-def]
    """Gives the package's `__getattr__`, which imports a public name at its first use. If modules
    may come from the current folder, in which other users may put files, all names are imported at
    once."""
    package.__class__ = _Package

    def find_public(name: str) -> object:
        module = _MODULES.get(name)
        if module is None and name not in _PUBLIC_MODULES:
            raise AttributeError(f"module {package.__name__!r} has no attribute {name!r}")
        import importlib

        with startup.AbsoluteFolders():
            made: object = importlib.import_module(f"{package.__name__}.{module or name}")
        if module is not None:
            made = getattr(made, _CALLED.get(name, name))
        setattr(package, name, made)
        return made

    if startup.has_current_folder():
        for name in (*_MODULES, *_PUBLIC_MODULES):
            find_public(name)
    return find_public
