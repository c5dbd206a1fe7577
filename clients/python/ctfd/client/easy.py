"""`ctfd.open(path)`: the types of a file in one call."""
from __future__ import annotations

from typing import Optional, cast

from .dictionary import Dictionary
from .model import Model
from .connecting import connect
from .session import Service


def open_path(path: str, model: Optional[Model] = None, base: Optional[str] = None,
              parent: Optional[str] = None, client: Optional[Service] = None,
              is_kept: bool = True) -> Dictionary:
    """Opens a program, library, object file or dictionary, converting it to CTF if needed.

    `base` is the kernel's BTF for that of a module, and `parent` the dictionary whose child the
    file is. Without a `client`, a library or service is opened for this file alone; it is closed by
    `close`, at the end of the `with` block, or when the dictionary is garbage-collected. The result
    of a conversion is kept in the user's cache, unless `is_kept` is false. What CTF cannot
    represent is logged. For a program with more types than one dictionary can have, or such a file
    from ctfd-convert, the result is a `Parts`, which answers for several dictionaries at once.
    Raises Error.
    """
    import logging
    import weakref

    # imported here: a caller that has a session of its own does not need them
    from ..files.anyfile import FileOptions
    from ..files.cache import user_cache
    from ..files.opening import Opener
    from .parts import Parts

    asked = FileOptions(model, None, base, cache=user_cache if is_kept else None,
                        warn=logging.getLogger(__name__).warning, takes_parts=parent is None)
    mine = client or connect()
    try:
        opener = Opener(mine.session(), asked)
        parts = [opener.open(path, parent)] if parent else opener.open_all(path)
        # A Parts has the methods of a dictionary that take names.
        types = parts[0] if len(parts) == 1 else cast(Dictionary, Parts(parts))
    except BaseException:
        if client is None:
            mine.close()
        raise
    if client is None:
        types.ends = weakref.finalize(types, mine.close)
    return types
