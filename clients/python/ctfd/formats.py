"""Values as text, as gdb prints them (`ctfd.values` reads the values)."""
from .values.formats import Formatter, Style, Texts, flags_of

__all__ = ["Formatter", "Style", "Texts", "flags_of"]
