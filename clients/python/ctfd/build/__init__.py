"""C types without a compiler, laid out as by gcc: `Types`, and `declare`."""
from .types import CType, Member, Types, VOID, declare

__all__ = ["CType", "Member", "Types", "VOID", "declare"]
