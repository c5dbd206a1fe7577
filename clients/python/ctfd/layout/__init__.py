"""Layouts: offsets and holes of members, and the table of types that `ctfd.build` fills."""
from .places import Layout, Place, layout

__all__ = ["Layout", "Place", "layout"]
