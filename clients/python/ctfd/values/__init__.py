"""Values in a program's memory: reading them, and their parts as Python objects."""
from .parse import Characters, Leaf, Lost, Parts, Unclear, Value
from .reading import Bounds, Wanted, value, values

__all__ = ["Bounds", "Characters", "Leaf", "Lost", "Parts", "Unclear", "Value", "Wanted", "value",
           "values"]
