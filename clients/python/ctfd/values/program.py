"""A program with its dictionary, which turns names into operands once the program's offset in
memory is known."""
from __future__ import annotations

from dataclasses import dataclass, field
from typing import Callable, Dict, List, Optional

from ..client.dictionary import Dictionary, open_source
from ..client.faults import Error, NotFound
from ..client.model import Model
from ..client.session import Session
from ..files import anyfile, compiled
from ..files.anyfile import FileOptions
from ..files.bundles import Bundle, Description, Symbol
from .operands import Code, Located, Operand

Reader = Callable[[str, Optional[Description]], Bundle]


@dataclass
class Program:
    """A file, its types, and its symbols by name.

    `image` describes the ELF file. It is None for a section by itself, whose names have no
    addresses.
    """

    path: str
    types: Dictionary
    image: Optional[Description] = None
    symbols: Dict[str, List[Symbol]] = field(default_factory=dict)

    def symbol(self, name: str, slide: int) -> Operand:
        """The operand that a name stands for in a program that runs `slide` bytes after its
        addresses.

        If several symbols have the name, it is the first with a type. Raises NotFound.
        """
        refused: Error = Error(f"{self.path} has no symbol {name}")
        for symbol in self.symbols.get(name, []):
            address = symbol.address + slide
            try:
                if symbol.is_function:
                    return Code(self.types.function(symbol.number), address)
                return Located(self.types.object(symbol.number).gather(), address)
            except NotFound as fault:
                refused = fault
        raise refused


def read_program(path: str, _: Optional[Description] = None) -> Bundle:
    """The dictionaries of a file, with the addresses of its symbols. Raises Unreadable."""
    return anyfile.read(path, FileOptions(with_addresses=True))


def open_program(session: Session, path: str, model: Optional[Model] = None,
                 read: Reader = read_program) -> Program:
    """Opens the dictionary of a file, which `read` reads; `model` is that of a section by itself.
    """
    image = compiled.description(path)
    found = read(path, image)
    source = found.sources[0]
    types = open_source(session, source._replace(model=source.model or model))
    program = Program(path, types, image)
    if types.how != "refused":
        for symbol in found.symbols:
            program.symbols.setdefault(symbol.name, []).append(symbol)
    return program
