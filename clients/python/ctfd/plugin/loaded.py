"""Files whose types were loaded, with their addresses in gdb's program."""
from __future__ import annotations

import os
import re
from typing import Iterator, List, Optional

import gdb

import ctfd
from ..client import aliases
from ..text import printable
from ..files import compiled, source
from ..files.bundles import Description
from ..values.operands import BadExpression, Code, Located, Operand
from ..values.program import Program
from ..view.declare import declaration, function

NAMED = ("struct", "union", "enum", "typedef", "integer", "float", "forward")
WARNINGS = {
    **source.WARNINGS,
    "unread": "the file's symbol table is one of 32 bits, which is not read: a name has gdb's"
              " address and no type, so cast it, as *(TYPE *) &NAME",
}

_LIBRARY = re.compile(r"(0x[0-9a-f]+)\s+0x[0-9a-f]+\s+(?:Yes|No)\s+(?:\(\*\)\s+)?(.*)")
_ENTRY = re.compile(r"AT_ENTRY.*?(0x[0-9a-f]+)")
_PLACED = re.compile(r"Entry point: (0x[0-9a-f]+)")


class LoadedFile:
    """A file whose types were loaded, and its parent if it is a child. `is_alone` is set for a
    section by itself if gdb has no program."""

    def __init__(self, program: Program, parent: Optional[Program], is_alone: bool = False
                 ) -> None:
        self.program = program
        self.parent = parent
        self.is_main = _is_main(program)
        self.is_alone = is_alone
        self.names = aliases.of_dictionary(program.types)

    def slide(self) -> int:
        """The offset from the file's addresses to those in memory."""
        image = self.program.image
        if image is None:
            raise BadExpression(f"{self.program.path} is a section alone: it has no addresses")
        if image.is_fixed:
            return 0
        found = _slide_of_main(image) if self.is_main else self._slide_of_library()
        if found is None:
            raise BadExpression(f"{self.program.path} is not part of the program")
        return found

    def symbol(self, name: str) -> Operand:
        """The operand that a name stands for, at its address in memory. Raises NotFound."""
        if self.program.image is None or self.program.image.kind != "object":
            return self.program.symbol(name, self.slide())
        if len(self.program.symbols.get(name, [])) > 1:
            raise BadExpression(f"{self.program.path} is an object file with several symbols"
                                f" {name}: gdb's own print takes that of the file in which the"
                                " program stands")
        found = self.program.symbol(name, 0)
        assert isinstance(found, (Code, Located))
        return found._replace(address=self._address_in_gdb(name))

    def _address_in_gdb(self, name: str) -> int:
        """The address that gdb has for a name of an object file, by the file's debug file."""
        for one in gdb.objfiles():
            if one.owner is None and one.filename and \
                    _is_same_file(one.filename, self.program.path):
                found = one.lookup_global_symbol(name) or one.lookup_static_symbol(name)
                if found is not None:
                    return int(found.value().address)
        raise BadExpression(f"{self.program.path} is an object file, whose sections have no"
                            f" addresses: \"add-symbol-file\", then \"ctf load\", so that gdb tells"
                            f" that of {name}; or cast an address, as *(TYPE *) ADDRESS")

    def _slide_of_library(self) -> Optional[int]:
        """The offset of a library, by gdb's address of its section .text; None if it is not
        loaded."""
        for line in gdb.execute("info sharedlibrary", to_string=True).splitlines():
            found = _LIBRARY.match(line)
            text = self.program.image.text if self.program.image else None
            if found and text is not None and _is_same_file(found[2], self.program.path):
                return int(found[1], 16) - text
        return None

    def summary(self) -> str:
        """One line with the file, the number of its types, and its address."""
        types = self.program.types
        said = f"{self.program.path}: {types.own} types, {len(self.program.symbols)} symbols"
        if types.model != "lp64":
            said += f", {types.model}"
        elif self.is_alone:
            said += ", lp64 (gdb has no program)"
        if types.is_child and not self.parent:
            said += f", without its parent {types.parent_name}"
        try:
            slide = self.slide()
        except BadExpression:
            slide = 0
        return printable(said) + (f", at 0x{slide:x}" if slide else "")

    def warnings(self) -> List[str]:
        """Warnings about its symbols, and about names that several types have."""
        known = (WARNINGS.get(self.program.types.how, ""), printable(self.names.ambiguities()))
        return [one for one in known if one]

    def lines_naming(self, part: str) -> Iterator[str]:
        """One line for each type and symbol whose name contains `part`."""
        types = self.program.types
        own = types.types() + (self.parent.types.types() if self.parent else [])
        types.fetch([("record", t.number) for t in own])
        known = self.names.aliases
        found = [t for t in own if t.kind in NAMED and part in known.get(t.number, t.name)]
        types.fetch([(op, t.number) for t in found for op in ("name", "size")])
        for t in found:
            size = "" if t.size is None else f", {t.size} bytes"
            word = "typedef " if t.kind == "typedef" else ""
            name = t.spelled
            if t.number in known:
                name = name[:len(name) - len(t.name)] + known[t.number]
            yield f"{word}{printable(name)}{size}"
        for name in self.program.symbols:
            if part in name:
                yield self._symbol(name)

    def _symbol(self, name: str) -> str:
        try:
            operand = self.program.symbol(name, 0)
        except ctfd.Error:
            operand = None
        if isinstance(operand, Code) and operand.signature:
            return function(operand.signature, name)
        if isinstance(operand, Located):
            return declaration(operand.type, name)
        return f"{printable(name)}: its type is not known"

    def close(self) -> None:
        """Closes the dictionaries."""
        self.program.types.close()
        if self.parent:
            self.parent.types.close()


def _is_main(program: Program) -> bool:
    """Whether a file is gdb's program: the same file, or one with the same entry point."""
    main = gdb.current_progspace().filename
    if not main or program.image is None:
        return False
    if _is_same_file(main, program.path):
        return True
    try:
        image = compiled.description(main)
    except ctfd.Unreadable:
        return False
    return image is not None and bool(image.entry) and image.entry == program.image.entry


def _slide_of_main(image: Description) -> int:
    """The offset of the program, by the auxiliary vector of a process or core file, else by gdb's
    entry point."""
    try:
        found = _ENTRY.search(gdb.execute("info auxv", to_string=True))
    except gdb.error:  # not running, or not any more
        found = _PLACED.search(gdb.execute("info files", to_string=True))
    return int(found[1], 16) - image.entry if found else 0


def _is_same_file(one: str, other: str) -> bool:
    return os.path.realpath(one) == os.path.realpath(other)
