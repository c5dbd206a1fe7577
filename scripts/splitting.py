"""Splits a lowered module into parts that are compiled at the same time.

A function of our crates is in the part of its crate. The kit's functions, most of them instances of
generic ones, are copied into each part that reaches them. So are short functions of another part,
so that they can be inlined as in a single module. A long one is called across parts: it gets a
hidden name that begins with `ctfd__`.
"""
from __future__ import annotations

import re
from dataclasses import dataclass, field
from typing import Iterable, Iterator, Mapping, Optional

from kit import KitDiffers
from module import NAME, Function, Module

COMMANDS, ARGUMENTS, DUMP = "commands", "arguments", "dump"
LINES, SERVICE, FORMAT = "lines", "service", "format"
LIBRARY = (LINES, SERVICE, FORMAT)
# The crates that read lines and write replies, and those that have the state of sessions; the
# crates that these use are in the third part of the library.
LINE_CRATES = {"ctf_answers", "ctf_json", "ctf_lines", "ctf_protocol", "ctf_wire"}
SERVICE_CRATES = {"ctf_broker", "ctf_library"}
SERVICE_MODULE = "ctf_c::service::"
DUMP_CRATE, PARSER_CRATE = "ctf_dump", "clap"
# The length, in characters, below which a function is copied into a part that calls it. The parts
# are in the order of their compile times: the longest begins first.
COPIED = {LINES: 16_000, FORMAT: 16_000, SERVICE: 16_000, ARGUMENTS: 1_500, COMMANDS: 1_500,
          DUMP: 16_000}
# Arguments are parsed only once.
LEVELS = {ARGUMENTS: "-O1"}
# Functions with one caller in a part that answers lines, but several in the module. clang would
# inline them there, and `kind` would take 5 instructions more (of 2,006), `add` 17 (of 4,378).
CALLED_ONCE = {
    LINES: {"ctf_library::library::Library::publication",
            "std_collections::btree_map::BTreeMap::entry::<#c312d2f088fea71f>",
            "std_collections::btree_map::BTreeMap::remove::<#07eaafc46783443d>"},
    SERVICE: {"ctf_layout::figures::resolve", "ctf_library::library::Library::publication",
              "ctf_protocol::publications::PublicationName::new",
              "std_alloc::vec::Vec::clear::<#801cbce5afdc7ab8>",
              "std_collections::btree_map::BTreeMap::entry::<#c312d2f088fea71f>",
              "std_collections::btree_map::BTreeMap::remove::<#07eaafc46783443d>"},
}
# An export's parameters and result: numbers, bools and pointers, which C passes in the same way.
CROSSING = re.compile(r'internal (?:noundef )?(?:void|i32) @"[^"]*"'
                      r'\((?:(?:ptr|i8|i16|i32|i64|i1)(?: noundef| zeroext)*(?: %\w+)?(?:, )?)*\)')
HINT = re.compile(" (?:alwaysinline|inlinehint|noinline)(?= #)")


@dataclass
class Part:
    """A part: the functions and constants in it, and the functions that it calls in other parts."""

    included: set[str] = field(default_factory=set)
    called: set[str] = field(default_factory=set)


class Split:
    """A module in parts. `exports` has the C name of each exported function."""

    def __init__(self, module: Module, own: Iterable[str], exports: Mapping[str, str]) -> None:
        missing = [name for name in exports if name not in module.functions]
        if missing:
            raise KitDiffers(f"{len(missing)} exports of {len(exports)} are not in the module")
        self.module, self.exports = module, exports
        self.own = {*own, PARSER_CRATE}
        self.for_c = reachable(module, exports)
        self.shared: set[str] = set()
        self.parts = {name: Part() for name in COPIED}
        self._fill()

    def part_of(self, name: str) -> Optional[str]:
        """The part of a function; None if it is copied."""
        crate = name.partition("::")[0]
        if name == "main":
            return COMMANDS
        if crate not in self.own:
            return None
        if name not in self.for_c:
            return {DUMP_CRATE: DUMP, PARSER_CRATE: ARGUMENTS}.get(crate, COMMANDS)
        if crate in LINE_CRATES:
            return LINES
        is_service = crate in SERVICE_CRATES or name.startswith(SERVICE_MODULE)
        return SERVICE if is_service else FORMAT

    def _is_copied(self, function: Function, into: str) -> bool:
        """Whether a function of another part is copied into this one."""
        if " noinline" in function.head:
            return False
        is_hinted = " alwaysinline" in function.head or " inlinehint" in function.head
        return is_hinted or len(function.body) < COPIED[into]

    def _fill(self) -> None:
        """Puts into each part what its roots reach."""
        waiting = [(self.part_of(name), name) for name in ("main", *self.exports)]
        while waiting:
            place, name = waiting.pop()
            if place is None:
                raise KitDiffers(f"{name} is of no crate of this repository")
            if name in self.parts[place].included:
                continue
            self.parts[place].included.add(name)
            for used in self.module.uses[name]:
                waiting.append((self._place_for(place, used), used))

    def _place_for(self, place: str, used: str) -> str:
        """The part for something that a part uses: itself, or the other part, which it then calls.
        No other part calls the commands."""
        function = self.module.functions.get(used)
        home = self.part_of(used) if function else None
        if not function or home in (None, place, COMMANDS) or self._is_copied(function, place):
            return place
        assert home
        self.parts[place].called.add(used)
        if used not in self.exports:
            self.shared.add(used)
        return home

    def _with_outer_names(self, text: str) -> str:
        """Text in which exported and shared functions have their outer names."""
        def name_of(found: re.Match[str]) -> str:
            name = found[1] or found[2]
            if name in self.exports:
                return f"@{self.exports[name]}"
            return f'@"ctfd__{name}"' if name in self.shared else found[0]
        return NAME.sub(name_of, text)

    def _definition(self, place: str, function: Function) -> str:
        """A function: visible from outside in its own part, and internal in copies."""
        name, head = function.name, function.head
        if self.part_of(name) == place and name in self.exports:
            if not CROSSING.match(head):
                raise KitDiffers(f"an export has other parameters than numbers: {head}")
            head = head.replace("internal ", "", 1)
        elif self.part_of(name) == place and name in self.shared:
            head = head.replace("internal ", "hidden ", 1)
        if name in CALLED_ONCE.get(place, ()):
            head = HINT.sub("", head).replace(" #", " noinline #", 1)
        return f"define {self._with_outer_names(head + function.body)}"

    def _declaration(self, name: str) -> str:
        is_export = name in self.exports
        head = HINT.sub("", self.module.functions[name].head)[:-1]
        head = head.replace("internal ", "" if is_export else "hidden ")
        return f"declare {self._with_outer_names(head)}"

    def text(self, place: str) -> Iterator[str]:
        """The text of a part."""
        part, module = self.parts[place], self.module
        yield module.front
        yield from (line for name, line in module.constants.items() if name in part.included)
        for name, function in module.functions.items():
            if name in part.included:
                yield self._definition(place, function)
        yield from (f"{self._declaration(name)}\n" for name in sorted(part.called))
        yield module.rest


def reachable(module: Module, roots: Iterable[str]) -> set[str]:
    """The names that these refer to, directly or indirectly."""
    found: set[str] = set()
    waiting = list(roots)
    while waiting:
        name = waiting.pop()
        if name not in found:
            found.add(name)
            waiting += module.uses[name]
    return found
