"""The commands of the plug-in: each is a class, whose docstring is its help in gdb."""
from __future__ import annotations

from typing import Optional, Union

import gdb

import ctfd
from ..client.nearest import suggestion
from ..text import printable
from ..values import expressions, formats, linked, spelling
from ..values.operands import BadExpression, Code, Located, Number, Operand, Steps, Untold
from ..view.declare import declaration, declarator, function

from . import native
from .debug_files import description_of
from .inferior import Inferior, has_program
from .loaded import LoadedFile
from .state import STATE, bounds, style

LINES = 500
GIVEN = native.GiveTypes()
UNTYPED = "<text variable, no type>"


def print_text(target: Inferior, operand: Operand, hexadecimal: bool = False) -> str:
    """The text of an operand, as gdb prints it."""
    if isinstance(operand, Code):
        said = spelling.gdb_spelling(declaration_of(operand))
        return f"{{{said}}} {gdb.format_address(operand.address)}"
    if isinstance(operand, Untold):
        raise untold(operand)
    if operand.type is None:
        return hex(operand.number) if hexadecimal else str(operand.number)
    t = operand.type.gather()
    at = operand.address if isinstance(operand, Located) else None
    if t.resolved.kind == "function" and at is not None:
        return f"{{{spelling.of_type(t)}}} {gdb.format_address(at)}"
    if t.resolved.kind == "void":
        raise BadExpression("void has no value: cast the pointer")
    if t.size is None:
        return "<incomplete type>"
    told = Steps(target).read(operand, bounds())
    return formats.Formatter(target, style(hexadecimal)).top(t, told, at)


def untold(symbol: Untold) -> BadExpression:
    """The error for a symbol whose type is needed and not known."""
    return BadExpression(f"{symbol.name}: {symbol.why}; cast its address, as"
                         f" *(TYPE *) &{symbol.name}")


def missing(error: ctfd.NotFound) -> str:
    """gdb's message for a type that was not found, with similar names."""
    name = str(error.fields.get("text", ""))
    if not name:
        return str(error)
    word, _, rest = name.partition(" ")
    said = (f"No {word} type named {rest}." if word in expressions.TAGS
            else f"No symbol \"{name}\" in current context.")
    known = [known for one in STATE.loaded for known in one.program.types.names()]
    return said + suggestion(name, known).replace("; the", "  The") + ("." if known else "")


def declaration_of(found: Union[ctfd.Type, Operand]) -> str:
    """The C declaration of a type or an operand."""
    if isinstance(found, Untold):
        raise untold(found)
    if isinstance(found, Code):
        return function(found.signature, "") if found.signature else UNTYPED
    if isinstance(found, (Located, Number)):
        return declaration(found.type) if found.type else "<number>"
    return declaration(found)


def type_or_operand(target: Inferior, text: str) -> Union[ctfd.Type, Operand]:
    """The type with a name, or else the value of the expression."""
    words = text.split()
    if not words:
        raise BadExpression("a type or an expression is wanted")
    try:
        return target.find(text)
    except ctfd.NotFound:
        if words[0] in expressions.TAGS:
            raise
        return expressions.evaluate(text, target)


class Command(gdb.Command):
    """A command of the plug-in; exceptions of the package become errors of gdb."""

    word = ""

    def __init__(self) -> None:
        super().__init__(f"ctf {self.word}", gdb.COMMAND_DATA, gdb.COMPLETE_SYMBOL)

    def invoke(self, arguments: str, from_tty: bool) -> None:
        try:
            self.run(arguments.strip())
        except ctfd.Gone as error:
            advice = "; load the files again" if STATE.service else ""
            STATE.close()
            raise gdb.GdbError(printable(str(error)) + advice)
        except ctfd.NotFound as error:
            raise gdb.GdbError(printable(missing(error)))
        except ctfd.Error as error:
            raise gdb.GdbError(printable(str(error)))
        except RecursionError:
            raise gdb.GdbError("values of this type lie too deep in each other: ask for a part")

    def run(self, arguments: str) -> None:
        raise NotImplementedError


class Ctf(gdb.Command):
    """Types and values from a program's CTF: ctf load FILE first."""

    def __init__(self) -> None:
        super().__init__("ctf", gdb.COMMAND_DATA, prefix=True)


class Load(Command):
    """ctf load [--auto] [FILE [PARENT]]: loads the types of a file; without FILE, of the program.

    FILE is an ELF file with a section .SUNW_ctf or .ctf, or such a section by itself. If an ELF
    file has neither section, its debug information is converted, also from a separate debug file.
    If there is none, the stores that CTFD_STORE names are asked for its build-id. PARENT is the
    file with the parent of FILE's dictionary. A file that is already loaded is read again.

    For a program or library that gdb has read, gdb itself gets the types too, so that print,
    ptype/o, conditions, finish and call work, unless you have said "set ctf-debuginfo off". With
    --auto, gdb also gets the types of each file with CTF that it reads later; stores are not asked
    for these."""

    word = "load"

    def run(self, arguments: str) -> None:
        words = gdb.string_to_argv(arguments)
        if words[:1] == ["--auto"]:
            self.follow()
            words = words[1:]
            if not words and not gdb.current_progspace().filename:
                return
        words = words or [gdb.current_progspace().filename or ""]
        if words == [""]:
            raise BadExpression("No executable file specified.  Use the \"file\" command, or"
                                " \"ctf load FILE\".")
        found = STATE.open(words[0])
        parent = STATE.open(words[1], found.types.model) if len(words) > 1 else None
        one = LoadedFile(found, parent, found.image is None and not has_program())
        try:
            if parent:
                found.types.import_parent(parent.types)
        except ctfd.Error:
            one.close()
            raise
        STATE.forget([old for old in STATE.loaded if old.program.path == found.path])
        STATE.loaded.insert(0, one)
        print("\n".join([one.summary(), *one.warnings()]))
        if GIVEN.value:
            self.give(found.path, parent.path if parent else None)

    def give(self, path: str, parent: Optional[str] = None) -> None:
        """Gives gdb the types of a file, and prints the result or the error."""
        try:
            told = native.give(path, parent)
        except ctfd.Error as error:
            told = f"gdb's own commands don't know these types: {error}"
        if told:
            print(printable(told))

    def follow(self) -> None:
        """Gives gdb the types of the files that it has read, and of each file that it reads
        later."""
        for one in gdb.objfiles():
            self.follow_one(one)
        if not STATE.follows:
            STATE.follows = True
            gdb.events.new_objfile.connect(lambda event: self.follow_one(event.new_objfile))

    def follow_one(self, one: gdb.Objfile) -> None:
        if one.owner is not None or not one.filename:
            return
        image = description_of(one.filename)
        if image and image.has_ctf:
            self.give(one.filename)


class Unload(Command):
    """ctf unload [FILE]: forgets the types of a file, or of all files."""

    word = "unload"

    def run(self, arguments: str) -> None:
        words = gdb.string_to_argv(arguments)
        gone = [one for one in STATE.loaded if not words or one.program.path == words[0]]
        if words and not gone:
            raise BadExpression(f"{words[0]} is not loaded")
        STATE.forget(gone)
        if not STATE.loaded:
            STATE.close()


class Info(Command):
    """ctf info: the loaded files, their addresses in memory, and the number of requests."""

    word = "info"

    def run(self, arguments: str) -> None:
        for one in STATE.loaded:
            print(one.summary())
        if STATE.service is None:
            print("No types are loaded.")
            return
        client, _ = STATE.service
        print(f"the service is {client.where}: {client.requests} requests in"
              f" {client.rounds} rounds")


class Ptype(Command):
    """ctf ptype TYPE: the definition of a type, with offsets, sizes and holes.

    Also takes an expression, whose type it prints."""

    word = "ptype"

    def run(self, arguments: str) -> None:
        found = type_or_operand(STATE.target(), arguments)
        t = found.type if isinstance(found, (Located, Number)) else found
        if t is None or isinstance(t, (Code, Untold)):
            print(f"type = {declaration_of(found)}")
            return
        base = declarator(t.gather()).base.resolved
        print(ctfd.listing(base if base.kind in ("struct", "union", "enum") else t))


class Whatis(Command):
    """ctf whatis EXPR: the type of an expression; for a typedef, the type that it names."""

    word = "whatis"

    def run(self, arguments: str) -> None:
        found = type_or_operand(STATE.target(), arguments)
        if isinstance(found, ctfd.Type) and found.kind == "typedef":
            found = found.reference
        print(f"type = {declaration_of(found)}")


class Print(Command):
    """ctf print[/x] EXPR: the value of an expression, as gdb prints it.

    An expression has names, numbers, $registers, *, &, casts (TYPE) EXPR, ., ->, [N], + and -."""

    word = "print"

    def run(self, arguments: str) -> None:
        hexadecimal = arguments.startswith("/x")
        if arguments.startswith("/") and not hexadecimal:
            raise BadExpression("the one format is /x")
        target = STATE.target()
        expression = arguments[2:] if hexadecimal else arguments
        print(print_text(target, expressions.evaluate(expression, target), hexadecimal))
        if not STATE.is_hinted and native.knows(expression):
            STATE.is_hinted = True
            print("(gdb's own print knows this type too)")


class List(Command):
    """ctf list HEAD MEMBER [TYPE]: the nodes of a linked list.

    HEAD is a node or a pointer to one, and MEMBER its pointer to the next. With TYPE, MEMBER is a
    link inside TYPE that points to the next link, and HEAD is the list's own link. Quote an
    argument that has blanks: ctf list "(struct node *) $rdi" next"""

    word = "list"

    def run(self, arguments: str) -> None:
        words = gdb.string_to_argv(arguments)
        if len(words) not in (2, 3):
            raise BadExpression("ctf list HEAD MEMBER [TYPE]")
        target = STATE.target()
        head = expressions.evaluate(words[0], target)
        inside = target.find(words[2]) if len(words) == 3 else None
        followed = linked.follow(Steps(target), head, words[1], inside, bounds())
        for line in followed.lines(formats.Formatter(target, style())):
            print(line)


class Find(Command):
    """ctf find TEXT: the types and symbols whose names contain TEXT."""

    word = "find"

    def run(self, arguments: str) -> None:
        if not arguments:
            raise BadExpression("ctf find TEXT")
        STATE.target()
        told = [line for one in STATE.loaded for line in one.lines_naming(arguments)]
        print("\n".join(told[:LINES]) or f"nothing has {arguments} in its name")
        if len(told) > LINES:
            print(f"... and {len(told) - LINES} more")


def register() -> None:
    """Registers the commands with gdb."""
    Ctf()
    for command in (Load, Unload, Info, Ptype, Whatis, Print, List, Find):
        command()
