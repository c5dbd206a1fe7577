"""Splits C declarations into plain C, which the parser can read, and gcc's attributes.

The parser knows no `__attribute__`. Attributes that change a layout are written as marks that it
accepts: a member with a mark's name for those of a struct, an enumerator for those of an enum, and
a call as the width of a member for those of the member. All others are dropped.
"""
from __future__ import annotations

import re
from typing import Dict, List, NamedTuple, Optional, Tuple

from ..client.faults import Error

MARK = "__ctfd_attributes_"
PLAIN = {"__const": "const", "__const__": "const", "__volatile": "volatile",
         "__volatile__": "volatile", "__restrict": "restrict", "__restrict__": "restrict",
         "__inline": "inline", "__inline__": "inline", "__signed__": "signed",
         "__signed": "signed", "__extension__": "", "__alignof__": "_Alignof",
         "__complex__": "_Complex", "__builtin_va_list": "void *", "_Thread_local": "",
         "__thread": ""}
DROPPED = {"__asm__", "asm", "__asm"}
ATTRIBUTE = ("__attribute__", "__attribute")
WORDS = ("struct", "union", "enum")
UNKNOWN = ("mode", "vector_size", "ms_struct", "scalar_storage_order")
OPEN, CLOSE = "([{", ")]}"

_TOKEN = re.compile(r"""
    /\*.*?\*/ | //[^\n]* | ^[ \t]*\#[^\n]*                  # comments, lines of the preprocessor
  | "(?:\\.|[^"\\])*" | '(?:\\.|[^'\\])*'
  | [A-Za-z_]\w* | \.?\d(?:[eEpP][+-]|[\w.])* | \.\.\. | <<=? | >>=?
  | [-+*/%&|^=!<>]= | -> | && | \|\| | \+\+ | -- | \n | \S""",
                    re.VERBOSE | re.DOTALL | re.MULTILINE)
_ATTRIBUTE = re.compile(r"(\w+)\s*(?:\((.*)\))?\s*\Z", re.DOTALL)


class Attributes(NamedTuple):
    """Attributes that change a layout. `aligned` has one expression for each alignment that was
    given, or "" for the greatest one of the machine."""

    packed: bool = False
    aligned: Tuple[str, ...] = ()

    def join(self, other: Attributes) -> Attributes:
        """The attributes of both."""
        return Attributes(self.packed or other.packed, self.aligned + other.aligned)


class PlainText(NamedTuple):
    """C text without attributes, with the attributes of each mark and of each typedef, by name."""

    text: str
    marks: Dict[str, Attributes]
    typedefs: Dict[str, Attributes]


class _Body(NamedTuple):
    """A body in braces: the word in front of it, and the index of its brace in the output."""

    word: str
    opens: int


class _Writer:
    """Copies tokens to the output, without attributes."""

    def __init__(self, tokens: List[str]) -> None:
        self.tokens = tokens
        self.at = 0
        self.out: List[str] = []
        self.bodies: List[_Body] = []
        self.marks: Dict[str, Attributes] = {}
        self.typedefs: Dict[str, Attributes] = {}
        self.of_body = Attributes()       # given before the body opens
        self.of_all = Attributes()        # given before the declarators
        self.of_one = Attributes()        # given after a declarator
        self.head = ""                    # struct, union or enum, until its body opens
        self.starts = 0                   # index in the output at which the declaration begins
        self.closed: Optional[_Body] = None

    def run(self) -> PlainText:
        while self.at < len(self.tokens):
            self._token()
        return PlainText(" ".join(self.out), self.marks, self.typedefs)

    def _token(self) -> None:
        token = self.tokens[self.at]
        if token in ATTRIBUTE:
            self._attribute()
            return
        self.at += 1
        if token in DROPPED:
            self._skip()
        elif token == "_Alignas":
            self.of_all = self.of_all.join(_alignas(self._skip()))
        elif token == "{":
            self._open()
        elif token == "}":
            self._close()
        elif token in "([":
            self.closed = None
            self.out += [token, *self._inside(), CLOSE[OPEN.index(token)]]
        elif token in ",;":
            self._end(token)
        else:
            self._word(token)

    def _word(self, token: str) -> None:
        if token != "\n":
            self.closed = None
        if token in WORDS:
            self.head = token
        elif self.head and not re.match(r"\w", token):
            self.head = "" if token != "\n" else self.head
        self.out.append(PLAIN.get(token, token))

    def _inside(self) -> List[str]:
        """The tokens up to the end of a bracket, without attributes."""
        found: List[str] = []
        depth = 1
        while self.at < len(self.tokens):
            token = self.tokens[self.at]
            self.at += 1
            if token in ATTRIBUTE or token in DROPPED:
                self._skip()
                continue
            depth += (token in OPEN) - (token in CLOSE)
            if not depth:
                return found
            found.append(PLAIN.get(token, token))
        raise Error("a bracket is not closed")

    def _skip(self) -> List[str]:
        """Skips a bracket, if one follows, and returns its tokens."""
        while self.at < len(self.tokens) and self.tokens[self.at] in ("\n", "volatile"):
            self.at += 1
        if self.at == len(self.tokens) or self.tokens[self.at] != "(":
            return []
        self.at += 1
        return self._inside()

    # Bodies.

    def _open(self) -> None:
        word, self.head = self.head, ""
        if not word and self.out and self._last() == ")" and not self.bodies:
            self._inside()  # the body of a function
            self.out.append(";")
            self._start()
            return
        if not word:
            self.out += ["{", *self._inside(), "}"]
            return
        self.bodies.append(_Body(word, len(self.out)))
        self.out.append("{")
        self._mark_body(self.bodies[-1], self.of_body)
        self.of_body = Attributes()
        self._start()

    def _last(self) -> str:
        return next((token for token in reversed(self.out) if token != "\n"), "")

    def _close(self) -> None:
        if not self.bodies:
            raise Error("a brace is closed that was not opened")
        self.closed = self.bodies.pop()
        self.out.append("}")
        self.starts = len(self.out)  # what follows has its own attributes

    def _mark_body(self, body: _Body, said: Attributes) -> None:
        if said == Attributes():
            return
        mark = self._mark(said)
        text = f"{mark} = -1 ," if body.word == "enum" else f"int {mark} ;"
        self.out[body.opens] += f" {text}"

    def _mark(self, said: Attributes) -> str:
        mark = f"{MARK}{len(self.marks)}"
        self.marks[mark] = said
        return mark

    # Attributes.

    def _attribute(self) -> None:
        self.at += 1
        said = _read(" ".join(self._skip()))
        if self.bodies and self.bodies[-1].word == "enum":
            return
        if self.closed is not None:
            self._mark_body(self.closed, said)
        elif self.head and self._last() == self.head:
            self.of_body = self.of_body.join(said)
        elif self._is_behind():
            self.of_one = self.of_one.join(said)
        else:
            self.of_all = self.of_all.join(said)

    def _is_behind(self) -> bool:
        """Whether the attribute follows a declarator, at its end."""
        following = self.at
        while following < len(self.tokens):
            token = self.tokens[following]
            if token in (",", ";", "=", ":"):
                return True
            if token not in ("\n", *ATTRIBUTE):
                return False
            following += 1
            if token in ATTRIBUTE:
                following = self._behind_bracket(following)
        return True

    def _behind_bracket(self, at: int) -> int:
        depth = 0
        while at < len(self.tokens):
            token = self.tokens[at]
            depth += (token in OPEN) - (token in CLOSE)
            at += 1
            if not depth and token in CLOSE:
                break
        return at

    # Declarators.

    def _end(self, token: str) -> None:
        """Ends a declarator: writes its attributes as a mark, or saves them for a typedef."""
        said = self.of_all.join(self.of_one)
        self.of_one = Attributes()
        if said != Attributes():
            if self.bodies and self.bodies[-1].word != "enum":
                self._mark_member(said)
            elif not self.bodies:
                self._mark_typedef(said)
        self.out.append(token)
        self.closed = None
        self.head = ""
        if token == ";":
            self._start()

    def _start(self) -> None:
        self.of_all = self.of_one = Attributes()
        self.starts = len(self.out)
        self.closed = None

    def _mark_member(self, said: Attributes) -> None:
        """Writes a member's attributes as its width: a call of the mark, with the width if it has
        one."""
        mark = self._mark(said)
        begins = len(self.out)
        while begins > self.starts and self.out[begins - 1] not in (",", ":", "?"):
            begins -= 1
        if begins > self.starts and self.out[begins - 1] == ":":
            self.out[begins:] = [mark, "(", *self.out[begins:], ")"]
        else:
            self.out += [":", mark, "(", ")"]

    def _mark_typedef(self, said: Attributes) -> None:
        """Saves the attributes of a typedef, whose name is the last one outside brackets."""
        depth = 0
        for token in reversed(self.out):
            depth += (token in CLOSE) - (token in OPEN) if len(token) == 1 else 0
            if not depth and re.match(r"[A-Za-z_]", token):
                self.typedefs[token] = said
                return


def _read(text: str) -> Attributes:
    """The attributes in the text between the brackets that change layouts. Raises Error."""
    found = Attributes()
    inner = text.strip()
    inner = inner[1:-1] if inner.startswith("(") else inner
    for one in _split(inner):
        word = _ATTRIBUTE.match(one.strip())
        if word is None:
            continue
        name = word[1].strip("_")
        if name == "packed":
            found = found._replace(packed=True)
        elif name == "aligned":
            found = found.join(Attributes(aligned=((word[2] or "").strip(),)))
        elif name in UNKNOWN:
            raise Error(f"the attribute {name} is not known here: state the type by ctfd.build")
    return found


def _alignas(inside: List[str]) -> Attributes:
    """The alignment that `_Alignas` gives: a number, or that of a type."""
    text = " ".join(inside)
    is_type = all(re.match(r"[A-Za-z_*\n]", token) for token in inside)
    return Attributes(aligned=(f"_Alignof ( {text} )" if is_type else text,))


def _split(text: str) -> List[str]:
    """The parts of a text between commas that are not inside brackets."""
    parts, depth = [""], 0
    for character in text:
        depth += (character in OPEN) - (character in CLOSE)
        if character == "," and not depth:
            parts.append("")
        else:
            parts[-1] += character
    return parts


def without_attributes(text: str) -> PlainText:
    """Splits a text into plain C and attributes. Raises Error."""
    tokens = [token for token in _TOKEN.findall(text) if not token.startswith(("/*", "//"))]
    for token in tokens:
        line = token.strip()
        if line.startswith("#") and not re.match(r"#\s*(\d|line|pragma|ident)", line):
            raise Error(f"{line}: preprocess the text first, as gcc -E does")
    return _Writer([t for t in tokens if not t.strip().startswith("#")]).run()
