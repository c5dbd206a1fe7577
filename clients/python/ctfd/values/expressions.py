"""C expressions over a stopped program, as far as they are needed to ask for values.

    EXPR    = UNARY { ('+' | '-') UNARY }
    UNARY   = ('*' | '&' | '-') UNARY | '(' TYPE ')' UNARY | POSTFIX
    POSTFIX = PRIMARY { '.' NAME | '->' NAME | '[' EXPR ']' }
    PRIMARY = NUMBER | NAME | $REGISTER | 'NAME' | '(' EXPR ')'
    TYPE    = names with stars behind them
"""
from __future__ import annotations

import re
from typing import List

from ..client.faults import NotFound
from ..client.types import QUALIFIERS
from .operands import BadExpression, Code, Number, Operand, Steps, Target

DEEPEST = 64
LONGEST = 24
TAGS = ("struct", "union", "enum")

_TOKEN = re.compile(r"\s*(->|0[xX][0-9a-fA-F]+|[0-9]+|\$?[A-Za-z_]\w*|'[^']*'|[-+*&.()\[\]])")
_NUMBER = re.compile(r"(0[xX])?[0-9a-fA-F]+\Z")
_NAME = re.compile(r"[A-Za-z_]\w*\Z")


def evaluate(expression: str, target: Target) -> Operand:
    """The value of an expression. Raises BadExpression, and what the target raises."""
    return Evaluation(expression, target).evaluate()


def tokens(expression: str) -> List[str]:
    """The tokens of an expression."""
    found: List[str] = []
    at = 0
    rest = expression.rstrip()
    while at < len(rest):
        token = _TOKEN.match(rest, at)
        if not token:
            raise BadExpression(f"what is {rest[at:].strip()!r}?")
        found.append(token[1])
        at = token.end()
    return found


class Evaluation:
    """Parses an expression from left to right, and evaluates it on the way."""

    def __init__(self, expression: str, target: Target) -> None:
        self.tokens = tokens(expression)
        self.at = 0
        self.depth = 0
        self.target = target
        self.steps = Steps(target)

    def evaluate(self) -> Operand:
        """The value of the whole expression."""
        if not self.tokens:
            raise BadExpression("there is no expression")
        found = self._sum()
        if self._next():
            raise BadExpression(f"what is {' '.join(self.tokens[self.at:])!r}?")
        return found

    def _next(self) -> str:
        """The next token, or "" at the end."""
        return self.tokens[self.at] if self.at < len(self.tokens) else ""

    def _take(self) -> str:
        token = self._next()
        if not token:
            raise BadExpression("the expression is not complete")
        self.at += 1
        return token

    def _expect(self, wanted: str) -> None:
        token = self._next()
        if token != wanted:
            raise BadExpression(f"{wanted} is wanted before {token!r}" if token
                                else f"{wanted} is wanted at the end")
        self.at += 1

    def _sum(self) -> Operand:
        self.depth += 1
        if self.depth > DEEPEST:
            raise BadExpression(f"it goes deeper than {DEEPEST}")
        found = self._unary()
        while self._next() in ("+", "-"):
            sign = 1 if self._take() == "+" else -1
            found = self.steps.move(found, sign * self.steps.number(self._unary()))
        self.depth -= 1
        return found

    def _unary(self) -> Operand:
        """The value of an operand with its prefixes, applied from the innermost outwards."""
        prefixes: List[str] = []
        while self._next() in ("*", "&", "-") or self._is_cast():
            prefixes.append(self._type() if self._next() == "(" else self._take())
        found = self._postfix()
        for prefix in reversed(prefixes):
            found = self._apply_prefix(prefix, found)
        return found

    def _apply_prefix(self, prefix: str, operand: Operand) -> Operand:
        if prefix == "*":
            return operand if isinstance(operand, Code) else self.steps.behind(operand)
        if prefix == "&":
            return self.steps.address(operand)
        if prefix == "-":
            return Number(None, -self.steps.number(operand))
        return self.steps.cast(self.target.find(prefix), operand)

    def _inside(self) -> List[str]:
        """The tokens between an opening parenthesis, which is next, and the first closing one."""
        if self._next() != "(" or ")" not in self.tokens[self.at:]:
            return []
        return self.tokens[self.at + 1:self.tokens.index(")", self.at)]

    def _is_cast(self) -> bool:
        """Whether a type in parentheses is next.

        A name alone is a cast if an operand follows. If a sign follows, as in `(x) - 1`, it is a
        cast only if a type has that name.
        """
        inside = self._inside()
        if not inside or not all(word == "*" or _NAME.match(word) for word in inside):
            return False
        behind = self.tokens[self.at + len(inside) + 2:][:1]
        if inside[0] in TAGS + QUALIFIERS or inside[-1] == "*" or len(inside) > 1:
            return inside[0] != "*"
        if not behind or behind[0] in (")", "]", ".", "->", "["):
            return False
        return behind[0] not in ("+", "-") or self._is_type(inside[0])

    def _is_type(self, name: str) -> bool:
        try:
            self.target.find(name)
        except NotFound:
            return False
        return True

    def _type(self) -> str:
        """The type of a cast."""
        inside = self._inside()
        self.at += len(inside) + 2
        return " ".join(inside)

    def _postfix(self) -> Operand:
        found = self._primary()
        while self._next() in (".", "->", "["):
            sign = self._take()
            if sign == "[":
                found = self.steps.element(found, self.steps.number(self._sum()))
                self._expect("]")
            else:
                found = self.steps.member(found, self._take())
        return found

    def _primary(self) -> Operand:
        token = self._take()
        if token == "(":
            found = self._sum()
            self._expect(")")
            return found
        if _NUMBER.match(token) and token[0].isdigit():
            if len(token) > LONGEST:
                raise BadExpression(f"{token[:LONGEST]}.. is no number of 64 bits")
            return Number(None, int(token, 0 if token[:2] in ("0x", "0X") else 10))
        if token.startswith("$"):
            return Number(None, self.target.register(token[1:]))
        if token[0] == "'" or _NAME.match(token):
            return self.target.symbol(token.strip("'"))
        raise BadExpression(f"{token!r} is no operand")
