"""C expressions and linked lists, with a few bytes as the program's memory."""
import struct
import unittest
from typing import Dict

import ctfd
from ctfd.client.types import PointerTo
from ctfd.values.expressions import evaluate, tokens
from ctfd.values.linked import follow
from ctfd.values.operands import BadExpression, Code, Located, Number, Operand, Steps
from ctfd.values.parse import Leaf, Parts
from ctfd.values.reading import Bounds
from ctfd.view.declare import declaration

from .support import (INTEGER, POINTER, STRUCT, WithService, array, dictionary, integer, member,
                      record)

NAMES = b"\0int\0node\0number\0next\0link\0char\0low\0high\0"
INT, NODE, NUMBER, NEXT, LINK, CHAR, LOW, HIGH = 1, 5, 10, 17, 22, 27, 32, 36
START = 0x1000


class Memory:
    """A target whose memory is some bytes from START on."""

    def __init__(self, types: ctfd.Dictionary, data: bytes, names: Dict[str, Operand]) -> None:
        self.types = types
        self.data = data
        self.names = names

    def read(self, address: int, length: int) -> bytes:
        data = self.data[address - START:address - START + length] if address >= START else b""
        if length and not data:
            raise BadExpression(f"no memory at 0x{address:x}")
        return data

    def register(self, name: str) -> int:
        return {"sp": START}[name]

    def symbol(self, name: str) -> Operand:
        if name not in self.names:
            raise BadExpression(f"no symbol {name}")
        return self.names[name]

    def find(self, name: str) -> ctfd.Type:
        return self.types.find(name)


class Tokens(unittest.TestCase):
    def test_tokens(self) -> None:
        self.assertEqual(tokens("*(struct a_1 *)$rdi->b[0x1F].c + 'x.0'"),
                         ["*", "(", "struct", "a_1", "*", ")", "$rdi", "->", "b", "[", "0x1F", "]",
                          ".", "c", "+", "'x.0'"])
        with self.assertRaisesRegex(BadExpression, "what is '; b'"):
            tokens("a ; b")


class Nodes(WithService):
    """struct node { int number; struct node *next; struct { int low:3, high:5; } link[2]; }"""

    def setUp(self) -> None:
        super().setUp()
        node = member(NUMBER, 1, 0) + member(NEXT, 2, 64) + member(LINK, 6, 128)
        bits = [record(INTEGER, 0, 4, INT, struct.pack("<I", 1 << 24 | width)) for width in (3, 5)]
        both = member(LOW, 4, 0) + member(HIGH, 5, 3)
        types = self.open_dictionary(dictionary(
            [integer(INT), record(POINTER, 0, 3), record(STRUCT, 3, 24, NODE, node), *bits,
             array(7, 2), record(STRUCT, 2, 4, 0, both)], NAMES))
        data = b"".join(struct.pack("<ixxxxQII", number, following, 0b11101_010, 1)
                        for number, following in ((1, START + 24), (2, START + 48), (3, 0)))
        node_type = types.type(3)
        self.target = Memory(types, data, {
            "first": Located(node_type, START), "nodes": Located(PointerTo(node_type), START + 8),
            "main": Code(None, 0x99)})

    def evaluate(self, expression: str) -> Operand:
        return evaluate(expression, self.target)

    def number(self, expression: str) -> int:
        return Steps(self.target).number(self.evaluate(expression))

    def test_members_and_elements(self) -> None:
        for expression, number in (
                ("first.number", 1), ("first.next->number", 2), ("first.next->next->number", 3),
                ("(*first.next).number", 2), ("nodes[1].number", 3), ("nodes->number", 2),
                ("first.link[0].high", -3), ("first.link[1].low", 1), ("first.link->low", 2),
                ("(first.next + 1)->number", 3), ("(first.next - 1)->number", 1),
                ("((struct node *) $sp)[2].number", 3), ("*(int *) 0x1018", 2),
                ("*(&first.number + 6)", 2), ("first.number + first.next->number", 3)):
            self.assertEqual(self.number(expression), number, expression)

    def test_addresses_and_casts(self) -> None:
        self.assertEqual(self.number("&first.next->next"), START + 32)
        self.assertEqual(self.number("(int) 0x1ffffffff"), 0xFFFFFFFF)
        self.assertEqual(self.number("(int) - 1"), 0xFFFFFFFF)
        self.assertEqual(self.number("(first.number) - 1"), 0)
        said = self.evaluate("&first")
        assert isinstance(said, Number) and said.type
        self.assertEqual(declaration(said.type), "struct node *")

    def test_a_whole_struct(self) -> None:
        told = Steps(self.target).read(self.evaluate("nodes[1].link"))
        self.assertEqual(told, Parts([Parts([Leaf("2"), Leaf("-3")], 2),
                                      Parts([Leaf("1"), Leaf("0")], 2)], 2))

    def test_what_is_wrong_is_said(self) -> None:
        for expression, said in (
                ("", "no expression"), ("first.", "not complete"), ("first.nothing", "no member"),
                ("first.number.x", "no struct"), ("*first", "no number and no pointer"),
                ("first number", "what is 'number'"), ("(first", r"\) is wanted"),
                ("&first.link[0].low", "bit-field"), ("*12", "cast it"), ("nothing", "no symbol"),
                ("&12", "in memory"), ("(struct node) 1", "no cast"), ("nodes[", "not complete"),
                ("*(int *) 0", "no memory"), ("(" * 100 + "1" + ")" * 100, "deeper")):
            with self.assertRaisesRegex(BadExpression, said):
                self.number(expression)
        with self.assertRaises(ctfd.NotFound):
            self.evaluate("(struct other *) 1")

    def test_many_prefixes(self) -> None:
        self.assertEqual(self.number("-" * 5000 + "1"), 1)

    def test_a_list(self) -> None:
        followed = follow(Steps(self.target), self.evaluate("first"), "next", None, Bounds())
        self.assertEqual([node.address for node in followed.nodes],
                         [START, START + 24, START + 48])
        self.assertEqual((followed.back, followed.more, followed.lost), (None, False, None))
        again = follow(Steps(self.target), self.evaluate("nodes"), "next", None, Bounds(elements=1))
        self.assertEqual((len(again.nodes), again.more), (1, True))

    def test_a_list_that_goes_in_a_circle(self) -> None:
        data = bytearray(self.target.data)
        data[56:64] = struct.pack("<Q", START + 24)
        self.target.data = bytes(data)
        followed = follow(Steps(self.target), self.evaluate("&first"), "next", None, Bounds())
        self.assertEqual((len(followed.nodes), followed.back), (3, 1))
        data[56:64] = struct.pack("<Q", 0xDEAD0000)
        self.target.data = bytes(data)
        followed = follow(Steps(self.target), self.evaluate("&first"), "next", None, Bounds())
        self.assertEqual((len(followed.nodes), followed.lost), (3, 0xDEAD0008))


class EmbeddedLinks(WithService):
    def test_links_within_nodes(self) -> None:
        """struct node { int number; struct link { struct link *next, *previous; } link; }"""
        link = member(NEXT, 2, 0) + member(LOW, 2, 64)
        node = member(NUMBER, 1, 0) + member(LINK, 3, 64)
        types = self.open_dictionary(dictionary(
            [integer(INT), record(POINTER, 0, 3), record(STRUCT, 2, 16, HIGH, link),
             record(STRUCT, 2, 24, NODE, node)], NAMES))
        data = struct.pack("<QQ", START + 24, 0)
        data += struct.pack("<ixxxxQQ", 7, START + 48, 0) + struct.pack("<ixxxxQQ", 8, START, 0)
        target = Memory(types, data, {"head": Located(types.type(3), START)})
        followed = follow(Steps(target), target.symbol("head"), "link", types.type(4), Bounds())
        self.assertEqual([node.address for node in followed.nodes], [START + 16, START + 40])
        self.assertEqual([node.value.items[0] for node in followed.nodes
                          if isinstance(node.value, Parts)], [Leaf("7"), Leaf("8")])


if __name__ == "__main__":
    unittest.main()
