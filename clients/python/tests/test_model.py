"""Data models: programs with pointers of 4 bytes, compared with 8."""
import struct
import tempfile
import unittest
from typing import Any, Optional

import ctfd
from ctfd.client.model import Model, POINTER_SIZES, of_pointers
from ctfd.client.types import FunctionOf, PointerTo
from ctfd.values.expressions import evaluate
from ctfd.values.linked import follow
from ctfd.values.operands import BadExpression, Located, Operand, Steps, Untold
from ctfd.values.parse import Leaf, Lost, Parts
from ctfd.values.program import open_program
from ctfd.values.reading import Bounds, Wanted, values

from .support import (EXAMPLES, FUNCTION, POINTER, STRUCT, WithService, array, dictionary, integer,
                      member, record, staged_dictionaries)
from .test_expressions import START, Memory
from .test_source import BITS_32, elf

NAMES = b"\0int\0node\0number\0next\0"
INT, NODE, NUMBER, NEXT = 1, 5, 10, 17
HERE = str(EXAMPLES / "lua.ctf")


class Sizes(WithService):
    """int, int *, an array of three of these, and a function that returns int."""

    def dictionary_of(self, model: Optional[Model]) -> ctfd.Dictionary:
        records = [integer(INT), record(POINTER, 0, 1), array(2, 3), record(FUNCTION, 0, 1)]
        return self.open_dictionary(dictionary(records, NAMES), model)

    def test_pointers_functions_and_arrays(self) -> None:
        for model, size in POINTER_SIZES.items():
            types = self.dictionary_of(model)
            self.assertEqual((types.model, types.pointer_size), (model, size))
            self.assertEqual([types.type(t).size for t in (2, 3)], [size, 3 * size])
            self.assertEqual([types.type(t).align for t in (2, 3, 4)], [size] * 3)

    def test_types_that_are_made_here(self) -> None:
        for model, size in POINTER_SIZES.items():
            types = self.dictionary_of(model)
            pointer = types.find("int **")
            self.assertEqual((pointer.size, pointer.align), (size, size))
            function = FunctionOf(types.type(4).signature)
            self.assertEqual((function.size, function.align), (0, types.type(4).align))

    def test_addresses_end_where_pointers_do(self) -> None:
        for model, size in POINTER_SIZES.items():
            self.assertEqual(self.dictionary_of(model).address(-1), (1 << 8 * size) - 1)

    def test_none_is_lp64(self) -> None:
        self.assertEqual(self.dictionary_of(None).model, "lp64")
        self.assertEqual(ctfd.open_file(self.session, HERE).model, "lp64")

    def test_a_model_that_the_caller_says(self) -> None:
        types = ctfd.open_file(self.session, HERE, model="ilp32")
        self.assertEqual((types.model, types.find("lua_State *").size), ("ilp32", 4))

    def test_a_section_by_itself_is_of_the_program_that_is_said(self) -> None:
        for model in POINTER_SIZES:
            self.assertEqual(open_program(self.session, HERE, model).types.model, model)
        with tempfile.NamedTemporaryFile() as file:
            file.write(elf((EXAMPLES / "lua.ctf").read_bytes(), shape=BITS_32))
            file.flush()
            self.assertEqual(open_program(self.session, file.name, "lp64").types.model, "ilp32")

    def test_a_pointer_s_size_tells_the_model(self) -> None:
        self.assertEqual([of_pointers(size) for size in (8, 4, 2)], ["lp64", "ilp32", None])


class Parents(WithService):
    def test_both_are_of_one_model(self) -> None:
        one, other = staged_dictionaries("parent.jsonl")[:2]
        for model, size in POINTER_SIZES.items():
            parent, child = self.open_dictionary(one, model), self.open_dictionary(other, model)
            child.import_parent(parent)
            self.assertEqual(child.type(0x8001).size, size)

    def test_two_models(self) -> None:
        one, other = staged_dictionaries("parent.jsonl")[:2]
        with self.assertRaises(ctfd.Refused) as caught:
            self.open_dictionary(other, "ilp32").import_parent(self.open_dictionary(one))
        self.assertEqual((caught.exception.code, caught.exception.name), (60, "ModelDiffers"))
        self.assertIn("open both with the data model", str(caught.exception))

    def test_a_publication_has_its_model(self) -> None:
        slot = self.open_dictionary(dictionary([integer(INT)], NAMES), "ilp32").slot
        self.session.ask("publish", d=slot, name="base")
        taken = ctfd.taken(self.client.session(), self.session.number, "base")
        self.assertEqual(taken.model, "ilp32")


class Drafts(WithService):
    def draft_of(self, model: Optional[Model]) -> ctfd.Dictionary:
        """struct { char c; int *p; char d; }, whose members have no given offset."""
        slot = self.session.create(model=model)["d"]

        def add(what: str, **fields: Any) -> None:
            self.session.ask("add", d=slot, what=what, **fields)

        add("integer", size=1, encoding=3, offset=0, bits=8)
        add("pointer", type=1)
        add("struct")
        for name, t in (("c", 1), ("p", 2), ("d", 1)):
            add("member", t=3, name=name, type=t)
        self.session.ask("update", d=slot)
        return ctfd.Dictionary(self.session, slot)

    def test_members_are_placed_by_the_model(self) -> None:
        for model, size in POINTER_SIZES.items():
            types = self.draft_of(model)
            self.assertEqual(types.model, model)
            self.assertEqual([m.offset for m in types.type(3).members], [0, 8 * size, 16 * size])
            self.assertEqual(types.type(3).size, 2 * size + 1)
        self.assertEqual(self.draft_of(None).model, "lp64")

    def test_a_draft_over_a_parent(self) -> None:
        parent = self.draft_of("ilp32").slot
        slot = self.session.create(parent, 'a "parent"\xff', "label")["d"]
        child = ctfd.Dictionary(self.session, slot)
        self.assertEqual((child.model, child.is_child), ("ilp32", True))
        self.assertEqual((child.parent_name, child.parent_label), ('a "parent"\xff', "label"))
        with self.assertRaises(ctfd.Refused) as caught:
            self.session.create(parent, "p", model="lp64")
        self.assertEqual(caught.exception.name, "ModelDiffers")


class Narrow(WithService):
    """struct node { int number; struct node *next; } of 8 bytes: one, and two others in a row."""

    def setUp(self) -> None:
        super().setUp()
        node = member(NUMBER, 1, 0) + member(NEXT, 2, 32)
        self.types = self.open_dictionary(dictionary(
            [integer(INT), record(POINTER, 0, 3), record(STRUCT, 2, 8, NODE, node)],
            NAMES), "ilp32")
        data = struct.pack("<iIiIiI", 1, START + 8, 2, START + 16, 3, 0)
        self.target = Memory(self.types, data, {
            "first": Located(self.types.type(3), START),
            "unknown": Untold("unknown", START + 8, "nothing tells its type")})

    def evaluate(self, expression: str) -> Operand:
        return evaluate(expression, self.target)

    def number(self, expression: str) -> int:
        return Steps(self.target).number(self.evaluate(expression))

    def test_values(self) -> None:
        told = Steps(self.target).read(self.evaluate("*first.next"))
        self.assertEqual(told, Parts([Leaf("2"), Leaf("0x00001010")], 2))

    def test_a_pointer_that_the_dictionary_has_not(self) -> None:
        made = PointerTo(self.types.type(2))
        wanted = [Wanted(made, START + 4), Wanted(made, START + 22)]
        self.assertEqual(values(wanted, self.target.read),
                         [Leaf("0x00001008"), Lost("ShortMemory")])

    def test_members_and_elements(self) -> None:
        for expression, number in (
                ("first.next->next->number", 3), ("first.next[1].number", 3),
                ("(first.next - 1)->number", 1), ("*(int *) ($sp + 8)", 2)):
            self.assertEqual(self.number(expression), number, expression)

    def test_addresses_end_at_32_bits(self) -> None:
        for expression, address in (
                ("(struct node *) 0 - 1", 0xFFFF_FFF8), ("(struct node *) -1", 0xFFFF_FFFF),
                ("&((struct node *) 0x10000fffc)->next", 0x1_0000), ("&first.next[-1]", START)):
            self.assertEqual(self.number(expression), address, expression)

    def test_a_list(self) -> None:
        followed = follow(Steps(self.target), self.evaluate("first"), "next", None, Bounds())
        self.assertEqual([node.address for node in followed.nodes], [START, START + 8, START + 16])
        self.assertEqual((followed.back, followed.more, followed.lost), (None, False, None))

    def test_a_symbol_without_a_type_is_cast(self) -> None:
        for expression, number in (("unknown", START + 8), ("&unknown", START + 8),
                                   ("((struct node *) &unknown)->number", 2),
                                   ("((struct node *) unknown)->number", 2)):
            self.assertEqual(self.number(expression), number, expression)
        for expression in ("*unknown", "unknown.number", "unknown->number"):
            with self.assertRaisesRegex(BadExpression, "cast it"):
                self.evaluate(expression)


if __name__ == "__main__":
    unittest.main()
