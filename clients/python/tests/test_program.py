"""Programs with their dictionaries: symbols, types and addresses."""
import tempfile
import unittest
from pathlib import Path

from ctfd.client.faults import Error
from ctfd.client.types import Type
from ctfd.values.operands import Code, Located, Steps
from ctfd.values.program import Program, open_program
from ctfd.view.declare import declaration

from .support import EXAMPLES, WithService
from .test_source import BITS_32, LUA
from .test_source import elf as file_of

SYMBOLS, STRINGS = ((EXAMPLES / f"lua.{suffix}").read_bytes() for suffix in ("sym", "str"))


class NoProgram:
    """A target that is never used."""

    def read(self, address: int, length: int) -> bytes:
        raise Error("there is no memory")

    def register(self, name: str) -> int:
        raise Error("there are no registers")

    def symbol(self, name: str) -> Code:
        raise Error("there are no symbols")

    def find(self, name: str) -> Type:
        raise Error("there are no types")


class Lua(WithService):
    def open_program(self, data: bytes) -> Program:
        with tempfile.TemporaryDirectory() as folder:
            path = Path(folder) / "program"
            path.write_bytes(data)
            return open_program(self.session, str(path))

    def test_functions_and_objects(self) -> None:
        program = self.open_program(file_of(LUA, 2, SYMBOLS, STRINGS))
        found = program.symbol("closepaux", 0x1000)
        assert isinstance(found, Code)
        (listed,) = program.symbols["closepaux"]
        self.assertEqual(found.address, listed.address + 0x1000)
        pointer = Steps(NoProgram()).address(found)
        assert pointer.type is not None
        self.assertEqual(declaration(pointer.type), "void (*)(lua_State *, void *)")
        objects = [name for name, (first, *_) in program.symbols.items() if not first.is_function]
        held = program.symbol("lua_ident", 0)
        self.assertIn("lua_ident", objects)
        assert isinstance(held, Located)
        self.assertEqual(held.type.resolved.kind, "array")

    def test_names_that_are_none(self) -> None:
        program = self.open_program(file_of(LUA, 2, SYMBOLS, STRINGS))
        with self.assertRaisesRegex(Error, "has no symbol nothing"):
            program.symbol("nothing", 0)

    def test_a_section_by_itself(self) -> None:
        program = self.open_program(LUA)
        self.assertEqual((program.image, program.symbols), (None, {}))

    def test_a_program_of_32_bits_says_its_model_and_has_no_symbols(self) -> None:
        program = self.open_program(file_of(LUA, 2, SYMBOLS, STRINGS, BITS_32))
        self.assertEqual((program.types.model, program.types.how), ("ilp32", "unread"))
        self.assertEqual(program.symbols, {})

    def test_symbols_that_do_not_fit_are_not_used(self) -> None:
        program = self.open_program(file_of(LUA, 0, bytes(23), b"\0"))
        self.assertEqual((program.types.how, program.symbols), ("refused", {}))


    def test_a_table_that_is_cut_off(self) -> None:
        whole = self.open_program(file_of(LUA, 2, SYMBOLS, STRINGS))
        cut = self.open_program(file_of(LUA, 0, SYMBOLS + b"rest", STRINGS))
        self.assertTrue(whole.symbols and all(whole.symbols))
        self.assertEqual((cut.types.how, cut.symbols), ("refused", {}))


if __name__ == "__main__":
    unittest.main()
