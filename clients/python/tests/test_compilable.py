"""`--c`: gcc accepts the declarations, and its `sizeof` and `offsetof` match the dictionary."""
import re
import shutil
import struct
import subprocess
import tempfile
import unittest
from typing import Iterator

from ctfd.layout.records import AGGREGATES

from .support import (CONST, EXAMPLES, STRUCT, WithService, array, dictionary, integer, member,
                      pointer, record, run, staged_dictionaries)
from .tools import CONVERTS, WHY_NOT, convert_object, whole_of, write_dictionary
from .whole import WholeFile


FORMS = """
typedef const char letter;
struct __attribute__((packed)) odd {
    unsigned five : 5; unsigned all : 32; unsigned long more : 64;
};
struct forms {
    void (*unsaid)(); void (*none)(void); int (*some)(int, ...); unsigned whole : 32;
    const letter *twice; const letter *const *deep; _Float16 half; _Decimal64 money; int tail[];
} *forms; struct odd odd; struct inside { int none[0]; int end; } inside;
extern char unknown[]; char *at(void) { return unknown; } char unknown[3];
"""


TAGGED = re.compile(r"^(struct|union|enum) (\w+) \{$", re.M)
RENAMED = re.compile(r"^typedef (?!struct \{ char ctfd_bytes).*?\b(\w+)(?:\)\(.*\))?(?:\[\d+\])*;$",
                     re.M)
NUMBERED = re.compile(r"(?:ctfd_|.*__)(\d+)\Z")


def is_identifier(name: str) -> bool:
    return re.fullmatch(r"[A-Za-z_]\w*", name, re.A) is not None and name not in ("for", "int")


def number_of(whole: WholeFile, word: str, name: str) -> int:
    """The number of the type with this declaration."""
    catalog = whole.catalog
    told = NUMBERED.match(name)
    if told and int(told[1]) in catalog.own and catalog[int(told[1])].kind == word:
        return int(told[1])
    return next(n for n in catalog.own if catalog[n].kind == word and catalog[n].name == name)


def assertions(whole: WholeFile, code: str) -> Iterator[str]:
    """Assertions for gcc: each size, and each offset that C can ask for."""
    declared = [(word, name, f"{word} {name}") for word, name in TAGGED.findall(code)]
    known = [whole.catalog[n].name for n in whole.catalog.own if whole.catalog[n].kind == "typedef"]
    declared += [("typedef", name, name) for name in RENAMED.findall(code)
                 if known.count(name) == 1]
    for word, name, called in declared:
        number = number_of(whole, word, name)
        size = whole.catalog.size(number)
        if size and whole.catalog.span(number)[2] is None:
            yield f"_Static_assert(sizeof({called}) == {size}, \"{called}\");"
        if word in AGGREGATES and f"{called} {{\n\t/* C can not" not in code:
            for place in whole.catalog.layout(number).places:
                if is_identifier(place.member.name) and place.width is None:
                    yield (f"_Static_assert(__builtin_offsetof({called}, {place.member.name})"
                           f" == {place.start // 8}, \"{called}.{place.member.name}\");")


@unittest.skipUnless(shutil.which("gcc"), "no gcc here")
class Gcc(WithService):
    def check_declarations(self, path: str) -> "tuple[str, int]":
        """The declarations, and the number of assertions about them."""
        code = run("--c", path).stdout
        facts = list(assertions(whole_of(self, path), code))
        done = subprocess.run(["gcc", "-x", "c", "-fsyntax-only", "-Wno-attributes", "-"],
                              input=code + "\n".join(facts) + "\n", capture_output=True,
                              text=True)
        self.assertEqual((done.returncode, done.stderr), (0, ""))
        return code, len(facts)

    def test_lua_and_zlib(self) -> None:
        for name, least in (("lua.ctf", 500), ("zlib.ctf", 150)):
            code, count = self.check_declarations(str(EXAMPLES / name))
            self.assertNotIn("can not say", code)
            self.assertGreater(count, least)

    def test_bit_fields(self) -> None:
        code, _ = self.check_declarations(write_dictionary(self,
                                                           staged_dictionaries("bits.jsonl")[0]))
        self.assertIn("unsigned int mode: 3;", code)

    def test_places_that_are_not_c_s_own(self) -> None:
        """An int at offset 1, holes before and after it, and a member with a greater alignment."""
        names = b"\0int\0odd\0a\0b\0wide\0"
        odd = record(STRUCT, 2, 12, 5, member(9, 1, 8) + member(11, 1, 56))
        wide = record(STRUCT, 2, 64, 13, member(9, 1, 0) + member(11, 2, 256))
        whole = dictionary([integer(1), odd, wide], names)
        code, count = self.check_declarations(write_dictionary(self, whole))
        self.assertIn("packed", code)
        self.assertEqual(count, 6)

    def test_names_that_are_none_in_c(self) -> None:
        names = b"\0int\0a b\0*/ x\0for\0s\0"
        bad = record(STRUCT, 3, 12, 5, member(9, 1, 0) + member(14, 1, 32) + member(14, 1, 64))
        twice = [record(STRUCT, 1, 4, 18, member(18, 1, 0)) for _ in range(2)]
        whole = dictionary([integer(1), bad, *twice], names)
        code, _ = self.check_declarations(write_dictionary(self, whole))
        self.assertIn("struct ctfd_2 {", code)
        self.assertIn("int ctfd_member_0; /* * / x */", code)
        self.assertIn("struct s__4 {", code)

    def test_members_that_overlap_are_told(self) -> None:
        over = record(STRUCT, 2, 8, 5, member(5, 1, 0) + member(1, 1, 16))
        whole = dictionary([integer(1), over], b"\0int\0s\0")
        code, _ = self.check_declarations(write_dictionary(self, whole))
        self.assertIn("C can not say its members", code)

    def test_a_struct_that_doubles_at_each_level(self) -> None:
        records = [integer(1)]
        for level in range(2, 100):
            two = struct.pack("<IHHIHH", 0, level - 1, 0, 0, level - 1, 0)
            records.append(record(STRUCT, 2, 8, 5 if level == 99 else 0, two))
        code, _ = self.check_declarations(write_dictionary(self,
                                                           dictionary(records, b"\0int\0s\0")))
        self.assertLess(len(code.splitlines()), 100_000)

    def test_many_dimensions(self) -> None:
        records = [integer(1), *(array(t, 2) for t in range(1, 9)),
                   record(STRUCT, 1, 1024, 5, member(5, 9, 0))]
        self.check_declarations(write_dictionary(self, dictionary(records, b"\0int\0s\0")))

    @unittest.skipUnless(CONVERTS, WHY_NOT)
    def test_what_a_programmer_wrote(self) -> None:
        folder = tempfile.mkdtemp()
        self.addCleanup(shutil.rmtree, folder)
        code, _ = self.check_declarations(convert_object(folder, "forms", FORMS))
        for line in ("void (*unsaid)();", "void (*none)(void);", "int (*some)(int, ...);",
                     "unsigned int whole: 32;", "letter *twice;", "letter *const *deep;",
                     "typedef const char letter;", "_Float16 half;", "_Decimal64 money;",
                     "int tail[];", "int none[0];", "unsigned int all: 32;",
                     "long unsigned int more: 64;"):
            self.assertIn(f"{line}\n", code)
        self.assertNotIn("const const", code)

    def test_a_qualifier_is_said_once(self) -> None:
        names = b"\0char\0s\0m\0"
        twice = [integer(1, 8, 1), record(CONST, 0, 1), record(CONST, 0, 2), pointer(3),
                 record(CONST, 0, 4), record(CONST, 0, 5),
                 record(STRUCT, 1, 8, 6, member(8, 6, 0))]
        code, _ = self.check_declarations(write_dictionary(self, dictionary(twice, names)))
        self.assertIn("const char *const m;", code)


if __name__ == "__main__":
    unittest.main()
