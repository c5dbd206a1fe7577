"""Declarations and listings: as C writes them, and with pahole's offsets and holes."""
import re
import shutil
import struct
import subprocess
import tempfile
import unittest
from typing import List

import ctfd
from ctfd.client.types import QUALIFIERS

from .support import (EXAMPLES, STRUCT, TOOLS, WithService, dictionary, integer, object_file,
                      record, staged_dictionaries)

DEBUG = """\
struct lua_Debug {
	int                        event;                /*     0     4 */

	/* XXX 4 bytes hole, try to pack */

	const char *               name;                 /*     8     8 */
	const char *               namewhat;             /*    16     8 */
	const char *               what;                 /*    24     8 */
	const char *               source;               /*    32     8 */
	size_t                     srclen;               /*    40     8 */
	int                        currentline;          /*    48     4 */
	int                        linedefined;          /*    52     4 */
	int                        lastlinedefined;      /*    56     4 */
	unsigned char              nups;                 /*    60     1 */
	unsigned char              nparams;              /*    61     1 */
	char                       isvararg;             /*    62     1 */
	char                       istailcall;           /*    63     1 */
	/* --- cacheline 1 boundary (64 bytes) --- */
	short unsigned int         ftransfer;            /*    64     2 */
	short unsigned int         ntransfer;            /*    66     2 */
	char                       short_src[60];        /*    68    60 */
	/* --- cacheline 2 boundary (128 bytes) --- */
	struct CallInfo *          i_ci;                 /*   128     8 */

	/* size: 136, cachelines: 3, members: 17 */
	/* sum members: 132, holes: 1, sum holes: 4 */
	/* last cacheline: 8 bytes */
};"""

MATCH = """\
struct MatchState {
	const char *src_init;
	const char *src_end;
	const char *p_end;
	lua_State *L;
	int matchdepth;
	unsigned char level;
	struct {
		const char *init;
		ptrdiff_t len;
	} capture[32];
};"""

FLAGS = """\
struct flags {
	unsigned int               ready:1;              /*     0: 0  1 */
	unsigned int               mode:3;               /*     0: 1  1 */

	/* size: 4, cachelines: 1, members: 2 */
	/* padding: 3 */
	/* bit_padding: 4 bits */
	/* last cacheline: 4 bytes */
};"""

# pahole takes the bytes of an enum for bits, and reads the dimensions of an array from the inside.
OTHERS = {"expdesc", "global_State", "inflate_state"}


class Declarations(WithService):
    def test_all_types_are_declared_as_the_service_spells_them(self) -> None:
        """Arguments are not compared, which the service leaves out, nor are qualifiers of arrays,
        which C puts at the elements, and the service in front, as libctf does."""
        for name in ("lua.ctf", "zlib.ctf"):
            types = self.example(name).types()
            for t in types:
                said = ctfd.declaration(t).replace("{...}", "(anon)")
                if "(" not in said.replace("(anon)", "").replace("(*", "") \
                        and not self.qualifies_an_array(t):
                    self.assertEqual(said, t.spelled)

    def qualifies_an_array(self, t: ctfd.Type) -> bool:
        while t.kind in ("pointer", "array", *QUALIFIERS):
            inner = t.contents if t.kind == "array" else t.reference
            if t.kind in QUALIFIERS and inner.kind == "array":
                return True
            t = inner
        return False

    def test_the_qualifiers_of_an_array_are_those_of_what_it_holds(self) -> None:
        types = [t for name in ("lua.ctf", "zlib.ctf") for t in self.example(name).types()]
        told = {ctfd.declaration(t) for t in types if self.qualifies_an_array(t)}
        self.assertLessEqual({"const luaL_Reg [5]", "const char *const [37]", "const char [0]",
                              "char *const [10]"}, told)
        self.assertFalse([text for text in told if "const const" in text])

    def test_functions(self) -> None:
        types = self.example("lua.ctf")
        handler = types.find("struct sigaction").member("__sigaction_handler").type
        told = ctfd.declaration(handler.member("sa_sigaction").type, "act")
        self.assertEqual(told, "void (*act)(int, siginfo_t *, void *)")
        self.assertEqual(ctfd.definition(types.find("lua_CFunction")),
                         "typedef int (*lua_CFunction)(lua_State *);")

    def test_an_enum(self) -> None:
        opened = self.open_dictionary(staged_dictionaries("struct.jsonl")[0])
        self.assertEqual(ctfd.definition(opened.find("enum color")),
                         "enum color {\n\tred   = 0,\n\tgreen = 1,\n\tnone  = -1,\n};")


class Listings(WithService):
    def test_holes_and_cache_lines(self) -> None:
        self.assertEqual(ctfd.listing(self.example("lua.ctf").find("struct lua_Debug")), DEBUG)

    def test_c_alone(self) -> None:
        self.assertEqual(ctfd.definition(self.example("lua.ctf").find("struct MatchState")), MATCH)

    def test_bit_fields(self) -> None:
        flags = self.open_dictionary(staged_dictionaries("bits.jsonl")[0]).find("struct flags")
        self.assertEqual(ctfd.listing(flags), FLAGS)

    def test_a_struct_that_doubles_at_each_level(self) -> None:
        records = [integer(1)]
        for level in range(2, 100):
            two = struct.pack("<IHHIHH", 0, level - 1, 0, 0, level - 1, 0)
            records.append(record(STRUCT, 2, 8, 5 if level == 99 else 0, two))
        found = self.open_dictionary(dictionary(records, b"\0int\0s\0")).find("struct s")
        self.assertLess(len(ctfd.listing(found).splitlines()), 30_000)


@unittest.skipUnless(TOOLS and shutil.which("pahole"), "no gcc, objcopy or pahole here")
class BesidePahole(WithService):
    """Compares all structs and unions with pahole, line by line, without blanks."""

    def test_lua_and_zlib(self) -> None:
        for name, count in (("lua.ctf", 61), ("zlib.ctf", 10)):
            types = self.example(name)
            listed = self.pahole(name)
            self.assertEqual(len(listed), count)
            for block in listed:
                word, tag = block.split(None, 2)[:2]
                if tag not in OTHERS:
                    mine = ctfd.listing(types.find(f"{word} {tag}"))
                    self.assertEqual(squeeze(mine), squeeze(block))

    def pahole(self, name: str) -> List[str]:
        with tempfile.TemporaryDirectory() as folder:
            made = object_file(folder, (EXAMPLES / name).read_bytes())
            said = subprocess.run(["pahole", "-F", "ctf", str(made)],
                                  capture_output=True, text=True)
        return re.findall(r"^(?:struct|union) \w+ \{\n.*?^\};", said.stdout, re.M | re.S)


def squeeze(listed: str) -> List[str]:
    """The lines without blanks between stars, and otherwise with single blanks."""
    return [re.sub(r"\s*\*(?!/)", "*", re.sub(r"\s+", " ", line)).strip()
            for line in listed.splitlines()]


if __name__ == "__main__":
    unittest.main()
