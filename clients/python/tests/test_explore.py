"""`ctfd-explore`: the page in a real browser, as a reader uses it."""
import base64
import json
import os
import re
import shutil
import tempfile
import unittest
from pathlib import Path
from typing import Any, Dict

from .browser import CHROMIUM, Browser
from .support import EXAMPLES, PROGRAM, STRUCT, WithService, dictionary, integer, member, record
from .tools import command, convert_object, whole_of, write_dictionary

LUA = str(EXAMPLES / "lua.ctf")
BITS = "typedef unsigned word; struct s { word a : 3, b : 5; char c : 8; char d; word e; } s;"
EVIL = b"<script>window.bad=1</script></script><img src=x onerror=bad=1>\"'&"


CODE = """
struct point { int x, y; }; typedef struct point *where;
int count; struct point first; const char *const names[4];
int move(struct point *p, where to, ...) { return p == to; }
void none(void) { }
"""


def page(*words: str) -> str:
    """The output of the command."""
    done = command("ctfd-explore", *words)
    assert (done.returncode, done.stderr) == (0, ""), done.stderr
    return done.stdout


def told_in(made: str) -> Dict[str, Any]:
    """The types and symbols in a page."""
    told = json.loads(re.findall(r"json\">(.*?)</script>", made)[0])
    assert isinstance(told, dict)
    return told


class Page(WithService):
    def test_what_stands_in_the_page_is_escaped(self) -> None:
        made = page(write_dictionary(self, evil()))
        self.assertEqual(made.count("<script"), 2)
        self.assertEqual(made.count("</script>"), 2)
        self.assertEqual(re.findall(r"(?:src|href)\s*=\s*[\"'](?!data:,)\w+:", made), [])
        told = told_in(made)
        self.assertIn(EVIL.decode(), [row[1] for row in told["types"]])

    def test_a_parent_is_there_once(self) -> None:
        told = told_in(page(LUA, LUA))
        self.assertEqual(len(told["types"]), 2 * 526 + 1)
        self.assertTrue(all(told["types"]))
        with tempfile.TemporaryDirectory() as folder:
            own = convert_object(folder, "own", "struct own { struct lua_State *p; } own;")
            child = f"{folder}/child.ctf"
            done = command("ctfd-convert", "--lossy", "--parent", LUA, own, child)
            self.assertEqual(done.returncode, 0, done.stderr)
            told = told_in(page("--parent", LUA, child, child))
        self.assertEqual([file[0] for file in told["files"]], [LUA, child, child])
        self.assertEqual([file[2] for file in told["files"]], [1, 0x8001, 0x8001])
        self.assertTrue(all(told["types"]))

    def test_functions_and_variables(self) -> None:
        told = told_in(page(convert_object(self.folder_of_files(), "symbols", CODE)))
        names = [row[1] for row in told["types"]]
        kinds = [told["kinds"][row[0]] for row in told["types"]]
        self.assertEqual({row[0] for row in told["objects"]}, {"count", "first", "names"})
        by_name = {row[0]: row[1:] for row in told["functions"]}
        returns, takes, is_open, file = by_name["move"]
        self.assertEqual((names[returns], is_open, file), ("int", 1, 0))
        self.assertEqual([kinds[one] for one in takes], ["pointer", "typedef"])
        self.assertEqual(by_name["none"], [0, [], 0, 0])

    def test_hidden_copies_of_bit_fields_are_known(self) -> None:
        path = convert_object(self.folder_of_files(), "bits.c", BITS)
        told = told_in(page(path))
        by_name = [row[1] for row in told["types"]]
        self.assertEqual({by_name[one] for one in told["copies"]}, {"unsigned int", "word", "char"})
        self.assertEqual(by_name.count("word") - 1, sum(by_name[one] == "word"
                                                        for one in told["copies"]))

    def folder_of_files(self) -> str:
        folder = tempfile.mkdtemp()
        self.addCleanup(shutil.rmtree, folder)
        return folder

    def test_the_command(self) -> None:
        with tempfile.TemporaryDirectory() as folder:
            done = command("ctfd-explore", LUA, "-o", f"{folder}/page.html")
            self.assertEqual((done.returncode, done.stdout, done.stderr), (0, "", ""))
            self.assertGreater(os.path.getsize(f"{folder}/page.html"), 30_000)
            done = command("ctfd-explore", LUA, "-o", f"{folder}/no/page.html")
            self.assertEqual((done.returncode, done.stderr.count("\n")), (1, 1))


def evil() -> bytes:
    """A struct and a member whose names are markup, and a name of control characters."""
    names = b"\0int\0" + EVIL + b"\0\x1b[2J\x07\xff\0"
    second = 5 + len(EVIL) + 1
    return dictionary([integer(1), record(STRUCT, 1, 4, 5, member(5, 1, 0)),
                       record(STRUCT, 1, 4, second, member(second, 1, 0))], names)


@unittest.skipUnless(CHROMIUM and PROGRAM, "no chromium or no service here")
class InBrowser(WithService):
    browser: Browser
    folder: str

    @classmethod
    def setUpClass(cls) -> None:
        cls.folder = tempfile.mkdtemp()
        cls.addClassCleanup(shutil.rmtree, cls.folder)
        cls.browser = Browser()
        cls.addClassCleanup(cls.browser.close)

    def open_page(self, path: str) -> Browser:
        """Opens the page of a file."""
        place = Path(self.folder) / "page.html"
        place.write_text(page(path))
        self.browser.errors.clear()
        self.browser.open(str(place))
        return self.browser

    def title(self) -> Any:
        return self.browser.value("document.querySelector('h1').textContent")

    def test_search_follow_and_go_back(self) -> None:
        page = self.open_page(LUA)
        page.press("/")
        self.assertEqual(page.value("document.activeElement.id"), "search")
        page.write("callinfo")
        page.until("document.querySelectorAll('#found a').length === 2")
        page.press("Enter")
        page.until("document.title === 'struct CallInfo' || document.title === 'CallInfo'")
        page.value("location.hash = document.querySelectorAll('#found a')[0].hash")
        page.until("document.querySelector('#picture') !== null")
        page.value("[...document.querySelectorAll('#declaration a')].find("
                   "a => a.textContent === 'lua_KFunction').click()")
        page.until("document.title === 'lua_KFunction'")
        page.value("history.back()")
        page.until("document.title.endsWith('CallInfo')")
        held = page.value("document.querySelector('#held').textContent")
        self.assertIn("struct lua_State at 96 CallInfo base_ci".replace(" ", ""),
                      held.replace(" ", ""))
        self.assertIn("struct CallInfo *previous",
                      page.value("document.querySelector('#pointed').textContent"))
        self.assertEqual(page.errors, [])

    def test_a_member_by_its_name(self) -> None:
        """A result names the struct of the member; the address is the name of the type."""
        page = self.open_page(LUA)
        page.press("/")
        page.write("nresults")
        page.until("document.querySelectorAll('#found a').length > 0")
        found = page.value("[...document.querySelectorAll('#found a')].map(a => a.textContent)")
        self.assertIn("struct CallInfo.nresults", found)
        links = page.value("[...document.querySelectorAll('#found a')].map(a => a.hash)")
        self.assertEqual(links[found.index("struct CallInfo.nresults")], "#struct%20CallInfo")
        page.value("location.hash = '#struct%20CallInfo'")
        page.until("document.title === 'struct CallInfo'")
        hashes = page.value("[...document.querySelectorAll('#declaration a')].map(a => a.hash)")
        self.assertIn("#lua_KFunction", hashes)
        self.assertEqual([one for one in hashes if one[:2] == "#t" and one[2:].isdecimal()], [])
        self.assertEqual(page.errors, [])

    def test_functions_variables_and_near_names(self) -> None:
        page = self.open_page(convert_object(self.folder, "symbols", CODE))
        page.press("/")
        page.write("mov")
        page.until("document.querySelectorAll('#found a').length === 1")
        page.press("Enter")
        page.until("document.title === 'move'")
        self.assertEqual(page.value("document.querySelector('#declaration').textContent"),
                         "int move(struct point *, where, ...);")
        page.value("location.hash = '#struct%20point'")
        page.until("document.title === 'struct point'")
        self.assertIn("first", page.value("document.querySelector('#taken').textContent"))
        page.press("/")
        page.write("poimt")
        page.until("document.querySelectorAll('#found .more').length === 1")
        self.assertIn("struct point", page.value("document.querySelector('#found').textContent"))
        self.assertEqual(page.errors, [])

    def test_boxes_are_where_members_are(self) -> None:
        page = self.open_page(LUA)
        whole = whole_of(self, LUA)
        for name in ("struct lua_Debug", "struct CallInfo", "struct global_State"):
            (number,) = whole.names.types_named(name)
            page.value(f"location.hash = '#t{number}'")
            page.until(f"document.title === '{name}'")
            drawn = page.value(BOXES)
            told: Dict[str, int] = {}
            for one, start, bits, x, wide in drawn:
                told[one] = told.get(one, 0) + bits
                self.assertAlmostEqual(x, start % 512 * 896 / 512, 3)
                self.assertAlmostEqual(wide, bits * 896 / 512, 3)
            for place in whole.catalog.layout(number).places:
                if place.member.name != "strcache":  # lines with nothing else are left out
                    self.assertEqual(told[place.member.name], place.bits, place.member.name)
        self.assertEqual(page.errors, [])

    def test_copies_of_bit_fields_are_not_listed(self) -> None:
        page = self.open_page(convert_object(self.folder, "bits.c", BITS))
        names = page.value("[...document.querySelectorAll('#found a')].map(a => a.textContent)")
        self.assertEqual(names, ["char", "struct s", "unsigned int", "word"])
        page.value("location.hash = '#struct%20s'")
        page.until("document.title === 'struct s'")
        self.assertIn("char c:8;",
                      page.value("document.querySelector('#declaration').textContent"))
        self.assertEqual(page.errors, [])

    def test_names_are_no_markup(self) -> None:
        page = self.open_page(write_dictionary(self, evil()))
        page.value("location.hash = '#t2'")
        page.until("document.title.includes('<script>')")
        self.assertIsNone(page.value("window.bad"))
        self.assertEqual(page.value("document.querySelectorAll('img').length"), 0)
        page.value("location.hash = '#t3'")
        page.until("document.title.includes('x1b')")
        self.assertIn("\\x1b[2J\\x07\\xff", self.title())
        self.assertEqual(page.errors, [])

    def test_it_is_seen_in_two_widths_light_and_dark(self) -> None:
        page = self.open_page(LUA)
        page.value("location.hash = '#t'")
        seen = set()
        for wide in (1280, 480):
            for scheme in ("light", "dark"):
                page.looks(wide, 800, scheme)
                self.assertFalse(page.value("document.documentElement.scrollWidth > innerWidth"))
                seen.add(page.value("getComputedStyle(document.body).backgroundColor"))
                self.assertGreater(len(base64.b64decode(page.picture())), 5000)
        self.assertEqual(len(seen), 2)


BOXES = """[...document.querySelectorAll('#picture g')].map(g => [g.dataset.name,
 Number(g.dataset.start), Number(g.dataset.bits),
 Number(g.querySelector('rect').getAttribute('x')) - 56,
 Number(g.querySelector('rect').getAttribute('width'))])"""


if not os.environ.get("CTFD_BROWSER"):
    del InBrowser  # these tests need a large package, so they run only on request


if __name__ == "__main__":
    unittest.main()
