"""`--svg`: each box has the position and width of its member; `--svg-sizes`: areas are bytes."""
import subprocess
import unittest
import xml.etree.ElementTree as ET
from typing import Dict, List, NamedTuple

from ctfd.layout.places import Layout

from .support import EXAMPLES, WithService, run, staged_dictionaries
from .tools import whole_of, write_dictionary

LUA = str(EXAMPLES / "lua.ctf")
SVG = "{http://www.w3.org/2000/svg}"
WIDTH, MARGIN = 896, 64


class Box(NamedTuple):
    name: str
    start: int
    bits: int
    sort: str
    x: float
    y: float
    wide: float
    high: float


def boxes_of(made: str) -> List[Box]:
    """The boxes of a picture."""
    boxes: List[Box] = []
    for group in ET.fromstring(made).iter(f"{SVG}g"):
        rect = group.find(f"{SVG}rect")
        assert rect is not None
        numbers = [float(rect.get(key, "")) for key in ("x", "y", "width", "height")]
        boxes.append(Box(group.get("data-name", ""), int(group.get("data-start", "")),
                         int(group.get("data-bits", "")), rect.get("class", "").split()[1],
                         *numbers))
    return boxes


class Pictures(WithService):
    def check_boxes(self, boxes: List[Box], layout: Layout, row_bits: int) -> None:
        """Asserts that boxes are in proportion, and match the members of the layout."""
        scale = WIDTH / row_bits
        total: Dict[str, int] = {}
        for box in boxes:
            self.assertAlmostEqual(box.x, MARGIN + box.start % row_bits * scale, 2)
            self.assertAlmostEqual(box.wide, box.bits * scale, 2)
            if box.sort not in ("hole", "padding"):
                total[box.name] = total.get(box.name, 0) + box.bits
        for place in layout.places:
            if place.member.name in total:
                self.assertEqual(total[place.member.name], place.bits)
                first = min(b.start for b in boxes if b.name == place.member.name)
                self.assertEqual(first, place.start)

    def test_members_are_where_they_lie(self) -> None:
        whole = whole_of(self, LUA)
        for name in ("struct lua_Debug", "struct CallInfo", "struct TString", "struct luaL_Reg"):
            (number,) = whole.names.types_named(name)
            layout = whole.catalog.layout(number)
            boxes = boxes_of(run("--svg", name, LUA).stdout)
            self.check_boxes(boxes, layout, 8 * min(64, -(-layout.size // 8) * 8))
            holes = sum(box.bits for box in boxes if box.sort == "hole" and "." not in box.name)
            self.assertEqual(holes, 8 * sum(layout.holes), name)

    def test_nothing_overlaps_but_groups(self) -> None:
        boxes = [b for b in boxes_of(run("--svg", "struct lua_State", LUA).stdout)
                 if b.sort != "group"]
        for place, one in enumerate(boxes):
            for other in boxes[place + 1:]:
                apart = (one.x + one.wide <= other.x + .01 or other.x + other.wide <= one.x + .01
                         or one.y + one.high <= other.y + .01
                         or other.y + other.high <= one.y + .01)
                self.assertTrue(apart, (one, other))

    def test_bit_fields_to_the_bit(self) -> None:
        path = write_dictionary(self, staged_dictionaries("bits.jsonl")[0])
        whole = whole_of(self, path)
        boxes = boxes_of(run("--svg", "struct flags", path).stdout)
        told = [(b.name, b.start, b.bits, b.sort) for b in boxes]
        self.assertEqual(told, [("ready", 0, 1, "bits"), ("mode", 1, 3, "bits"),
                                ("padding", 4, 28, "padding")])
        self.check_boxes(boxes, whole.catalog.layout(whole.names.types_named("struct flags").pop()),
                         64)

    def test_lines_of_one_member_are_left_out(self) -> None:
        made = run("--svg", "struct LoadF", LUA).stdout
        self.assertIn("cache lines more of buff", made)
        self.assertLess(len(made), 20_000)

    def test_areas_are_bytes(self) -> None:
        boxes = boxes_of(run("--svg-sizes", LUA).stdout)
        each = [box.wide * box.high / box.bits for box in boxes]
        self.assertLess(max(each) / min(each), 1.02)
        self.assertGreater(len(boxes), 90)

    def test_the_command(self) -> None:
        done = run("--svg", "lua_State", LUA)
        self.assertEqual((done.returncode, done.stderr), (0, ""))
        self.assertIn("prefers-color-scheme:dark", done.stdout)
        done = run("--svg", "lua_Number", LUA)
        self.assertEqual((done.returncode, done.stdout), (1, ""))
        self.assertIn("is no struct or union", done.stderr)
        self.assertEqual(run("--svg-sizes", LUA, LUA).returncode, 2)
        self.assertIsInstance(done, subprocess.CompletedProcess)


if __name__ == "__main__":
    unittest.main()
