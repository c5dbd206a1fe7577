"""Names: bytes, the escapes of the protocol, and text that is safe for a terminal."""
import unittest

from ctfd import text

ALL = bytes(range(256))


class Text(unittest.TestCase):
    def test_all_bytes_come_back(self) -> None:
        self.assertEqual(text.unescape(text.escape(ALL)), ALL)
        self.assertEqual(text.raw(text.name(text.escape(ALL))), ALL)

    def test_escapes_are_those_of_the_protocol(self) -> None:
        self.assertEqual(text.escape(b'a"\\\n\x7f\xc3 z'), "a\\x22\\x5c\\x0a\\x7f\\xc3 z")
        self.assertEqual(text.unescape("\\x5cx41"), b"\\x41")  # escapes are not decoded twice

    def test_names_are_utf8_where_they_are(self) -> None:
        self.assertEqual(text.name("na\\xc3\\xafve"), "na\u00efve")
        self.assertEqual(text.escape("na\u00efve"), "na\\xc3\\xafve")

    def test_terminals_get_no_control_bytes(self) -> None:
        self.assertEqual(text.printable("\x1b[2J\u202e\u00ef"), "\\x1b[2J\\xe2\\x80\\xae\u00ef")
        self.assertEqual(text.printable(text.name("\\xff")), "\\xff")


if __name__ == "__main__":
    unittest.main()
