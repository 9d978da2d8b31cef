"""Tests of tools/dvb_text.py. Sizes and forms are the ones of docs/FORMATS.md, section 5; the tables those of EN 300 468, annex A."""
import unittest

import loading  # noqa: F401  the folder of the tools is on the path with it

import dvb_text as tool


class Sizes(unittest.TestCase):
    def test_a_coded_text_has_the_bytes_that_the_formats_say(self) -> None:
        for text, size in (("", 0), ("News", 4), ("é", 3), ("a_b", 4), ("100 % + *", 9), ("…", 4), ("😀", 5), ("News\n", 6)):
            self.assertEqual(tool.coded_size(text), size, text)

    def test_pieces_are_the_longest_fronts_of_249_coded_bytes(self) -> None:
        rows = (
            ("", []),
            ("a" * 1000, [249, 249, 249, 249, 4]),
            ("a" * 248 + "é", [248, 3]),
            ("a" * 247 + "é" + "a", [248 - 1, 4]),
            ("é" * 124 + "a", [249, 1]),
            ("_" + "a" * 500, [249, 249, 4]),
            ("中" * 83, [1 + 82 * 3, 4]),
            ("😀" * 63, [1 + 62 * 4, 5]),
        )
        for text, sizes in rows:
            pieces = list(tool.pieces(text))
            self.assertEqual(("".join(pieces), [tool.coded_size(piece) for piece in pieces]), (text, sizes))


class Cutting(unittest.TestCase):
    def test_a_text_that_fits_stays(self) -> None:
        self.assertEqual(tool.cut_to_coded("a" * 100, 100), "a" * 100)
        self.assertEqual(tool.cut_to_utf8("é" * 50, 100), "é" * 50)

    def test_a_cut_ends_after_a_word(self) -> None:
        self.assertEqual(tool.cut_to_coded("one two, three four five", 15), "one two…")
        self.assertEqual(tool.cut_to_utf8("one two three", 10), "one two…")
        self.assertEqual(tool.cut_to_utf8("a " + "b" * 100, 10), "a bbbbb…")

    def test_a_cut_fits_at_each_limit(self) -> None:
        text = "Zwölf Boxkämpfer jagen Viktor quer über den großen Sylter Deich 😀 – " * 4
        for limit in range(300):
            self.assertLessEqual(tool.utf8_size(tool.cut_to_utf8(text, limit)), limit)
            self.assertLessEqual(tool.coded_size(tool.cut_to_coded(text, limit)), limit)


class Clean(unittest.TestCase):
    def test_a_text_is_one_line_without_control_codes(self) -> None:
        self.assertEqual(tool.clean("  a\n\tb\x07\x85\ue08a c\ufffe "), "a b c")
        self.assertEqual(tool.clean("e\u0301"), "é")
        self.assertEqual(tool.clean(None), "")


class Heard(unittest.TestCase):
    def test_a_text_that_is_shown_stays(self) -> None:
        for field in ("", "News", "hex", "hex:xyz", "hex:123", "hex:4e657773", "hex:15c3a9", "hex:"):
            self.assertEqual(tool.heard_text(field), field)

    def test_a_joined_text_may_look_as_if_it_could_be_shown(self) -> None:
        self.assertEqual(tool.heard_text("hex:15c3a9", joined=True), "é")

    def test_tables(self) -> None:
        rows = (
            ("526164696f204772c86ffb65", "Radio Größe"),  # ISO/IEC 6937: a diaeresis before the o
            ("a4aa4142a6ba", "€“AB”"),
            ("c261ca75cf73cb63c8", "áůšç"),  # and a mark without a character
            ("01b8e2", "Ит"),  # ISO 8859-5
            ("02c7e4", "ال"),
            ("03c5eb", "Ελ"),
            ("04f9", "ש"),
            ("05f0de", "ğŞ"),
            ("06bd", "―"),
            ("07a1", "ก"),
            ("09d8", "Ų"),
            ("0ad0", "Ŵ"),
            ("0ba4bd", "€œ"),
            ("100001e9", "é"),
            ("100002a3b3", "Łł"),
            ("10000fa4", "€"),
            ("1104220041", "ТA"),
            ("12b0a1", "가"),
            ("13b9fa", "国"),
            ("144e2d", "中"),
            ("15e4b8ad85", "中\ufffd"),
            ("0541f042f0", "AğBğ"),
            ("05418a42", "A\nB"),
            ("110041e08a0042", "A\nB"),
            ("058641879f42", "AB"),  # emphasis on and off
        )
        for digits, text in rows:
            self.assertEqual(tool.heard_text("hex:" + digits), text, digits)

    def test_a_table_that_is_not_known_stays_as_it_is(self) -> None:
        for digits in ("0841", "0c41", "1e41", "1f0141", "10000c41", "10001041", "100101", "10"):
            self.assertEqual(tool.heard_text("hex:" + digits), "hex:" + digits)

    def test_any_bytes_are_read(self) -> None:
        for first in range(256):
            for rest in (b"", b"\x00", b"\xff\xff\xff", bytes(range(256))):
                text = tool.read_coded(bytes([first]) + rest)
                self.assertTrue(text is None or not (tool.NO_CHARACTERS.search(text) or tool.HEARD_CONTROLS.search(text)))


if __name__ == "__main__":
    unittest.main()
