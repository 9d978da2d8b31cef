"""Tests of crids.py. tools/tests/test_descriptor.py has the words of content references, and test_to_xmltv.py what a listing has of them."""
import random
import unittest

import loading  # noqa: F401  (finds the modules of the tools)
from crids import Crid, Link, Reference, links_of, read_authority, read_crid, read_references, write_reference
from descriptor_fields import NoDescriptor


class Texts(unittest.TestCase):
    def test_crids(self) -> None:
        rows = {
            "crid://example.com/S2": Crid("example.com", "/S2"), "CRID://Example.com/a/b#1~2": Crid("Example.com", "/a/b#1~2"),
            "example.com/S2": Crid("example.com", "/S2"), "/S2": Crid("", "/S2"), "//": Crid("", "//"),
        }
        for text, crid in rows.items():
            self.assertEqual(read_crid(text), crid, text)
        for text in ("", "/", "S2", "crid:///S2", "crid://example.com/", "crid://example.com", "a b/S2", "/S 2", "/S2\n", "/ä", "http://a/b", "a:1/b"):
            self.assertIsNone(read_crid(text), text)

    def test_a_crid_is_listed_whole(self) -> None:
        self.assertEqual([Crid("", "/S2").listed("a.test"), Crid("b.test", "/S2").listed("a.test"), Crid("", "/S2").listed("")],
                         ["crid://a.test/S2", "crid://b.test/S2", "/S2"])

    def test_authorities(self) -> None:
        rows = {b"example.com": "example.com", b"crid://example.com/": "example.com", b"": None, b"a b": None, b"a/b": None, b"\xe4": None}
        for body, authority in rows.items():
            self.assertEqual(read_authority(body), authority, body)


class References(unittest.TestCase):
    def test_each_is_read_as_it_is_written(self) -> None:
        draws = random.Random(5)
        for _ in range(300):
            number = draws.randrange(65536) if draws.random() < 0.3 else None
            identifier = "" if number is not None else draws.randbytes(draws.randrange(256)).decode("latin-1")
            reference = Reference(draws.randrange(64), identifier, number)
            self.assertEqual(read_references(write_reference(reference) * 2), [reference] * 2)

    def test_what_is_cut_off_is_none(self) -> None:
        for digits in ("c4", "c4032f45", "c5", "c500", "c600ff", "c4032f4537c8"):
            with self.assertRaises(NoDescriptor):
                read_references(bytes.fromhex(digits))

    def test_links_stand_once_in_order(self) -> None:
        references = [Reference(0x32, "/S2"), Reference(0x01, "a/E7"), Reference(0x02, "/S2"), Reference(0x31, "crid://a/E7"), Reference(0x33, "/R"),
                      Reference(0x00, "/U"), Reference(0x31, "none"), Reference(0x31, "", 7), Reference(0x32, "b/S2")]
        other = Link("series_crid", "crid://b/S2")
        self.assertEqual(links_of(references, "b"), [other, Link("programme_crid", "crid://a/E7")])
        self.assertEqual(links_of(references, ""), [Link("series_crid", "/S2"), Link("programme_crid", "crid://a/E7"), other])


if __name__ == "__main__":
    unittest.main()
