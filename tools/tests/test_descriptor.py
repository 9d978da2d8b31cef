"""Tests of tools/descriptor.

Of the rows, those of a delivery, a channel, AC-3, subtitles, teletext, CA, a link, a language, a component, a rating and content references are
bytes that `dvb_print_si` or tshark show with these meanings. The others, and the faults, were put together by hand from the clauses of the table.
"""
import contextlib
import io
import random
import shlex
import unittest
from typing import Tuple
from unittest import mock

from loading import load

tool = load("descriptor")

import dvb_descriptors as table  # noqa: E402

ROWS = (
    ("5f0400000028", "private_data_specifier specifier=0x00000028"),
    ("83040065fc01", "logical_channel 101:1"),
    ("830800657c010066fc02", "logical_channel 101:1:hidden 102:2"),
    ("5a0b0371f5401f8102ffffffff", "terrestrial_delivery_system frequency=578 constellation=64-QAM code_rate=2/3 guard=1/32 mode=8k"),
    ("7f0404000001", "T2_delivery_system plp=0 system=1"),
    ("430b011727500192a102750003",
     "satellite_delivery_system frequency=11.7275 orbital_position=19.2 polarization=vertical modulation=QPSK symbol_rate=27.5 inner=3/4"),
    ("430b0114937501928602200002",
     "satellite_delivery_system frequency=11.49375 orbital_position=19.2 polarization=horizontal system=DVB-S2 modulation=8PSK symbol_rate=22"
     " inner=2/3"),
    ("440b03460000fff2030069000f", "cable_delivery_system frequency=346 modulation=64-QAM symbol_rate=6.9 inner=none"),
    ("6a028042", "AC-3 component_type=0x42"),
    ("7a0280c2", "enhanced_AC-3 component_type=0xC2"),
    ("7a0388c201", "enhanced_AC-3 component_type=0xC2 mixinfoexists=1 bytes=0x01"),
    ("59086465751000010001", "subtitling deu:0x10:1:1"),
    ("560a64657509006465751150", "teletext deu:initial:100 deu:subtitles:150"),
    ("5605656e6728ff", "teletext eng:hearing_impaired:8FF"),
    ("09040b00e5dc", "CA system=0x0B00 pid=1500"),
    ("4a0700010001006502", "linkage stream=1 original=1 service=101 type=EPG"),
    ("0a04656e6703", "ISO_639_language eng:audio_description"),
    ("0a08656e670064657500", "ISO_639_language eng deu"),
    ("520101", "stream_identifier component_tag=1"),
    ("5006f50b01646575", "component content=0x5 type=0x0B tag=1 language=deu"),
    ("760ac4032f4537c8032f5332", "content_identifier 0x31:/E7 0x32:/S2"),
    ("76030900ff", "content_identifier series:0x00FF"),
    ("730b6578616d706c652e636f6d", "default_authority text=example.com"),
    ("55084445550941555409", "parental_rating DEU:9 AUT:9"),
    ("40064163205456c4", "network_name bytes=0x4163205456C4"),
    ("40054163205456", "network_name 'text=Ac TV'"),
    ("40041554c3a9", "network_name 'text=Té'"),
    ("050448455643", "registration format=HEVC"),
    ("66020123", "data_broadcast_id id=0x0123"),
    ("4106006501006619", "service_list 101:0x01 102:0x19"),
)
FAULTS = (
    ("0903e5dc00", "CA: not of its form, since its body has 3 bytes, and its fields 4"),
    ("83030065fc", "logical_channel: not of its form, since its entries have 3 bytes, which is no multiple of 4"),
    ("52020102", "stream_identifier: not of its form, since its body has 1 bytes more than its fields"),
    ("6a0180", "AC-3: not of its form, since its body has 1 bytes, and no one for component_type"),
    ("6a00", "AC-3: not of its form, since its body is empty"),
    ("7603c4052f", "content_identifier: not of its form, since an entry does not end in it, or is in a place that is reserved"),
    ("430b0117a7500192a102750003", "satellite_delivery_system: not of its form, since 0x117A750 has a digit above 9"),
    ("7f0105", "tag 0x7F"),
    ("c00100", "tag 0xC0"),
)
WRONG = (
    ("CA system=0x11", "pid is missing"),
    ("CA system=0x11 pid=8192", "8192 is too much for pid"),
    ("CA system=0x11 pid=1 pid=2", "there are two fields pid"),
    ("CA system=0x11 pid=1 tag=2", "there is no field tag"),
    ("CA system=0x11 pid=1 1", "'1' is no field"),
    ("CA system=11 pid=1", "'11' is no number after 0x"),
    ("logical_channel 101", "channel is missing"),
    ("logical_channel 101:1:visible:4", "'101:1:visible:4' has 4 parts, and an entry at most 3"),
    ("logical_channel 101:1024", "1024 is too much for channel"),
    ("teletext de:initial:100", "'de' is not 3 letters or digits"),
    ("teletext deu:initial:900", "'900' is no page from 100 to 8FF"),
    ("satellite_delivery_system frequency=11.123456", "'11.123456' is no number with at most 5 decimals"),
    ("AC-3 component=0x42", "there is no field component"),
    ("registration format=HEVC bytes=0x1", "'0x1' is not pairs of digits after 0x"),
    ("content_identifier 0x31:" + "x" * 256, "256 is too much for length of the identifier"),
    ("default_authority text=" + "x" * 256, "its body has 256 bytes, and at most 255 can be said"),
)


def run(*words: str, given: str = "") -> Tuple[int, str, str]:
    """The status, and what goes to the two outputs."""
    out, err = io.StringIO(), io.StringIO()
    with contextlib.redirect_stdout(out), contextlib.redirect_stderr(err), mock.patch("sys.stdin", io.StringIO(given)):
        status = tool.main(list(words))
    return status, out.getvalue(), err.getvalue()


class Rows(unittest.TestCase):
    def test_each_is_explained(self) -> None:
        for digits, words in (*ROWS, *FAULTS):
            with self.subTest(digits):
                self.assertEqual(run("explain", digits), (0, words + "\n", ""))

    def test_each_is_made_of_its_words(self) -> None:
        for digits, words in ROWS:
            with self.subTest(words):
                self.assertEqual(run("make", *shlex.split(words)), (0, digits + "\n", ""))

    def test_each_kind_has_a_row(self) -> None:
        self.assertEqual({words.split()[0] for _, words in ROWS}, {kind.name for kind in table.KINDS})


class Words(unittest.TestCase):
    def test_wrong_words_are_named(self) -> None:
        for words, why in WRONG:
            with self.subTest(words):
                self.assertEqual(run("make", *words.split()), (1, "", f"descriptor: {why}\n"))

    def test_what_is_explained_can_be_made(self) -> None:
        draws = random.Random(96)
        for kind in table.KINDS:
            for _ in range(300):
                body = draws.randbytes(draws.randrange(30))
                body = body if kind.extension is None else bytes([kind.extension]) + body
                said = table.explained(kind.tag, body)
                if "not of its form" not in said and "identifier 0x" not in said:
                    name, *words = shlex.split(said)
                    made = table.written(name, words)
                    self.assertEqual(table.explained(made[0], made[2:]), said)

    def test_no_bytes_are_an_error(self) -> None:
        draws = random.Random(97)
        for _ in range(3000):
            self.assertTrue(table.explained(draws.randrange(256), draws.randbytes(draws.randrange(40))))


class Reports(unittest.TestCase):
    def test_a_report_is_copied_with_what_its_descriptors_say(self) -> None:
        report = "network\t1\tDemo\ndescriptor\t4a0700010001006502\nprogram\t09040b00e5dc\nwanting\tpat\ndescriptor\t5f04\nend\n"
        wanted = report.replace("6502\n", "6502\tlinkage stream=1 original=1 service=101 type=EPG\n")
        wanted = wanted.replace("e5dc\n", "e5dc\tCA system=0x0B00 pid=1500\n")
        self.assertEqual(run("explain", given=report), (0, wanted, ""))

    def test_words_that_are_no_descriptor(self) -> None:
        for word in ("5f04", "5f", "5f0400000", "xx00", "descriptor"):
            status, out, why = run("explain", word)
            self.assertEqual((status, out), (1, ""))
            self.assertIn(f"'{word}' is no whole descriptor", why)

    def test_kinds_are_listed(self) -> None:
        status, out, _ = run("kinds")
        self.assertEqual((status, len(out.splitlines())), (0, len(table.KINDS)))
        self.assertIn("logical_channel\t0x83\tprivate\tservice:channel:[visible] ..\n", out)
        self.assertIn("T2_delivery_system\t0x7F 0x04\t6.4.6.3\tplp= system= [bytes=]\n", out)


if __name__ == "__main__":
    unittest.main()
