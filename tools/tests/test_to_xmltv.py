"""Tests of tools/xmltv/to_xmltv, on guides that are written here as docs/FORMATS.md says that `listen` prints them."""
import random
import shutil
import subprocess
import sys
import tempfile
import unittest
from pathlib import Path
from typing import Dict, List, Optional
from xml.etree import ElementTree

from xmltv_listings import XMLTV, run_tool, texts_of

DTD = Path("/usr/share/xmltv/xmltv.dtd")
HEAD = ["done\t0\t0\t0\t1\t0\t0\t0", "clock\t2026-11-30T20:20:00Z", "network\t40\tDemo", "stream\t7\t65281", "cable\t3460000\t3\t69000\t2\t15"]
SERVICE = "service\t101\t25\tARD\tDas Erste\t256\t257"


def event(number: int = 1, word: str = "event", **fields: str) -> str:
    values = {"start": "2026-11-30T20:00:00Z", "duration": "01:30:00", "language": "ger", "name": "Tatort", "short": "", "extended": "",
              "country": "", "rating": "", "genres": "", **fields}
    return "\t".join([word, str(number), *values.values()])


def details(*digits: str, word: str = "descriptor") -> List[str]:
    """Lines of whole descriptors."""
    return [f"{word}\t{each}" for each in digits]


def guide(*lines: str, head: Optional[List[str]] = None) -> bytes:
    return "\n".join([*(HEAD if head is None else head), *lines, "end", ""]).encode()


class Documents(unittest.TestCase):
    def written(self, data: bytes, *words: str, status: int = 0) -> bytes:
        found, out, said = run_tool("to_xmltv", words, data)
        self.assertEqual(found, status, said)
        return out

    def programmes(self, *lines: str, words: "tuple[str, ...]" = ()) -> List[ElementTree.Element]:
        return ElementTree.fromstring(self.written(guide(SERVICE, *lines), *words)).findall("programme")

    def texts(self, *words: str, **fields: str) -> Dict[str, Optional[str]]:
        (programme,) = self.programmes(event(**fields), words=words)
        return {tag: text for tag, text in texts_of(programme).items() if text is not None}

    def test_help(self) -> None:
        run = subprocess.run([sys.executable, "-B", str(XMLTV / "to_xmltv"), "--help"], capture_output=True, text=True, check=True)
        self.assertIn("usage: to_xmltv", run.stdout)

    def test_a_service_is_a_channel(self) -> None:
        tv = ElementTree.fromstring(self.written(guide(SERVICE, "component\t27\t1024\tdeu", "service\t102\t1\t\t\t260\t261")))
        self.assertEqual(tv.get("date"), "20261130202000 +0000")
        self.assertEqual([(c.get("id"), [n.text for n in c]) for c in tv], [("101.7.65281.dvb", ["Das Erste", "101"]), ("102.7.65281.dvb", ["102"])])

    def test_local_times_change_nothing(self) -> None:
        local = "local\tGBR\t0\tahead\t60\t2027-03-28T01:00:00Z\t0\t2026-11-30T21:20:00"
        head = [*HEAD[:2], local, *HEAD[2:]]
        self.assertEqual(self.written(guide(SERVICE, event(), head=head)), self.written(guide(SERVICE, event())))

    def test_an_event_is_a_programme(self) -> None:
        (found,) = self.programmes(event(country="DEU", rating="9", genres="1.1.0 15.3.7", short="hex:526164696f204772c86ffb65", extended="D"))
        self.assertEqual(found.attrib, {"start": "20261130200000 +0000", "stop": "20261130213000 +0000", "channel": "101.7.65281.dvb"})
        self.assertEqual([(e.tag, e.text, e.attrib) for e in found if e.tag != "rating"], [
            ("title", "Tatort", {"lang": "de"}), ("sub-title", "Radio Größe", {"lang": "de"}), ("desc", "D", {"lang": "de"}),
            ("category", "Detective / Thriller", {"lang": "en"}), ("category", "genre 15.3", {"lang": "en"})])
        self.assertEqual([(r.get("system"), r.findtext("value")) for r in found.findall("rating")], [("DEU", "12")])

    def test_sub_titles_and_descriptions(self) -> None:
        rows = (
            (("a", ""), {"desc": "a"}), (("a", "b"), {"sub-title": "a", "desc": "b"}), (("", "b"), {"desc": "b"}), (("", ""), {}),
            (("S1 E2: a", ""), {"sub-title": "a", "episode-num": "0.1."}), (("S1 E2: a", "b"), {"sub-title": "a", "desc": "b", "episode-num": "0.1."}),
            (("S3", "b"), {"desc": "b", "episode-num": "2.."}), (("E42", ""), {"episode-num": ".41."}), (("S1 E0: a", ""), {"desc": "S1 E0: a"}),
            (("E: a", ""), {"desc": "E: a"}), (("S1E2 a", "b"), {"sub-title": "S1E2 a", "desc": "b"}),
        )
        for (short, extended), wanted in rows:
            self.assertEqual(self.texts(short=short, extended=extended), {"title": "Tatort", **wanted}, short)

    def test_what_a_short_text_is_can_be_chosen(self) -> None:
        self.assertEqual(self.texts("--short", "sub", short="a"), {"title": "Tatort", "sub-title": "a"})
        self.assertEqual(self.texts("--short", "desc", short="S1 E2: a", extended="b"), {"title": "Tatort", "desc": "S1 E2: a b"})

    def test_texts_that_xml_needs_care_for(self) -> None:
        texts = self.texts(name="<b>&amp; \"x\" ]]>", short="hex:0541\ufffe", extended="hex:0541078a420b")
        self.assertEqual(texts, {"title": "<b>&amp; \"x\" ]]>", "sub-title": "hex:0541", "desc": "A B"})
        self.assertEqual(self.texts(name="", extended="hex:1f0041"), {"title": "-", "desc": "hex:1f0041"})

    def test_languages_and_ratings_that_are_none(self) -> None:
        (found,) = self.programmes(event(language="hex:010203", country="hex:414243", rating="1"))
        self.assertEqual((found[0].attrib, found[1].get("system")), ({}, "DVB"))
        for rating in ("", "0", "16"):
            self.assertEqual([e.tag for e in self.programmes(event(country="DEU", rating=rating))[0]], ["title"])

    def test_present_and_following_stand_once_in_order(self) -> None:
        late = event(2, start="2026-11-30T22:00:00Z")
        found = self.programmes(event(0, word="now", start="2026-11-29T23:00:00Z"), event(2, word="next", start="2026-11-30T22:00:00Z"), late, event(1))
        self.assertEqual([e.get("start") for e in found], ["20261129230000 +0000", "20261130200000 +0000", "20261130220000 +0000"])

    def test_channel_ids(self) -> None:
        with tempfile.NamedTemporaryFile("w", suffix=".csv") as table:
            table.write("bbc1.uk,102,1,60\nbbc1.uk,101,1\n")
            table.flush()
            tv = ElementTree.fromstring(self.written(guide(SERVICE, "service\t102\t1\t\t\t260\t261"), "--map", table.name, "--id", "{network}-{service}"))
        self.assertEqual([c.get("id") for c in tv.findall("channel")], ["bbc1.uk", "65281-102"])
        status, out, said = run_tool("to_xmltv", ["--id", "x"], guide(SERVICE, "service\t102\t1\t\t\t260\t261"))
        self.assertEqual((status, out, "same channel id" in said), (1, b"", True))
        self.assertEqual(run_tool("to_xmltv", ["--id", "{other}"], b"")[0], 2)

    def test_what_no_element_has_changes_nothing(self) -> None:
        """Descriptors of other loops and of other kinds, content references by number or of another type, and what is not of its form."""
        plain = self.written(guide(SERVICE, "component\t27\t1024\tdeu", event()))
        others = details("4a0700010001006502", "5500", "76030900ff", "760700052f61627204", "7604cc022f61", "760405022f61", "7603c8022f", "5005f50b016465")
        lines = [SERVICE, *details("5006f50b01646575", "7604c4022f61"), *details("5006f50b01646575", word="program"), "component\t27\t1024\tdeu",
                 *details("5006f50b01646575", "7604c4022f61"), event(), *others]
        self.assertEqual(self.written(guide(*lines)), plain)

    def linked(self, *digits: str, head: Optional[List[str]] = None, service: "tuple[str, ...]" = ()) -> List["tuple[Optional[str], Optional[str]]"]:
        """The numbers of an event with these descriptors."""
        lines = [SERVICE, *details(*service), event(short="S1 E2"), *details(*digits)]
        tv = ElementTree.fromstring(self.written(guide(*lines, head=head)))
        return [(number.get("system"), number.text) for number in tv.iter("episode-num")][1:]

    def test_links(self) -> None:
        """`/E7` of a programme and `/S2` of a series, with the private types of TS 102 323 and with its own; each once."""
        both = [("programme_crid", "crid://example.com/E7"), ("series_crid", "crid://example.com/S2")]
        own = ("730b6578616d706c652e636f6d",)
        self.assertEqual(self.linked("760ac4032f4537c8032f5332", service=own), both)
        self.assertEqual(self.linked("760504032f4537", "760508032f5332", "760ac4032f4537c8032f5332", service=own), both)

    def test_authorities(self) -> None:
        """The one of the service comes before the one of the stream, and that before the one of the network; one in the CRID before all."""
        network, stream, cable, service = "73016e", "730173", "730163", "730e637269643a2f2f782e746573742f"
        head = [*HEAD[:3], *details(network), HEAD[3], *details(stream), HEAD[4], *details(cable)]
        series = "7605c8032f5332"
        self.assertEqual(self.linked(series, head=head, service=("7300", service)), [("series_crid", "crid://x.test/S2")])
        self.assertEqual(self.linked(series, head=head), [("series_crid", "crid://s/S2")])
        self.assertEqual(self.linked(series, head=[*HEAD[:3], *details(network), *HEAD[3:]]), [("series_crid", "crid://n/S2")])
        self.assertEqual(self.linked(series), [("series_crid", "/S2")])
        self.assertEqual(self.linked("7606c804612f5332", head=head), [("series_crid", "crid://a/S2")])
        self.assertEqual(self.linked("760dc80b437249643a2f2f612f5332", head=head), [("series_crid", "crid://a/S2")])

    def parts(self, *digits: str) -> List[str]:
        """The elements of picture, sound and subtitles of an event with these descriptors, and their texts."""
        (found,) = self.programmes(event(), *details(*digits))
        return [" ".join([element.tag, *element.attrib.values(), *(f"{part.tag}={part.text}" for part in element)]) for element in found[1:]]

    def test_kinds_of_components(self) -> None:
        """tshark shows the same of each code; of AC-3, whose codes are those of its own descriptor, it does so there."""
        rows = {
            "f101": "video aspect=4:3", "f102": "video aspect=16:9", "f103": "video aspect=16:9", "f104": "video aspect=2.21:1",
            "f107": "video aspect=16:9", "f109": "video aspect=4:3 quality=HDTV", "f10b": "video aspect=16:9 quality=HDTV",
            "f110": "video aspect=2.21:1 quality=HDTV", "f501": "video aspect=4:3", "f503": "video aspect=16:9",
            "f50b": "video aspect=16:9 quality=HDTV", "f50c": "video aspect=2.21:1 quality=HDTV", "f50f": "video aspect=16:9 quality=HDTV",
            "f581": "video aspect=16:9 quality=HDTV", "f201": "audio stereo=mono", "f202": "audio stereo=bilingual", "f203": "audio stereo=stereo",
            "f205": "audio stereo=surround", "f601": "audio stereo=mono", "f603": "audio stereo=stereo", "f605": "audio stereo=surround",
            "f643": "audio stereo=stereo", "f442": "audio stereo=stereo", "f443": "audio stereo=dolby", "f444": "audio stereo=dolby digital",
            "f4c2": "audio stereo=stereo", "f4c5": "audio stereo=dolby digital", "f301": "subtitles teletext language=de",
            "f310": "subtitles teletext language=de", "f314": "subtitles teletext language=de", "f322": "subtitles teletext language=de",
            "f330": "subtitles deaf-signed language=de", "f331": "subtitles deaf-signed language=de",
        }
        for code, element in rows.items():
            self.assertEqual(self.parts(f"5006{code}01646575"), [element], code)

    def test_components_that_a_listing_has_no_word_for(self) -> None:
        """Reserved codes, audio descriptions, sound that is no main one, VBI data, other codings, and another stream_content_ext."""
        for code in ("f100", "f111", "f502", "f509", "f50d", "f584", "f204", "f240", "f640", "f402", "f452", "f446", "f302", "f303", "f317", "f327",
                     "f340", "f701", "0900", "010b", "f000"):
            self.assertEqual(self.parts(f"5006{code}01646575"), [], code)

    def test_several_components(self) -> None:
        """The first picture, the best sound, and all subtitles in the order of the DTD; a text after the language is passed over."""
        digits = ("5006f31005656e67", "5006f20302646575", "5008f44403646575483b", "5006f50b01646575", "5006f10301646575", "5006f32006656e67",
                  "5006f30104676572", "5006f33007000102", "5006f30108646575")
        self.assertEqual(self.parts(*digits), ["video aspect=16:9 quality=HDTV", "audio stereo=dolby digital", "subtitles teletext language=en",
                                               "subtitles teletext language=de", "subtitles deaf-signed", "subtitles teletext language=de"])
        for sounds in (("5006f20202646575", "5006f20303656e67"), ("5006f20302646575", "5006f20203646575", "5006f20104656e67")):
            self.assertEqual(self.parts(*sounds), ["audio stereo=stereo"])

    def test_no_descriptor_is_an_error(self) -> None:
        draws = random.Random(3)
        for _ in range(20):
            bodies = [draws.randbytes(draws.randrange(12)) for _ in range(90)]
            lines = details(*(bytes([draws.choice((0x50, 0x73, 0x76)), len(body), *body]).hex() for body in bodies))
            found = ElementTree.fromstring(self.written(guide(SERVICE, *lines[:30], event(word="now"), *lines[30:60], event(), *lines[60:])))
            self.assertEqual(len(found.findall("programme")), 1)

    def test_descriptors_of_the_present_event_and_of_the_schedule(self) -> None:
        """An event that stands in both has those of both, each link once."""
        lines = [event(word="now"), *details("760504032f4537", "5006f50b01646575"), event(), *details("7605c4032f4537", "7605c8032f5332")]
        (found,) = self.programmes(*lines)
        self.assertEqual([number.text for number in found.findall("episode-num")], ["/E7", "/S2"])
        self.assertEqual(found.findtext("video/quality"), "HDTV")

    def test_what_is_wanting_is_said(self) -> None:
        data = guide("wanting\tpmt\t256\t101", SERVICE, event(), head=HEAD[:1])
        status, out, said = run_tool("to_xmltv", [], data)
        self.assertEqual((status, said), (3, "to_xmltv: wanting pmt 256 101\n"))
        self.assertIn(b"<!-- wanting pmt 256 101 -->", out)
        self.assertIn(b"Tatort", out)

    def test_a_part_of_a_guide(self) -> None:
        head = ["wanting\tsdt", "wanting\tclock", "stream\t1\t", "service\t101\t\t\t\t256\t"]
        data = guide(event(word="now"), event(), event(2, start="2026-11-30T21:30:00Z"), head=head)
        tv = ElementTree.fromstring(self.written(data, status=3))
        self.assertEqual([[name.text for name in channel] for channel in tv.findall("channel")], [["101"]])
        self.assertEqual([(found.get("channel"), found.get("start")) for found in tv.findall("programme")],
                         [("101.1.0.dvb", "20261130200000 +0000"), ("101.1.0.dvb", "20261130213000 +0000")])

    def test_what_is_no_guide(self) -> None:
        rows = (
            (b"", "no line `end`"), (b"fault: packet 0\n", "fault: packet 0"), (guide(event()), "line 6 "), (guide(SERVICE, "event\t1"), "line 7 "),
            (guide(SERVICE, event(start="today")), "line 7 "), (guide(SERVICE, event(start="2026-02-30T00:00:00Z")), "line 7 "),
            (guide(SERVICE)[:-4], "no line `end`"), (b"\xff\x00\n", "no line `end`"),
        )
        for data, what in rows:
            status, out, said = run_tool("to_xmltv", [], data)
            self.assertEqual((status, out, what in said), (1, b"", True), said)

    def test_a_file_is_written_whole_or_not_at_all(self) -> None:
        with tempfile.TemporaryDirectory() as folder:
            path = Path(folder) / "guide.xml"
            path.write_text("old", encoding="utf-8")
            self.assertEqual(run_tool("to_xmltv", ["--output", str(path)], guide("event\t1"))[0], 1)
            self.assertEqual(path.read_text(encoding="utf-8"), "old")
            self.written(guide(SERVICE), "--output", str(path))
            self.assertIn("Das Erste", path.read_text(encoding="utf-8"))
            self.assertEqual([file.name for file in Path(folder).iterdir()], ["guide.xml"])

    def test_other_programs_take_it(self) -> None:
        full = event(1, country="DEU", rating="9", genres="1.1.0", short="S1 E2: a", extended="b")
        digits = ("760ac4032f4537c8032f5332", "5006f50b01646575", "5006f20302646575", "5006f30103646575", "5006f33004000102")
        data = self.written(guide(SERVICE, full, *details(*digits), event(2, start="2026-11-30T22:00:00Z", name="")))
        with tempfile.TemporaryDirectory() as folder:
            path = Path(folder) / "guide.xml"
            path.write_bytes(data)
            if shutil.which("xmllint") and DTD.is_file():
                subprocess.run(["xmllint", "--nowarning", "--noout", "--dtdvalid", str(DTD), str(path)], check=True)
            if shutil.which("tv_sort"):
                run = subprocess.run(["tv_sort", "--output", str(Path(folder) / "sorted.xml"), str(path)], check=True, capture_output=True)
                self.assertEqual(run.stderr, b"")


if __name__ == "__main__":
    unittest.main()
