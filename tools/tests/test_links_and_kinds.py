"""Tests of the word `--descriptors` of tools/xmltv/from_xmltv, and of what to_xmltv makes of the same descriptors.

Descriptors are compared with bytes that were put together by hand: EN 300 468, 6.2.8, and TS 102 323, 12.1.
"""
import tempfile
import unittest
from pathlib import Path
from typing import List

from xmltv_listings import LISTED, Made, WildKinds, links_and_kinds_of, listing, made_of, programme, run_tool

from component_kinds import AUDIO_CODES, SUBTITLES_CODES, VIDEO_CODES, aspect_of, is_high, kinds_of
from crids import Reference
from dvb_descriptors import Component, components_of
from event_descriptors import fitted_descriptors
from event_sizes import BLOCK, BLOCK_BYTES, Event, entry_size
from xmltv_times import read_moment

FIELD = "5006f50b01676572 5006f44402676572 5006f30103676572 5006f33004756e64 7620c40e6578616d706c652e636f6d2f4537c80e6578616d706c652e636f6d2f5332"
# What `listen --details` prints of a guide with such an event, and an authority of the service.
REPORT = """clock\t2026-11-30T20:20:00Z
network\t40\tDemo
stream\t7\t65281
service\t101\t25\tARD\tDas Erste\t256\t257
descriptor\t73066f2e74657374
event\t7\t2026-11-30T20:00:00Z\t01:30:00\tger\tTatort\t\t\t\t\t
descriptor\t5006f50b01676572
descriptor\t5006f44402676572
descriptor\t5006f30103676572
descriptor\t5006f33004756e64
descriptor\t7620c40e6578616d706c652e636f6d2f4537c80e6578616d706c652e636f6d2f5332
end
"""


class WithDescriptors(unittest.TestCase):
    def setUp(self) -> None:
        self._folder = tempfile.TemporaryDirectory()
        self.addCleanup(self._folder.cleanup)
        self.folder = Path(self._folder.name)

    def made(self, *inner: str, words: "tuple[str, ...]" = ("--descriptors",)) -> Made:
        """What is made of programmes of an hour each with these elements."""
        starts = [f"20261130{9 + place:02}00" for place in range(len(inner))]
        return made_of(self.folder, listing(*(programme(start, "", each) for start, each in zip(starts, inner))), *words)

    def field(self, inner: str) -> str:
        """The field of a programme with a title of its own and these elements; empty where its item has none."""
        (item,) = self.made('<title lang="deu">A</title>' + inner).items
        return item[11] if len(item) > 11 else ""


def link(system: str, crid: str) -> str:
    return f'<episode-num system="{system}">{crid}</episode-num>'


class Fields(WithDescriptors):
    def test_links_and_kinds_are_one_field_more(self) -> None:
        inner = link("programme_crid", "/E7") + link("series_crid", "/S2") + "<video><aspect>16:9</aspect><quality>HDTV</quality></video>"
        self.assertEqual(self.field(inner), "5006f50b01646575 760ac4032f4537c8032f5332")

    def test_without_the_word_nothing_changes(self) -> None:
        odd = LISTED + link("series_crid", "none") + "<subtitles type='onscreen' />"
        made = self.made(odd, words=())
        plain = self.made('<title lang="de">Tatort</title>', words=())
        self.assertEqual((made.lines, made.said), (plain.lines, plain.said))
        self.assertEqual(len(made.items[0]), 11)

    def test_a_programme_without_links_and_kinds_has_no_field_more(self) -> None:
        self.assertEqual([len(item) for item in self.made("<title>A</title>", LISTED).items], [11, 12])

    def test_links(self) -> None:
        rows = {
            link("programme_crid", " crid://a/E7\n"): "7606c404612f4537", link("series_crid", "CRID://a/S2"): "7606c804612f5332",
            link("series_crid", "a/S2"): "7606c804612f5332", link("series_crid", "/S2") * 2: "7605c8032f5332",
            link("series_crid", "/S2") + link("programme_crid", "/E7") + link("series_crid", "/S3"): "760fc8032f5332c4032f4537c8032f5333",
            link("xmltv_ns", "0.1.") + link("crid", "/S2") + link("dd_progid", "EP1"): "",
        }
        for inner, field in rows.items():
            self.assertEqual(self.field(inner), field, inner)

    def test_pictures(self) -> None:
        rows = {("4:3", ""): "f101", ("16:9", ""): "f103", ("16 x 9", "SDTV"): "f103", ("1.78:1", "800x600"): "f103", ("2.35:1", ""): "f104",
                ("4/3", "HDTV"): "f109", ("16:9", "1080i"): "f50b", ("", "HDTV"): "f50b", ("", "1280x720"): "f50b", ("21:9", "UHD"): "f50c"}
        for (aspect, quality), code in rows.items():
            parts = (f"<aspect>{aspect}</aspect>" if aspect else "") + (f"<quality>{quality}</quality>" if quality else "")
            self.assertEqual(self.field(f"<video><present>yes</present>{parts}</video>"), f"5006{code}01646575", (aspect, quality))
        self.assertEqual(self.field("<video><colour>no</colour></video>"), "")
        self.assertEqual(self.field("<video><present>no</present><aspect>4:3</aspect></video>"), "")

    def test_sounds(self) -> None:
        rows = {"mono": "f201", "bilingual": "f202", "stereo": "f203", "surround": "f205", "dolby": "f443", "Dolby Digital": "f444"}
        for stereo, code in rows.items():
            self.assertEqual(self.field(f"<audio><stereo>{stereo}</stereo></audio>"), f"5006{code}02646575", stereo)
        self.assertEqual(self.field("<language>en-GB</language><audio><stereo>mono</stereo></audio>"), "5006f20102656e67")
        self.assertEqual(self.field("<language>English</language><audio><stereo>mono</stereo></audio>"), "5006f20102646575")

    def test_subtitles(self) -> None:
        """Each once, with a tag of its own; without a language, or with one that is no code, it is `und`."""
        inner = ('<subtitles type="teletext"><language>de</language></subtitles><subtitles><language>Deutsch</language></subtitles>'
                 '<subtitles type="deaf-signed"/><subtitles type="teletext"><language>ger</language></subtitles>')
        self.assertEqual(self.field(inner), "5006f30103676572 5006f31004756e64 5006f33005756e64")

    def test_what_is_not_understood_is_counted(self) -> None:
        made = self.made("<title>A</title>" + link("series_crid", "none") + link("programme_crid", "") + '<video><aspect>14:9</aspect></video>'
                         '<audio><stereo>quadro</stereo></audio><subtitles type="onscreen"/>', words=("--descriptors", "--explain"))
        self.assertEqual(len(made.items[0]), 11)
        self.assertIn("#   kinds of components without a code: video 14:9 (1), audio quadro (1), subtitles onscreen (1)\n", made.said)
        self.assertIn("#   links that are no CRIDs: none (1), empty (1)\n", made.said)
        self.assertIn("l.xml line 2: changed: no code for 'video 14:9'\n", made.said)
        self.assertIn("l.xml line 2: changed: no CRID in 'none'\n", made.said)

    def test_each_part_of_a_long_programme_has_them(self) -> None:
        made = made_of(self.folder, listing(programme("20261130000000", "20261202000000", LISTED)), "--descriptors")
        self.assertEqual([item[11] for item in made.items], [FIELD] * 4)


class Limits(WithDescriptors):
    def test_at_most_240_bytes_of_an_event(self) -> None:
        """A link of 228 bytes, its descriptor and a component have 240; with a byte more the component is left out."""
        sound = "<audio><stereo>stereo</stereo></audio>"
        for size, groups in ((228, 2), (229, 1), (236, 1)):
            made = self.made("<title>A</title>" + link("series_crid", "/" + "x" * (size - 1)) + sound)
            field = made.items[0][11]
            self.assertEqual((len(field.split()), len(field.replace(" ", "")) // 2), (groups, size + 4 + 8 * (groups - 1)))
            self.assertEqual("1 changed: some of its links and kinds are left out, since they have more than 240 bytes" in made.said, groups == 1)
        made = self.made("<title>A</title>" + link("series_crid", "/" + "x" * 236) + sound + link("series_crid", "/S3"))
        self.assertEqual(made.items[0][11], "5006f20302756e64 7605c8032f5333")
        self.assertEqual(len(self.made("<title>A</title>" + link("series_crid", "/" + "x" * 300)).items[0]), 11)

    def test_links_have_room_before_components(self) -> None:
        references = [Reference(0x31, "/" + "x" * 100), Reference(0x32, "/" + "y" * 140), Reference(0x32, "/" + "z" * 80)]
        components = [Component(3, 1, tag, "deu") for tag in range(3, 30)]
        found = fitted_descriptors(components, references)
        self.assertEqual((len(found.descriptors), sum(map(len, found.descriptors)), found.is_all), (7, 2 + 103 + 83 + 6 * 8, False))
        self.assertEqual([component.tag for component in components_of((each[0], each[2:]) for each in found.descriptors)], [3, 4, 5, 6, 7, 8])
        self.assertEqual(found.descriptors[-1][:2], bytes([0x76, 103 + 83]))

    def test_several_links_share_a_descriptor(self) -> None:
        for size, is_all in ((117, True), (118, False)):
            found = fitted_descriptors([], [Reference(0x31, "/" + "x" * 116), Reference(0x32, "/" + "y" * (size - 1))])
            self.assertEqual((sum(map(len, found.descriptors)), found.is_all), (240 if is_all else 121, is_all))

    def test_no_entry_has_more_than_1578_bytes(self) -> None:
        longest = Event("", 0, 1, "eng", "a" * 100, "a" * 150, "😀" * 250, ((1, 1),) * 8, None, (bytes(240),))  # type: ignore[arg-type]
        self.assertEqual(entry_size(longest), 1578 - 6)

    def test_three_hours_have_at_most_20000_bytes_with_them(self) -> None:
        """Descriptions and sub-titles go first, then links and kinds, and then the last events."""
        inner = "<title>Title</title><sub-title>S</sub-title>" + link("series_crid", "/" + "x" * 200)
        for count, kept, said in ((87, True, "87 changed: its texts are cut"), (300, False, "300 changed: its links and kinds are left out")):
            starts = [f"20261130{9 + place * 20 // 3600:02}{place * 20 // 60 % 60:02}{place * 20 % 60:02}" for place in range(count)]
            made = made_of(self.folder, listing(*(programme(start, "", inner) for start in starts)), "--descriptors")
            self.assertEqual((len(made.items), {len(item) for item in made.items}, {item[6] for item in made.items}),
                             (count, {12 if kept else 11}, {""}))
            self.assertIn(f"{said}, since its three hours have more than 20,000 bytes", made.said)


class RoundTrips(WithDescriptors):
    def back(self, report: str) -> bytes:
        status, out, said = run_tool("to_xmltv", [], report.encode())
        self.assertEqual(status, 0, said)
        return out

    def test_what_is_listed_comes_back(self) -> None:
        """A listing, the field that from_xmltv makes of it, a report that was written by hand with the same descriptors, and a listing again."""
        self.assertEqual(self.made(LISTED).items[0][11], FIELD)
        self.assertEqual([line.split("\t")[1] for line in REPORT.splitlines() if line.startswith("descriptor\t5") or "\t76" in line], FIELD.split())
        listed = listing(programme("202611302000", "", LISTED)).encode()
        self.assertEqual(links_and_kinds_of(self.back(REPORT)), links_and_kinds_of(listed))

    def test_what_came_back_gives_the_same_field(self) -> None:
        text = self.back(REPORT).decode()
        made = made_of(self.folder, text, "--descriptors", channels="101.7.65281.dvb,101,1\n")
        self.assertEqual(made.items[0][11], FIELD)

    def test_a_link_without_its_authority_comes_back_whole(self) -> None:
        field = self.field(link("series_crid", "/S2"))
        self.assertEqual(field, "7605c8032f5332")
        lines = [line for line in REPORT.splitlines() if not line.startswith(("descriptor\t5", "descriptor\t76"))]
        report = "\n".join([*lines[:-1], f"descriptor\t{field}", lines[-1], ""])
        self.assertEqual(links_and_kinds_of(self.back(report)), ['<episode-numsystem="series_crid">crid://o.test/S2</episode-num>'])

    def test_each_code_that_is_written_is_read_as_the_same(self) -> None:
        for video, code in VIDEO_CODES.items():
            self.assertEqual(kinds_of([Component(*code, 1, "deu")]).video, video)
        for stereo, code in AUDIO_CODES.items():
            self.assertEqual(kinds_of([Component(*code, 1, "deu")]).stereo, stereo)
        for kind, code in SUBTITLES_CODES.items():
            self.assertEqual([found.type for found in kinds_of([Component(*code, 1, "deu")]).subtitles], [kind or "teletext"])

    def test_ratios_and_qualities(self) -> None:
        for text, aspect in {"4:3": "4:3", "1.33:1": "4:3", "16/9": "16:9", "1.85:1": "2.21:1", "14:9": None, "1:1": None, "16:0": None, "wide": None,
                             "": None, "9:16": None}.items():
            self.assertEqual(aspect_of(text), aspect, text)
        for quality, high in {"HDTV": True, "hd": True, "UHDTV": True, "4K": True, "1080p": True, "1920x1080": True, "720": True, "SDTV": False,
                              "720x576": False, "800x600": False, "576i": False, "": False}.items():
            self.assertEqual(is_high(quality), high, quality)


class RandomListings(WithDescriptors):
    def test_no_field_and_no_three_hours_have_too_many_bytes(self) -> None:
        for seed in range(6):
            wild = WildKinds(seed)
            made = made_of(self.folder, wild.listing(("a",)).decode(), *wild.words(), "--descriptors")
            blocks: "dict[int, int]" = {}
            for item in made.items:
                groups = [bytes.fromhex(group) for group in item[11].split()] if len(item) > 11 else []
                self.assertEqual([(len(group), group[0] in (0x50, 0x76)) for group in groups], [(2 + group[1], True) for group in groups])
                self.assertLessEqual(sum(map(len, groups)), 240)
                genres = tuple(item[10].split())
                event = Event("", 0, 1, item[4], item[5], item[6], item[7], genres, None, tuple(groups))  # type: ignore[arg-type]
                start = read_moment(item[2])
                assert start is not None
                blocks[start // BLOCK] = blocks.get(start // BLOCK, 0) + entry_size(event) + (6 if item[9] else 0)
            self.assertLessEqual(max(blocks.values(), default=0), BLOCK_BYTES)


if __name__ == "__main__":
    unittest.main()
