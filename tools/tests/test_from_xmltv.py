"""Tests of tools/xmltv/from_xmltv: each rule, on a listing that is written for it. What it prints is compared with docs/FORMATS.md by hand."""
import gzip
import json
import subprocess
import sys
import tempfile
import unittest
from pathlib import Path
from typing import List

from xmltv_listings import SAMPLES, XMLTV, Made, listing, made_of, programme, run_tool

from categories import genre_of
from dvb_text import coded_size, utf8_size
from event_ids import Airing, numbered
from event_sizes import BLOCK_BYTES, Event, entry_size
from languages import listing_code, three_letters
from ratings import Rating, age_of, country_of, rating_of
from xmltv_times import read_time, write_duration, write_moment, zone_of


class Folder(unittest.TestCase):
    def setUp(self) -> None:
        self._folder = tempfile.TemporaryDirectory()
        self.addCleanup(self._folder.cleanup)
        self.folder = Path(self._folder.name)

    def made(self, *programmes: str, words: "tuple[str, ...]" = (), channels: str = "a,101,1\n") -> Made:
        return made_of(self.folder, listing(*programmes), *words, channels=channels)

    def item(self, inner: str, *words: str) -> List[str]:
        """The fields of the item of a programme with these elements."""
        made = self.made(programme("202611300900", "202611301000", inner), words=words)
        self.assertEqual(len(made.items), 1, made.said)
        return made.items[0]

    def times(self, *programmes: str) -> "tuple[list[tuple[str, str, str]], str]":
        """Name, start and duration of each item, the day of 2026-11-30 left out of the start; and what was said."""
        made = self.made(*programmes)
        return [(fields[5], fields[2].replace("2026-11-30T", ""), fields[3]) for fields in made.items], made.said


def titled(title: str, start: str, stop: str = "", **attributes: str) -> str:
    return programme(f"20261130{start}", f"20261130{stop}" if stop else "", f"<title>{title}</title>", **attributes)


class Times(unittest.TestCase):
    def read(self, text: str, zone: str = "utc") -> str:
        default = zone_of(zone)
        assert default is not None
        moment = read_time(text, default)
        return "" if moment is None else write_moment(moment)

    def test_offsets_and_names_of_zones(self) -> None:
        for text in ("20261130210000 +0100", "202611302100 CET", "20261130200000", "20261130200000Z", "2026113020 GMT", "20261130210000+01:00",
                     "20261130150000 EST", "20261130200000.75 +0000", "20261201013000 +0530", "20261130210000 Europe/Berlin"):
            self.assertEqual(self.read(text), "2026-11-30T20:00:00Z", text)
        self.assertEqual(self.read("20261130"), "2026-11-30T00:00:00Z")
        self.assertEqual(self.read("20260701200000 BST"), "2026-07-01T19:00:00Z")
        self.assertEqual(self.read("20261231235960 +0000"), "2026-12-31T23:59:59Z")

    def test_a_time_without_a_zone_is_one_of_the_default(self) -> None:
        self.assertEqual(self.read("20261130200000", "+0100"), "2026-11-30T19:00:00Z")
        self.assertEqual(self.read("20260701200000", "Europe/Berlin"), "2026-07-01T18:00:00Z")

    def test_what_is_no_time(self) -> None:
        for text in ("", "2026", "202611", "20261131", "20260230120000", "20261130250000", "20261130200000 XYZ", "20261130200000 +2400",
                     "20261130200000 No/Where", "00000101000000", "tomorrow", "2026-11-30T20:00:00Z"):
            self.assertEqual(self.read(text), "", text)

    def test_durations(self) -> None:
        self.assertEqual([write_duration(seconds) for seconds in (1, 3599, 86399)], ["00:00:01", "00:59:59", "23:59:59"])


class Words(unittest.TestCase):
    def test_languages(self) -> None:
        self.assertEqual([three_letters(code) for code in ("de", "de-AT", "en_GB", "deu", "GER", "", None, "x", "qq")],
                         ["ger", "ger", "eng", "deu", "ger", None, None, None, None])
        self.assertEqual([listing_code(code) for code in ("ger", "deu", "GER", "und", "hex:0102", "tlh", "")], ["de", "de", "de", None, None, "tlh", None])

    def test_categories_in_seven_languages(self) -> None:
        rows = (
            ((2, 0), "News Nachrichten Informations Noticias Telegiornale Nieuws Nyheter"),
            ((2, 3), "Documentary Dokumentation Documentaire Documental Documentario Documentaires Dokumentär"),
            ((4, 3), "Football Fußball football Fútbol Calcio Voetbal Fotboll"),
            ((5, 0), "Children Kinder Jeunesse Infantil Bambini Kinderen Barn"),
            ((1, 0), "movie Spielfilm Téléfilm Película telefilm Speelfilm Långfilm"),
        )
        for levels, words in rows:
            for word in words.split():
                self.assertEqual(genre_of(word), levels, word)

    def test_other_categories(self) -> None:
        rows = {"Krimiserie": (1, 1), "Crime drama": (1, 1), "Science-Fiction": (1, 3), "sports TALK": (4, 2), "11.3": (11, 3), "dvb:4.9": (4, 9),
                "Football / Soccer": (4, 3), "News / Weather report": (2, 1), "16.0": None, "Newsagent": None, "": None}
        for category, levels in rows.items():
            self.assertEqual(genre_of(category), levels, category)

    def test_ratings(self) -> None:
        ages = {"12": 12, "FSK 16": 16, "16+": 16, "ab 6 Jahren": 6, "TV-14": 14, "PG-13": 13, "PG": 8, "0": 0, "5/5": 5, "U": 0,
                "": None, "2026": None, "99": None}
        for value, age in ages.items():
            self.assertEqual(age_of(value), age, value)
        countries = {"FSK": "DEU", "fsk (Deutschland)": "DEU", "V-CHIP": "USA", "NOR": "NOR", "stars": None, "": None}
        for system, country in countries.items():
            self.assertEqual(country_of(system, None), country, system)
        self.assertEqual([rating_of("DEU", age) for age in (3, 4, 12, 18, 21)], [None, *(Rating("DEU", value) for value in (1, 9, 15, 15))])


class Sizes(unittest.TestCase):
    def size(self, **fields: object) -> int:
        values = {"where": "", "start": 0, "duration": 1, "language": "eng", "name": "News", "short": "", "extended": "", **fields}
        return entry_size(Event(**values))  # type: ignore[arg-type]

    def test_an_entry_has_the_bytes_of_its_descriptors(self) -> None:
        # docs/FORMATS.md, "Body of event information", has the 23 bytes of an event with the name News.
        self.assertEqual(self.size(), 23)
        self.assertEqual(self.size(short="é"), 26)
        self.assertEqual(self.size(extended="a" * 1000), 23 + 5 * 8 + 1000)
        self.assertEqual(self.size(extended="é" * 500), 23 + 5 * 9 + 1000)
        self.assertEqual(self.size(genres=((1, 2), (3, 4)), rating=Rating("DEU", 9)), 23 + 2 + 4 + 6)

    def test_no_entry_has_more_than_1338_bytes(self) -> None:
        longest = self.size(name="a" * 100, short="a" * 150, extended="😀" * 250, genres=((1, 1),) * 8, rating=Rating("DEU", 9))
        self.assertEqual(longest, 1338)


class Places(Folder):
    def test_a_gap_stays(self) -> None:
        self.assertEqual(self.times(titled("A", "0900", "0930"), titled("B", "1000", "1030"))[0],
                         [("A", "09:00:00Z", "00:30:00"), ("B", "10:00:00Z", "00:30:00")])

    def test_a_missing_stop_is_the_next_start(self) -> None:
        items, said = self.times(titled("A", "0900"), titled("B", "0945"))
        self.assertEqual(items, [("A", "09:00:00Z", "00:45:00"), ("B", "09:45:00Z", "01:00:00")])
        self.assertIn("2 changed: it has no stop, so one is assumed", said)

    def test_a_missing_stop_is_at_most_six_hours_on(self) -> None:
        self.assertEqual(self.times(titled("A", "0900"), titled("B", "1700", "1800"))[0][0], ("A", "09:00:00Z", "06:00:00"))

    def test_an_overlap_is_cut(self) -> None:
        items, said = self.times(titled("B", "0930", "1000"), titled("A", "0900", "1100"))
        self.assertEqual(items, [("A", "09:00:00Z", "00:30:00"), ("B", "09:30:00Z", "00:30:00")])
        self.assertIn("1 changed: it is cut where the next one begins", said)

    def test_of_equal_starts_the_last_one_stands(self) -> None:
        items, said = self.times(titled("A", "0900", "1100"), titled("B", "0900", "0930"))
        self.assertEqual(items, [("B", "09:00:00Z", "00:30:00")])
        self.assertIn("1 left out: one that stands later has the same start", said)

    def test_of_a_clump_the_first_stands(self) -> None:
        items, said = self.times(titled("A", "0900", "1000", clumpidx="0/2"), titled("B", "0900", "1000", clumpidx="1/2"))
        self.assertEqual(items, [("A", "09:00:00Z", "01:00:00")])
        self.assertIn("1 left out: it shares its slot with another (clumpidx)", said)

    def test_one_without_a_length_is_left_out(self) -> None:
        items, said = self.times(titled("A", "0900", "0900"), titled("B", "0900", "0800"), titled("C", "0700", "0930"))
        self.assertEqual(items, [("C", "07:00:00Z", "02:30:00")])
        self.assertIn("2 left out: it has no length", said)

    def test_a_day_or_longer_is_in_parts(self) -> None:
        whole = programme("20261130060000", "20261201060000")
        self.assertEqual([(f[2], f[3]) for f in self.made(whole).items], [("2026-11-30T06:00:00Z", "12:00:00"), ("2026-11-30T18:00:00Z", "12:00:00")])
        almost = programme("20261130060000", "20261201055959")
        self.assertEqual([f[3] for f in self.made(almost).items], ["23:59:59"])

    def test_of_a_long_one_only_the_parts_in_the_window_stand(self) -> None:
        made = self.made(programme("19000101060000", "21000101000000"), words=("--days", "1"))
        self.assertEqual([f[2] for f in made.items], ["2026-11-29T18:00:00Z", "2026-11-30T06:00:00Z", "2026-11-30T18:00:00Z"])
        last = self.made(programme("20261129000000", "20261130060000"))
        self.assertEqual([(f[2], f[3]) for f in last.items], [("2026-11-29T12:00:00Z", "18:00:00")])

    def test_a_start_that_cannot_be_read_is_left_out(self) -> None:
        made = self.made(programme("soon"), programme("20261130090000", "later"))
        self.assertEqual([(f[2], f[3]) for f in made.items], [("2026-11-30T09:00:00Z", "01:00:00")])
        self.assertIn("1 left out: its start can't be read", made.said)
        self.assertIn("1 changed: its stop can't be read, so it counts as missing", made.said)


class Windows(Folder):
    def test_what_ends_before_or_starts_after_the_window(self) -> None:
        made = self.made(programme("20261129220000", "20261130000000"), programme("20261129230000", "20261130000001"),
                         programme("20261130235959", "20261201010000"), programme("20261201000000", "20261201010000"), words=("--days", "1"))
        # The first is cut at the start of the second, which runs into the window.
        self.assertEqual([f[2] for f in made.items], ["2026-11-29T23:00:00Z", "2026-11-30T23:59:59Z"])
        self.assertIn("1 left out: it ended before the window", made.said)
        self.assertIn("1 left out: it starts after the window", made.said)

    def test_at_most_64_days(self) -> None:
        made = self.made(programme("20270201230000", "20270202010000"), programme("20270202010000", "20270202020000"))
        self.assertEqual([f[2] for f in made.items], ["2027-02-01T23:00:00Z"])

    def test_nothing_ends_after_the_last_day(self) -> None:
        made = self.made(programme("20380422220000", "20380423000000"), programme("20380422230000", "20380423000001"),
                         words=("--from", "2038-04-20"))
        self.assertEqual([f[2] for f in made.items], ["2038-04-22T22:00:00Z"])
        self.assertIn("1 left out: it ends after the last day that DVB can write", made.said)

    def test_at_most_2000_events(self) -> None:
        starts = [f"202611{30:02}{minute // 60:02}{minute % 60:02}00" for minute in range(1440)]
        starts += [f"20261201{minute // 60:02}{minute % 60:02}00" for minute in range(700)]
        made = self.made(*(programme(start, "", "<title>A</title>") for start in starts))
        self.assertEqual(len(made.items), 2000)
        self.assertIn("140 left out: beyond 2,000 events of its service", made.said)
        self.assertEqual(len({f[1] for f in made.items}), 2000)


class Texts(Folder):
    def test_a_subtitle_is_the_short_text(self) -> None:
        self.assertEqual(self.item("<title>A</title><sub-title>B</sub-title><desc>C</desc>")[5:8], ["A", "B", "C"])

    def test_without_a_subtitle_a_short_description_is_the_short_text(self) -> None:
        self.assertEqual(self.item("<title>A</title><desc>C</desc>")[6:8], ["C", ""])
        self.assertEqual(self.item(f"<title>A</title><desc>{'c' * 151}</desc>")[6:8], ["", "c" * 151])

    def test_texts_are_cut_to_their_limits(self) -> None:
        inner = f"<title>{'é ' * 80}</title><sub-title>{'b ' * 150}</sub-title><desc>{'c ü ' * 500}</desc>"
        made = self.made(programme("202611300900", "202611301000", inner))
        name, short, extended = made.items[0][5:8]
        for size, limit in ((coded_size(name), 100), (coded_size(short), 150), (utf8_size(extended), 1000)):
            self.assertTrue(limit - 4 <= size <= limit, (size, limit))
        for what in ("its title is cut to 100 bytes", "its sub-title is cut to 150 bytes", "its description is cut to 1,000 bytes"):
            self.assertIn(f"1 changed: {what}", made.said)

    def test_no_title(self) -> None:
        self.assertEqual(self.item("<title> </title>")[5], "-")
        self.assertEqual(self.item("", "--untitled", "Programm")[5], "Programm")

    def test_control_codes_and_lines(self) -> None:
        self.assertEqual(self.item("<title>A\n &#x85;B&#xE08A; C</title><desc>x, \"y\"</desc>")[5:7], ["A B C", 'x, "y"'])

    def test_the_first_language_that_is_wanted(self) -> None:
        inner = '<title lang="sv">S</title><title lang="de">D</title><desc lang="de">d</desc><desc lang="sv">s</desc>'
        self.assertEqual(self.item(inner)[4:7], ["swe", "S", "s"])
        self.assertEqual(self.item(inner, "--lang", "eng,deu")[4:7], ["ger", "D", "d"])
        self.assertEqual(self.item("<title>A</title>", "--lang", "eng,deu")[4], "eng")
        self.assertEqual(self.item("<title>A</title>")[4], "und")

    def test_numbers_of_episodes(self) -> None:
        rows = (("0.0.0/1", "S1 E1"), (" 1 . 2/8 . ", "S2 E3"), (".41.", "E42"), ("3..", "S4"), ("..", ""), ("x", ""), ("", ""))
        for number, mark in rows:
            inner = f'<title>A</title><sub-title>B</sub-title><episode-num system="xmltv_ns">{number}</episode-num>'
            self.assertEqual(self.item(inner)[6], f"{mark}: B" if mark else "B", number)
        self.assertEqual(self.item('<title>A</title><episode-num system="onscreen">1.2.</episode-num>')[6], "")
        self.assertEqual(self.item('<title>A</title><desc>d</desc><episode-num system="xmltv_ns">1.2.</episode-num>')[6:8], ["S2 E3", "d"])

    def test_credits_when_wanted(self) -> None:
        inner = "<title>A</title><desc>D.</desc><credits><director>X</director><actor>Y</actor><actor>Z</actor></credits><date>2019</date>"
        self.assertEqual(self.item(inner)[6], "D.")
        self.assertEqual(self.item(inner, "--credits")[6], "D. Director: X. With: Y, Z. 2019.")

    def test_genres_each_once_at_most_eight(self) -> None:
        words = ("News", "nachrichten", "wat", *(f"{n}.1" for n in range(1, 10)))
        inner = "<title>A</title>" + "".join(f"<category>{word}</category>" for word in words)
        self.assertEqual(self.item(inner)[10], "2.0.0 1.1.0 2.1.0 3.1.0 4.1.0 5.1.0 6.1.0 7.1.0")

    def test_ratings(self) -> None:
        ratings = (("MPAA", "R"), ("FSK", "16"))
        inner = "<title>A</title>" + "".join(f'<rating system="{system}"><value>{value}</value></rating>' for system, value in ratings)
        self.assertEqual(self.item(inner)[8:10], ["USA", "14"])
        self.assertEqual(self.item(inner, "--country", "DEU")[8:10], ["DEU", "13"])
        self.assertEqual(self.item("<title>A</title><rating><value>16</value></rating>")[8:10], ["", ""])
        self.assertEqual(self.item("<title>A</title><rating><value>16</value></rating>", "--country", "NOR")[8:10], ["NOR", "13"])


class Blocks(Folder):
    def block(self, count: int, step: int, inner: str) -> "tuple[Made, int]":
        starts = [f"20261130{9 + k * step // 3600:02}{k * step // 60 % 60:02}{k * step % 60:02}" for k in range(count)]
        made = self.made(*(programme(start, "", inner) for start in starts))
        events = [Event("", 0, 1, f[4], f[5], f[6], f[7]) for f in made.items]
        return made, sum(map(entry_size, events))

    def test_descriptions_are_cut_until_three_hours_fit(self) -> None:
        made, size = self.block(30, 300, f"<title>Title</title><desc>{'word ' * 190}</desc>")
        self.assertTrue(BLOCK_BYTES - 1000 < size <= BLOCK_BYTES, size)
        self.assertEqual(len(made.items), 30)
        self.assertIn("30 changed: its texts are cut, since its three hours have more than 20,000 bytes", made.said)

    def test_then_short_texts_and_the_last_events_go(self) -> None:
        made, size = self.block(400, 20, f"<title>Title</title><sub-title>{'x' * 140}</sub-title>")
        self.assertEqual((len(made.items), {f[6] for f in made.items}), (400, {""}))
        made, size = self.block(400, 20, f"<title>{'T' * 90}</title>")
        self.assertEqual((len(made.items), size), (BLOCK_BYTES // 109, BLOCK_BYTES // 109 * 109))
        self.assertIn("217 left out: its three hours have more than 20,000 bytes", made.said)


class Channels(Folder):
    def test_edits_are_a_clear_and_days(self) -> None:
        made = self.made(programme("20261130233000", "20261201003000"), programme("20261201010000", "20261201020000"))
        self.assertEqual([line for line in made.lines if not line.startswith("item")],
                         ["feed,1,clear,101", "feed,1,day,101,2026-11-30,1", "feed,1,day,101,2026-12-01,1"])

    def test_the_form_of_a_feed(self) -> None:
        both = titled("A", "0900", "1000"), titled("B", "0900", "1000", channel="b")
        made = self.made(*both, words=("--form", "feed", "--feed", "2"), channels="a,101,1\nb,102,2\n")
        self.assertEqual([line for line in made.lines if not line.startswith("item")], ["clear,102", "day,102,2026-11-30,1"])

    def test_a_channel_that_is_shown_later(self) -> None:
        made = self.made(titled("A", "0900", "1000"), channels="# comment\n\na, 101, 1\na,102,1,60\n")
        self.assertEqual([f[2] for f in made.items], ["2026-11-30T09:00:00Z", "2026-11-30T10:00:00Z"])

    def test_a_channel_without_programmes_keeps_what_it_has(self) -> None:
        made = self.made(titled("A", "0900", "1000"), titled("B", "0900", "1000", channel="x"), channels="a,101,1\nb,102,1\n")
        self.assertNotIn("feed,1,clear,102", made.lines)
        self.assertIn("b has no programme for service 102, which gets no edit", made.said)
        self.assertIn("1 left out: its channel is not in the map", made.said)

    def test_nothing_at_all_is_an_error(self) -> None:
        made = self.made(titled("B", "0900", "1000", channel="x"))
        self.assertEqual((made.status, made.lines), (1, []))

    def test_a_publish_at_the_end(self) -> None:
        made = self.made(titled("A", "0900", "1000"), words=("--publish", "2026-11-30T20:20:00Z"))
        self.assertEqual(made.lines[-3:], ["tick,2026-11-30T20:20:00Z", "publish", "swap"])

    def test_lines_of_a_map_that_are_none(self) -> None:
        for line in ("a", "a,101", "a,0,1", "a,65536,1", "a,101,17", "a,101,1,x", ",101,1", "a,101,1,60,7", 'a,"101'):
            made = self.made(titled("A", "0900", "1000"), channels=f"b,100,1\n{line}\n")
            self.assertEqual((made.status, "c.csv: line 2: " in made.said), (1, True), made.said)
        self.assertIn("service 101 has feed 1", self.made(titled("A", "0900", "1000"), channels="a,101,1\nb,101,2\n").said)

    def test_the_multiplex_has_the_services_of_the_map(self) -> None:
        mux = self.folder / "mux.txt"
        mux.write_text('network,1,"A, B"\nservice,101,1,1,256,257,A,B\nend\nfeed,1,clear,102\n', encoding="utf-8")
        self.assertEqual(self.made(titled("A", "0900", "1000"), words=("--mux", str(mux))).status, 0)
        for channels in ("a,101,2\n", "a,102,1\n"):
            made = self.made(titled("A", "0900", "1000"), words=("--mux", str(mux)), channels=channels)
            self.assertEqual((made.status, "which the map has for a" in made.said), (1, True))

    def test_a_service_of_another_stream_has_a_feed_too(self) -> None:
        mux = self.folder / "mux.txt"
        mux.write_text("network,1,N\nother,2,1\nremote,2,1,102,3,1,A,B\nend\n", encoding="utf-8")
        for channels, status in (("a,102,3\n", 0), ("a,102,1\n", 1)):
            self.assertEqual(self.made(titled("A", "0900", "1000"), words=("--mux", str(mux)), channels=channels).status, status)


class Ids(Folder):
    def ids(self, *programmes: str) -> List[int]:
        made = self.made(*programmes, words=("--ids", str(self.folder / "ids.json")))
        return [int(fields[1]) for fields in made.items]

    def test_an_id_stays(self) -> None:
        first = self.ids(titled("A", "0900", "1000"), titled("B", "1000", "1100"), titled("C", "1100", "1200"))
        moved = self.ids(titled("A", "0900", "0930"), titled("B", "1030", "1100"), titled("D", "1100", "1200"))
        self.assertEqual(moved[:2], first[:2])
        self.assertNotIn(moved[2], first)
        back = self.ids(titled("C", "1100", "1200"), titled("A", "2000", "2100"))
        self.assertEqual(back[0], first[2])
        self.assertNotEqual(back[1], first[0])

    def test_the_nearest_one_moves(self) -> None:
        first = self.ids(titled("News", "0900"), titled("News", "1000"), titled("News", "1100"))
        self.assertEqual(self.ids(titled("News", "0905"), titled("News", "1005"), titled("News", "1105")), first)

    def test_ids_are_forgotten_with_their_day(self) -> None:
        self.ids(titled("A", "0900", "1000"))
        self.made(programme("20261202090000", "20261202100000"), words=("--ids", str(self.folder / "ids.json"), "--from", "2026-12-02"))
        kept = json.loads((self.folder / "ids.json").read_text(encoding="utf-8"))
        self.assertEqual(list(kept["101"].values()), [["2026-12-02T09:00:00Z", "A"]])

    def test_without_a_file_ids_are_of_day_and_minute(self) -> None:
        rows = [self.made(programme(start, stop, "<title>A</title>")).items[0][1] for start, stop in (("202612010900", "202612011000"),) * 2]
        self.assertEqual(rows[0], rows[1])

    def test_an_id_is_found_where_all_are_known(self) -> None:
        event = Event("", 1795000000, 60, "eng", "New", "", "")
        full = {number: Airing(number, "old") for number in range(65536)}
        self.assertEqual(len(numbered([event], full)), 1)

    def test_a_file_of_another_kind(self) -> None:
        for text in ("", "[]", '{"a": 1}', '{"101": {"70000": ["2026-11-30T09:00:00Z", "A"]}}', '{"101": {"1": ["x", "A"]}}', '{"101": {"1": 5}}', "\xff"):
            (self.folder / "ids.json").write_text(text, encoding="latin-1")
            made = self.made(titled("A", "0900", "1000"), words=("--ids", str(self.folder / "ids.json")))
            self.assertEqual((made.status, "no file of event_ids" in made.said, made.lines), (1, True, []), text)
            self.assertEqual((self.folder / "ids.json").read_text(encoding="latin-1"), text)


class BadInput(Folder):
    """No edits and no ids are written where a listing can't be read; the message has the line."""

    def run_over(self, data: bytes, *words: str) -> "tuple[int, bytes, str]":
        (self.folder / "c.csv").write_text("a,101,1\n", encoding="utf-8")
        (self.folder / "ids.json").write_text("{}", encoding="utf-8")
        map_and_ids = ["--map", str(self.folder / "c.csv"), "--from", "2026-11-30", "--ids", str(self.folder / "ids.json")]
        return run_tool("from_xmltv", [*map_and_ids, *words], data)

    def assert_refused(self, data: bytes, *what: str) -> None:
        status, out, said = self.run_over(data)
        self.assertEqual((status, out), (1, b""), said)
        for part in what:
            self.assertIn(part, said)
        self.assertNotIn("Traceback", said)
        self.assertEqual(sorted(path.name for path in self.folder.iterdir()), ["c.csv", "ids.json"])
        self.assertEqual((self.folder / "ids.json").read_text(encoding="utf-8"), "{}")

    GOOD = listing(titled("A", "0900", "1000"), titled("B", "1000", "1100")).encode()

    def test_bad_xml(self) -> None:
        self.assert_refused(self.GOOD.replace(b"</tv>", b""), "standard input: line 5: no element found")
        self.assert_refused(self.GOOD.replace(b"<title>B", b"<title>B & C"), "line 3: ")
        self.assert_refused(self.GOOD.replace(b"<title>B", b"<title>&nbsp;"), "line 3: undefined entity")
        self.assert_refused(b'<!DOCTYPE tv SYSTEM "xmltv.dtd">\n' + self.GOOD.replace(b"<title>B", b"<title>&nbsp;"), "line 4: undefined entity '&nbsp;'")
        self.assert_refused(b"", "line 1: ")
        self.assert_refused(b"<html>\n</html>", "line 1: the root element is 'html', and not 'tv'")
        self.assert_refused(self.GOOD.replace(b"A", b"\xff"), "line 2: ")
        self.assert_refused(b'<?xml version="1.0" encoding="no-such"?>' + self.GOOD, "line 1: ")

    def test_an_entity_bomb(self) -> None:
        bomb = "".join(f'<!ENTITY e{n} "{f"&e{n - 1};" * 10}">\n' for n in range(1, 20))
        self.assert_refused(f'<!DOCTYPE tv [\n<!ENTITY e0 "lol">\n{bomb}]>\n<tv>&e19;</tv>'.encode(), "line 2: declares the entity 'e0'")
        self.assert_refused(b'<!DOCTYPE tv [<!ENTITY x SYSTEM "file:///etc/passwd">]>\n<tv/>', "line 1: declares the entity 'x'")
        self.assert_refused(b'<!DOCTYPE tv [<!ENTITY % x SYSTEM "file:///etc/passwd"> %x;]>\n<tv/>', "line 1: declares the entity 'x'")

    def test_gzip(self) -> None:
        packed = gzip.compress(self.GOOD)
        status, out, said = self.run_over(packed)
        self.assertEqual((status, out.count(b"item,")), (0, 2), said)
        (self.folder / "ids.json").write_text("{}", encoding="utf-8")
        self.assert_refused(packed[: len(packed) - 20], "line ", "the gzip data end too early")
        self.assert_refused(packed[:-4] + b"\x00\x00\x00\x00", "damaged gzip data")
        self.assert_refused(packed[:30] + b"\xff\xff" + packed[32:], "line ")

    def test_files_that_are_not_there(self) -> None:
        for words in (("no-such.xml",), (str(self.folder),), ("--map", "no-such.csv"), ("--mux", "no-such.txt")):
            status, out, said = self.run_over(self.GOOD, *words)
            self.assertEqual((status, out), (1, b""), said)
            self.assertNotIn("Traceback", said)

    def test_a_folder_that_cannot_be_written_to(self) -> None:
        for words in (("--ids", "/no/such/ids.json"), ("--output", "/no/such/edits.txt")):
            status, out, said = self.run_over(self.GOOD, *words)
            self.assertEqual((status, out, "/no/such/" in said), (1, b"", True), said)
            self.assertEqual(sorted(path.name for path in self.folder.iterdir()), ["c.csv", "ids.json"])

    def test_a_reader_that_goes_away(self) -> None:
        words = f"--map {SAMPLES}/channels.csv --from 2026-11-30 {SAMPLES}/german.xml"
        command = f"{sys.executable} -B {XMLTV}/from_xmltv {words} | true"
        run = subprocess.run(["bash", "-c", command], capture_output=True, text=True, check=False)
        self.assertNotIn("Traceback", run.stderr)

    def test_words_that_are_none(self) -> None:
        for words in (("--days", "65"), ("--from", "2038-04-23"), ("--zone", "here"), ("--lang", "x"), ("--country", "de"), ("--untitled", ""),
                      ("--publish", "noon"), ("--form", "feed"), ("-", "-")):
            status, out, said = self.run_over(self.GOOD, *words)
            self.assertEqual((status, out, "usage" in said), (2, b"", True), words)


class Saying(Folder):
    def test_help(self) -> None:
        for tool in ("from_xmltv", "make_week"):
            run = subprocess.run([sys.executable, "-B", str(XMLTV / tool), "--help"], capture_output=True, text=True, check=True)
            self.assertIn(f"usage: {tool}", run.stdout)

    def test_each_one_is_named_when_wanted(self) -> None:
        made = self.made(titled("A", "0900"), titled("B", "0930", "0930"), words=("--explain",))
        self.assertIn("l.xml line 2: A: changed: it has no stop, so one is assumed\n", made.said)
        self.assertIn("l.xml line 3: B: left out: it has no length\n", made.said)

    def test_what_was_not_understood_is_said(self) -> None:
        made = self.made(programme("202611300900", "", '<title>A</title><category>Odd</category><rating system="stars"><value>many</value></rating>'))
        self.assertIn("#   categories without a genre: Odd (1)\n", made.said)
        self.assertIn("#   ratings without an age or a country: stars many (1)\n", made.said)


if __name__ == "__main__":
    unittest.main()
