"""Listings through from_xmltv, `play`, `listen` and to_xmltv: no edit is refused, and what was listed comes back.

The program is the one that LEPNUGAN names, else the one of this checkout; without one these tests are skipped. LISTINGS says how many random
listings are tried, 40 if nothing does."""
import os
import shutil
import subprocess
import tempfile
import unittest
from pathlib import Path
from typing import Dict, List, NamedTuple, Optional, Tuple
from xml.etree import ElementTree

from xmltv_listings import (
    FIRST_DAY, LISTED, SAMPLES, WildKinds, links_and_kinds_of, listing, program, programme, refused, run_program, run_tool, texts_of,
)

from ratings import age_of
from xmltv_times import read_time, zone_of

DTD = Path("/usr/share/xmltv/xmltv.dtd")
LISTINGS = int(os.environ.get("LISTINGS", "40"))
RUN = 10
PUBLISH = "2026-11-30T20:20:00Z"


class Said(NamedTuple):
    """What a listing says of a programme that must come back."""

    stop: Optional[int]
    title: Optional[str]
    subtitle: Optional[str]
    description: Optional[str]
    number: Optional[str]
    ages: Tuple[Optional[int], ...]

    def with_one_text(self) -> "Said":
        """The same with sub-title and description as one, since the air does not say which a short text is that stands without another."""
        texts = [text for text in (self.subtitle, self.description) if text]
        return self._replace(subtitle=None, description=" ".join(texts) or None)


Programmes = Dict[Tuple[str, Optional[int]], Said]


def programmes_of(data: bytes) -> Programmes:
    """The programmes of a listing by channel and start."""
    utc = zone_of("utc")
    assert utc is not None
    found: Programmes = {}
    for element in ElementTree.fromstring(data).iter("programme"):
        texts = texts_of(element)
        ages = tuple(age_of(rating.findtext("value") or "") for rating in element.findall("rating"))
        key = (element.get("channel") or "", read_time(element.get("start"), utc))
        said = Said(read_time(element.get("stop"), utc), texts["title"], texts["sub-title"], texts["desc"], texts["episode-num"], ages)
        found[key] = said
    return found


class Runs(unittest.TestCase):
    def setUp(self) -> None:
        self.program = program()
        self._folder = tempfile.TemporaryDirectory()
        self.addCleanup(self._folder.cleanup)
        self.folder = Path(self._folder.name)

    def edits(self, channels: Path, listings: List[Path], *words: str) -> bytes:
        status, out, said = run_tool("from_xmltv", ["--map", str(channels), "--from", FIRST_DAY, *words, *map(str, listings)], b"")
        self.assertEqual(status, 0, said)
        return out

    def air(self, mux: Path, edits: bytes) -> bytes:
        """The air of a description and these edits, of which none is refused."""
        run = run_program(["play"], mux.read_bytes() + edits)
        self.assertEqual((run.returncode, refused(run.stderr.decode())), (0, []))
        return run.stdout

    def listing_of(self, air: bytes, channels: Path, *words: str) -> bytes:
        heard = run_program(["listen", *words], air)
        self.assertEqual(heard.returncode, 0, heard.stderr[-200:])
        status, out, said = run_tool("to_xmltv", ["--map", str(channels)], heard.stderr)
        self.assertEqual(status, 0, said)
        return out

    def test_a_week_of_20_services_comes_back(self) -> None:
        self.assertEqual(run_tool("make_week", ["--from", FIRST_DAY, str(self.folder)], b"")[0], 0)
        channels, mux, listings = (self.folder / name for name in ("channels.csv", "mux.txt", "listings.xml"))
        edits = self.edits(channels, [listings], "--mux", str(mux), "--publish", PUBLISH)
        back = self.listing_of(self.air(mux, edits), channels)
        listed, heard = programmes_of(listings.read_bytes()), programmes_of(back)
        # A schedule begins with the day of its publication, in UTC: the programmes that start before it are not in it, but for the present.
        first = read_time("20261130", zone_of("utc"))  # type: ignore[arg-type]
        wanted = {key: said for key, said in listed.items() if key[1] is not None and first is not None and key[1] >= first}
        self.assertEqual(len(heard), len(wanted))
        self.assertGreater(len(heard), 3300)
        for key, said in wanted.items():
            both = said.subtitle is not None and said.description is not None
            self.assertEqual(heard[key] if both else heard[key].with_one_text(), said if both else said.with_one_text(), key)
        self.assert_taken(back)

    def assert_taken(self, data: bytes) -> None:
        """Where they are there, xmllint finds it valid, and tv_sort takes it."""
        path = self.folder / "back.xml"
        path.write_bytes(data)
        if shutil.which("xmllint") and DTD.is_file():
            subprocess.run(["xmllint", "--nowarning", "--noout", "--dtdvalid", str(DTD), str(path)], check=True)
        if shutil.which("tv_sort"):
            run = subprocess.run(["tv_sort", "--output", os.devnull, str(path)], check=True, capture_output=True)
            self.assertEqual(run.stderr, b"")

    def test_the_dialects_come_back(self) -> None:
        channels, mux = SAMPLES / "channels.csv", SAMPLES / "mux.txt"
        edits = self.edits(channels, sorted(SAMPLES.glob("*.xml")), "--mux", str(mux), "--publish", PUBLISH)
        back = self.listing_of(self.air(mux, edits), channels)
        found = programmes_of(back)
        self.assertEqual(len(found), edits.count(b"\nitem,"))
        by_title = {said.title: said for said in found.values()}
        self.assertEqual(by_title["The Late Harbor"][2:], ("Pilot", "A keeper finds a letter.", "0.0.", (14,)))
        self.assertEqual(by_title["Vinter i skärgården"].number, "1.2.")
        quiz = "Zwei Paare raten um die Wette, was im Advent „wirklich“ zählt; Zeile zwei hat einen Umbruch & ein Komma, und \"gerade\" Anführungszeichen."
        self.assertEqual(by_title["Wer weiß denn sowas XXL"].description, quiz)
        self.assert_taken(back)

    def test_what_came_back_gives_the_same_air(self) -> None:
        channels, mux = SAMPLES / "channels.csv", SAMPLES / "mux.txt"
        shown = self.folder / "shown.csv"
        shown.write_text("".join(f"{service},{service},{feed}\n" for service, feed in ((101, 1), (102, 1), (103, 2), (104, 2), (105, 2), (106, 1))))
        first = self.edits(channels, sorted(SAMPLES.glob("*.xml")), "--publish", PUBLISH)
        heard = run_program(["listen"], self.air(mux, first)).stderr
        path = self.folder / "back.xml"
        self.assertEqual(run_tool("to_xmltv", ["--id", "{service}", "--output", str(path)], heard)[0], 0)
        self.assertEqual(self.edits(shown, [path], "--publish", PUBLISH).split(b"\n"), first.split(b"\n"))

    def test_as_many_events_as_a_service_may_have(self) -> None:
        mux, channels, path = (self.folder / name for name in ("mux.txt", "channels.csv", "listings.xml"))
        mux.write_text("network,1,N\nstream,1,1\nservice,101,1,1,256,257,P,N\nend\n", encoding="utf-8")
        channels.write_text("a,101,1\n", encoding="utf-8")
        starts = [f"202612{1 + k // 1440:02}{k // 60 % 24:02}{k % 60:02}" for k in range(2100)]
        path.write_text(listing(*(programme(start) for start in starts)), encoding="utf-8")
        edits = self.edits(channels, [path])
        self.assertEqual(edits.count(b"\nitem,"), 2000)
        self.air(mux, edits)

    def test_links_and_kinds_come_back(self) -> None:
        """Those of a listing are descriptors of an event on air, and a receiver's guide has them."""
        mux, channels, path = (self.folder / name for name in ("mux.txt", "channels.csv", "listings.xml"))
        mux.write_text("network,1,N\nstream,1,1\nservice,101,1,1,256,257,P,N\nend\n", encoding="utf-8")
        channels.write_text("a,101,1\n", encoding="utf-8")
        path.write_text(listing(programme("202611302000", "202611302100", LISTED)), encoding="utf-8")
        air = self.air(mux, self.edits(channels, [path], "--descriptors", "--publish", PUBLISH))
        listed, without = links_and_kinds_of(path.read_bytes()), links_and_kinds_of(self.listing_of(air, channels))
        self.assertEqual((len(listed), without), (6, []))
        self.assertEqual(links_and_kinds_of(self.listing_of(air, channels, "--details")), listed)

    def test_random_listings_are_not_refused(self) -> None:
        mux, channels = self.folder / "mux.txt", self.folder / "channels.csv"
        mux.write_text("network,1,N\nstream,1,1\n" + "".join(f"service,{s},{s},1,{256 + s},{300 + s},P,N\n" for s in (1, 2, 3)) + "end\n", encoding="utf-8")
        channels.write_text("a,1,1\nb,2,2\na,3,3,-90\nb,3,3\n", encoding="utf-8")
        for first in range(0, LISTINGS, RUN):
            # The edits of one listing are for a desk that has those of the one before.
            (self.folder / "ids.json").unlink(missing_ok=True)
            edits = b"".join(self.edits_of(seed, channels) for seed in range(first, min(first + RUN, LISTINGS)))
            self.assertIn(b"\nitem,", edits)
            air = self.air(mux, edits + b"tick,2026-11-30T20:20:00Z\npublish\nswap\n")
            if first % 100 == 0:
                self.listing_of(air, channels)

    def edits_of(self, seed: int, channels: Path) -> bytes:
        """The edits of a random listing; none where nothing of it can be put on air."""
        wild = WildKinds(seed)
        path = self.folder / "wild.xml"
        path.write_bytes(wild.listing(("a", "b")))
        words = ["--map", str(channels), "--from", FIRST_DAY, "--ids", str(self.folder / "ids.json"), *wild.words()]
        status, out, said = run_tool("from_xmltv", [*words, str(path)], b"")
        self.assertTrue(status == 0 or "nothing to print" in said, said)
        return out


if __name__ == "__main__":
    unittest.main()
