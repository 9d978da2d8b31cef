"""Listings for the tests of tools/xmltv: short ones, random ones, and what the tools do with them."""
from __future__ import annotations

import contextlib
import csv
import io
import os
import random
import subprocess
import sys
import unittest
from datetime import datetime, timedelta, timezone
from functools import lru_cache
from pathlib import Path
from typing import Dict, List, NamedTuple, Optional, Sequence
from unittest import mock
from xml.etree.ElementTree import Element, SubElement, fromstring, tostring

from loading import TOOLS, load

XMLTV = TOOLS / "xmltv"
sys.path.insert(1, str(XMLTV))
SAMPLES = XMLTV / "samples"
FIRST = datetime(2026, 11, 30, tzinfo=timezone.utc)
FIRST_DAY = "2026-11-30"


def program() -> Path:
    """The program: the one that LEPNUGAN names, else the one of this checkout. A test that asks for it is skipped where there is none."""
    path = Path(os.environ.get("LEPNUGAN") or TOOLS.parent / "crates" / "headend_main" / "out" / "headend_main").resolve()
    if not os.access(path, os.X_OK):
        missing = f"no program: {path} is not there"
        say(f"tests of tools/xmltv: {missing}, so listings are not put on air; LEPNUGAN=PATH names another")
        raise unittest.SkipTest(missing)
    return path


@lru_cache(maxsize=None)
def say(line: str) -> None:
    """Says it once."""
    print(line, file=sys.stderr)


# ---- short listings


def programme(start: str, stop: str = "", inner: str = "<title>A</title>", channel: str = "a", **attributes: str) -> str:
    words = {"start": start, **({"stop": stop} if stop else {}), "channel": channel, **attributes}
    return "<programme " + " ".join(f'{name}="{value}"' for name, value in words.items()) + f">{inner}</programme>"


def listing(*programmes: str) -> str:
    return "<tv>\n" + "\n".join(programmes) + "\n</tv>\n"


class Made(NamedTuple):
    """What from_xmltv made of a listing: its status, the lines of edits, those of items in their fields, and what it said."""

    status: int
    lines: List[str]
    items: List[List[str]]
    said: str


def made_of(folder: Path, text: str, *words: str, channels: str = "a,101,1\n") -> Made:
    """Runs from_xmltv over a listing, in this process, in a folder."""
    (folder / "l.xml").write_text(text, encoding="utf-8")
    (folder / "c.csv").write_text(channels, encoding="utf-8")
    out = folder / "edits.txt"
    out.unlink(missing_ok=True)
    said = io.StringIO()
    with contextlib.redirect_stderr(said):
        status = load("xmltv/from_xmltv").main(
            ["--map", str(folder / "c.csv"), "--from", FIRST_DAY, "--output", str(out), *words, str(folder / "l.xml")]
        )
    lines = out.read_text(encoding="utf-8").splitlines() if out.exists() else []
    return Made(status, lines, [fields for fields in csv.reader(lines) if fields[0] == "item"], said.getvalue())


def run_tool(name: str, words: Sequence[str], data: bytes) -> "tuple[int, bytes, str]":
    """Runs a tool in this process, with a standard input: its status, what it prints, and what it says."""
    source, out, said = (io.TextIOWrapper(buffer, encoding="utf-8") for buffer in (io.BufferedReader(io.BytesIO(data)), io.BytesIO(), io.BytesIO()))
    tool = load(f"xmltv/{name}")
    with mock.patch.object(sys, "stdin", source), contextlib.redirect_stdout(out), contextlib.redirect_stderr(said):
        try:
            status = tool.main(list(words))
        except SystemExit as end:
            status = end.code
    out.flush()
    said.flush()
    return status, out.buffer.getvalue(), said.buffer.getvalue().decode("utf-8")


# ---- runs of the program


def refused(report: str) -> List[str]:
    """The outcomes of a journal that are of no accepted command."""
    taken = ("=,done", "=,ticked", "=,published,", "=,swapped,")
    return [line for line in report.splitlines() if line.startswith(("=,", "fault: ")) and not line.startswith(taken)]


def run_program(words: Sequence[str], data: bytes) -> "subprocess.CompletedProcess[bytes]":
    return subprocess.run([str(program()), *words], input=data, capture_output=True, check=False)


# ---- links and kinds

# A programme with links of itself and of its series, and with kinds of components.
LISTED = (
    '<title lang="de">Tatort</title><episode-num system="programme_crid">crid://example.com/E7</episode-num>'
    '<episode-num system="series_crid">crid://example.com/S2</episode-num><video><aspect>16:9</aspect><quality>HDTV</quality></video>'
    '<audio><stereo>dolby digital</stereo></audio><subtitles type="teletext"><language>de</language></subtitles>'
    '<subtitles type="deaf-signed" />'
)


def links_and_kinds_of(document: bytes) -> List[str]:
    """The elements of links and kinds of the one programme of a listing, without spaces."""
    (found,) = fromstring(document).findall("programme")
    tags = ("episode-num", "video", "audio", "subtitles")
    return ["".join(tostring(part, encoding="unicode").split()) for part in found if part.tag in tags]


# ---- random listings

LETTERS = [
    "abc def, GHI! 'x' \"y\"", "äöüß éèê ñ", "„…“ – ―", "中文節目", "Ελληνικά", "😀🎬", "a_b <i>&", "e\u0301\u0327", "\u00a0\u2028\u200b", "\ue000\uf8ff",
]
ZONES = ["", " +0000", " +0100", " -0500", "+0530", " CET", " EDT", " Z", " ????", " +0245", " +9999"]
CATEGORIES = ["News", "Krimi", "weird", "4.3", "Movie / Drama", "", "Fußball", "comédie", "15.15", "16.1"]
RATINGS = [("FSK", "12"), ("FSK", "0"), ("MPAA", "PG-13"), ("", "16"), ("XYZ", "21"), ("stars", "5/5"), ("VCHIP", "TV-MA"), ("x", "")]
LANGUAGES = ["", "de", "en-GB", "deu", "xx", "zz", "sv", "1234"]


@lru_cache(maxsize=None)
def texts(longest: int) -> List[str]:
    """Texts of all kinds of letters, up to twice as long as asked for."""
    chance = random.Random(longest)
    made = []
    for size in (0, 1, 3, longest // 10, longest // 2, longest) * 8:
        words: List[str] = []
        while sum(map(len, words)) < size:
            words.append(chance.choice(LETTERS))
        made.append(chance.choice((" ", "", "\n")).join(words)[: 2 * size])
    return made


class Wild:
    """Makes listings with all kinds of programmes, from a number."""

    def __init__(self, seed: int) -> None:
        self.chance = random.Random(seed)

    def time(self, moment: datetime) -> str:
        shape = self.chance.choice(("%Y%m%d%H%M%S",) * 8 + ("%Y%m%d%H%M", "%Y%m%d", "%Y%m", "%Y%m%d%H%M%S.5"))
        return moment.strftime(shape) + (self.chance.choice(ZONES) if self.chance.random() < 0.2 else " +0000")

    def add_programme(self, tv: Element, channel: str, start: datetime) -> None:
        chance = self.chance
        seconds = chance.choice((0, 1, 30, 300, 900, 3600, 5400, 7200, -60, 86399, 86400, 200000))
        found = SubElement(tv, "programme", start=self.time(start), channel=channel)
        if chance.random() < 0.8:
            found.set("stop", self.time(start + timedelta(seconds=seconds)))
        if chance.random() < 0.05:
            found.set("clumpidx", chance.choice(("0/2", "1/2", "x")))
        for tag, longest, most in (("title", 150, 2), ("sub-title", 200, 1), ("desc", 1500, 2)):
            for _ in range(chance.randint(0, most)):
                SubElement(found, tag, lang=chance.choice(LANGUAGES)).text = chance.choice(texts(longest))
        for _ in range(chance.choice((0, 1, 2, 12))):
            SubElement(found, "category").text = chance.choice(CATEGORIES)
        if chance.random() < 0.3:
            number = chance.choice(("0.1.", " 1 . 2/3 . ", "..", "99999.99999.", "x.y.z", "."))
            SubElement(found, "episode-num", system="xmltv_ns").text = number
        for _ in range(chance.choice((0, 1, 2))):
            system, value = chance.choice(RATINGS)
            SubElement(SubElement(found, "rating", system=system), "value").text = value

    def channel(self, tv: Element, channel: str) -> None:
        """A channel of a few days, or of an hour with a programme each few seconds; now and then one with more than 2,000."""
        few = ((0, 60), (5, 7200), (20, 3600), (60, 3600), (80, 600), (120, 20))
        programmes, step = (2300, 300) if self.chance.random() < 0.02 else self.chance.choice(few)
        start = FIRST + timedelta(seconds=self.chance.randint(-100000, 100000))
        for _ in range(programmes):
            self.add_programme(tv, channel, start)
            start += timedelta(seconds=self.chance.choice((0, 1, step, step, 2 * step)))

    def listing(self, channels: Sequence[str]) -> bytes:
        tv = Element("tv")
        for channel in channels:
            self.channel(tv, channel)
        return tostring(tv, encoding="utf-8")

    def words(self) -> List[str]:
        """Options of from_xmltv."""
        optional = (
            ["--credits"], ["--lang", "ger,eng"], ["--zone", "-0330"], ["--country", "NOR"], ["--untitled", "…" * 33], ["--last", "1439"],
            ["--descriptors"],
        )
        return [word for words in optional if self.chance.random() < 0.3 for word in words] + ["--days", self.chance.choice(("1", "7", "64"))]


class WildKinds(Wild):
    """Random listings with links and kinds of all sorts."""

    SYSTEMS = ("programme_crid", "series_crid", "series_crid", "crid", "xmltv_ns")
    ASPECTS = ("4:3", "16:9", "2.35:1", "14:9", "", "\ufffd", "1:0")
    STEREOS = ("mono", "stereo", "Dolby Digital", "surround", "x")

    def add_programme(self, tv: Element, channel: str, start: datetime) -> None:
        super().add_programme(tv, channel, start)
        chance, found = self.chance, tv[-1]
        for _ in range(chance.choice((0, 1, 2, 5))):
            crid = chance.choice(("crid://a.test/", "/", "b.test/", "", "é/")) + "x" * chance.choice((0, 1, 5, 30, 120, 230, 240, 300))
            SubElement(found, "episode-num", system=chance.choice(self.SYSTEMS)).text = crid
        if chance.random() < 0.5:
            SubElement(SubElement(found, "video"), "aspect").text = chance.choice(self.ASPECTS)
            SubElement(SubElement(found, "audio"), "stereo").text = chance.choice(self.STEREOS)
        for _ in range(chance.choice((0, 0, 1, 3, 40))):
            subtitles = SubElement(found, "subtitles", type=chance.choice(("teletext", "onscreen", "deaf-signed")))
            SubElement(subtitles, "language").text = "".join(chance.choice("abc") for _ in range(chance.choice((2, 3, 3))))


def texts_of(found: Element) -> Dict[str, Optional[str]]:
    """The title, sub-title, description and number of a programme in one line each."""
    tags = ("title", "sub-title", "desc", "episode-num")
    return {tag: " ".join((found.findtext(tag) or "").split()) or None for tag in tags}
