"""Tests of tools/offset."""
import contextlib
import io
import unittest
from datetime import datetime, timedelta, timezone, tzinfo
from typing import List, Optional, Tuple
from unittest import mock
from zoneinfo import ZoneInfo

from loading import load

tool = load("offset")

NOW = datetime(2026, 11, 29, tzinfo=timezone.utc)
LAST = "2038-04-22T23:59:59Z"


def has_zone_data() -> bool:
    try:
        ZoneInfo("Europe/London")
    except (KeyError, OSError, ValueError):
        return False
    return True


class Made(tzinfo):
    """A zone that is made of the minutes at first, and of changes: the moment in UTC, and the minutes from then on."""

    def __init__(self, first: float, *changes: Tuple[str, float]) -> None:
        self.first = first
        self.changes = [(datetime.fromisoformat(f"{moment}+00:00"), minutes) for moment, minutes in changes]

    def minutes_at(self, moment: datetime) -> float:
        return [self.first, *(minutes for change, minutes in self.changes if change <= moment)][-1]

    def fromutc(self, moment: datetime) -> datetime:
        minutes = self.minutes_at(moment.replace(tzinfo=timezone.utc))
        return (moment + timedelta(minutes=minutes)).replace(tzinfo=timezone(timedelta(minutes=minutes)))

    def utcoffset(self, moment: Optional[datetime]) -> Optional[timedelta]:
        return timedelta(minutes=self.first)


def line(zone: tzinfo, at: datetime = NOW) -> str:
    """The line of a zone, without its word, country and region."""
    written = str(tool.offset_line(zone, "GBR", 3, at))
    assert written.startswith("offset,GBR,3,")
    return written[len("offset,GBR,3,"):]


def run(*words: str) -> Tuple[int, str, str]:
    """The status, and what goes to the two outputs."""
    out, err = io.StringIO(), io.StringIO()
    with contextlib.redirect_stdout(out), contextlib.redirect_stderr(err):
        try:
            status = tool.main(list(words))
        except SystemExit as end:
            status = int(str(end.code))
    return status, out.getvalue(), err.getvalue()


class MadeZones(unittest.TestCase):
    def test_the_next_change_is_found_to_the_second(self) -> None:
        for moment in ("2026-11-29T00:00:01", "2026-11-29T12:00:00", "2027-03-28T01:00:00", "2037-10-25T00:59:59", "2038-04-22T23:59:59"):
            self.assertEqual(line(Made(60, (moment, 120))), f"ahead,60,{moment}Z,120")

    def test_only_the_first_change_counts(self) -> None:
        zone = Made(0, ("2027-03-28T01:00:00", 60), ("2027-03-29T01:00:00", 0), ("2027-10-31T01:00:00", 30))
        self.assertEqual(line(zone), "ahead,0,2027-03-28T01:00:00Z,60")
        self.assertEqual(line(zone, datetime(2027, 3, 28, 1, tzinfo=timezone.utc)), "ahead,60,2027-03-29T01:00:00Z,0")
        self.assertEqual(line(zone, datetime(2027, 10, 31, 1, tzinfo=timezone.utc)), f"ahead,30,{LAST},30")

    def test_a_change_at_the_moment_itself_is_past(self) -> None:
        self.assertEqual(line(Made(60, ("2026-11-29T00:00:00", 0))), f"ahead,0,{LAST},0")

    def test_behind(self) -> None:
        self.assertEqual(line(Made(-60, ("2027-03-28T01:00:00", 0))), "behind,60,2027-03-28T01:00:00Z,0")
        self.assertEqual(line(Made(0, ("2027-10-31T01:00:00", -60))), "behind,0,2027-10-31T01:00:00Z,60")
        self.assertEqual(line(Made(-720)), f"behind,720,{LAST},720")

    def test_what_no_line_says(self) -> None:
        change = "2027-03-28T01:00:00"
        for zone, why in ((Made(-60, (change, 60)), "go from -60 minutes to 60"), (Made(781), "781 minutes ahead: at most 780"),
                          (Made(-721), "721 minutes behind: at most 720"), (Made(0, (change, 840)), "840 minutes ahead"),
                          (Made(53.5), "0:53:30 from UTC"), (Made(60, (change, 60.5)), "1:00:30 from UTC")):
            with self.assertRaises(tool.NoOffset) as caught:
                line(zone)
            self.assertIn(why, str(caught.exception))


class Words(unittest.TestCase):
    def test_help(self) -> None:
        self.assertIn("usage: offset", run("--help")[1])

    def test_wrong_words(self) -> None:
        rows: List[Tuple[List[str], str]] = [
            (["Europe/London"], "required: COUNTRY, REGION"), (["Europe/London", "gbr", "0"], "'gbr' is no country"),
            (["Europe/London", "GB", "0"], "'GB' is no country"), (["Europe/London", "GBR", "64"], "'64' is no region"),
            (["Europe/London", "GBR", "+1"], "'+1' is no region"), (["Europe/London", "GBR", "0", "--at", "2026-11-29"], "'2026-11-29' is no moment"),
            (["Europe/London", "GBR", "0", "--at", "2038-04-23T00:00:00Z"], "is no moment from 1858-11-17T00:00:00Z"),
        ]
        for words, why in rows:
            status, written, said = run(*words)
            self.assertEqual((status, written), (2, ""))
            self.assertIn(why, said)

    def test_no_zone_data(self) -> None:
        with mock.patch.object(tool, "ZoneInfo", side_effect=KeyError), mock.patch.object(tool, "available_timezones", return_value=set()):
            self.assertEqual(run("Europe/London", "GBR", "0"), (1, "", "offset: this machine has no time zone data: install the package tzdata\n"))


@unittest.skipUnless(has_zone_data(), "there is no time zone data")
class Zones(unittest.TestCase):
    def test_lines(self) -> None:
        for words, expected in (
            ("Europe/London GBR 0", "offset,GBR,0,ahead,0,2027-03-28T01:00:00Z,60"),
            ("Europe/Berlin DEU 0", "offset,DEU,0,ahead,60,2027-03-28T01:00:00Z,120"),
            ("Europe/Lisbon PRT 1", "offset,PRT,1,ahead,0,2027-03-28T01:00:00Z,60"),
            ("Atlantic/Azores PRT 2", "offset,PRT,2,behind,60,2027-03-28T01:00:00Z,0"),
            ("America/Bogota COL 0", f"offset,COL,0,behind,300,{LAST},300"),
            ("UTC XXX 63", f"offset,XXX,63,ahead,0,{LAST},0"),
        ):
            self.assertEqual(run(*words.split(), "--at=2026-11-29T00:00:00Z"), (0, f"{expected}\n", ""))

    def test_at_the_change_the_next_one_is_said(self) -> None:
        for at, expected in (("1993-10-24T00:59:59Z", "ahead,60,1993-10-24T01:00:00Z,0"), ("1993-10-24T01:00:00Z", "ahead,0,1994-03-27T01:00:00Z,60")):
            self.assertEqual(run("Europe/London", "GBR", "0", "--at", at)[1], f"offset,GBR,0,{expected}\n")

    def test_the_present_moment(self) -> None:
        status, written, said = run("Europe/London", "GBR", "0")
        self.assertEqual((status, written[:19], said), (0, "offset,GBR,0,ahead,", ""))

    def test_no_such_zone(self) -> None:
        for zone in ("Europe/Nowhere", "Europe", "../London", "/etc/localtime"):
            self.assertEqual(run(zone, "GBR", "0"), (1, "", f"offset: {zone} is no time zone that this machine knows\n"))

    def test_a_zone_too_far_ahead(self) -> None:
        self.assertEqual(run("Pacific/Kiritimati", "KIR", "1", "--at=2026-11-29T00:00:00Z")[2], "offset: the clocks are 840 minutes ahead: at most 780 can be said\n")


if __name__ == "__main__":
    unittest.main()
