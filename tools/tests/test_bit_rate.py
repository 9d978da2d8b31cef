"""Airs at a bit rate: each byte against bench/timed/simulate, an independent model, and distances and repeats as tools/intervals measures them."""
import json
import signal
import subprocess
import tempfile
import unittest
from datetime import datetime, timedelta
from pathlib import Path
from typing import Dict, List, NamedTuple

from examples import TOP
from loading import load
from on_air_run import DESCRIPTION, OnAirRun, needs_program, program, wait_until

DAY = datetime(1993, 10, 13)
SIMULATE = TOP / "bench" / "timed" / "simulate"
INTERVALS = TOP / "tools" / "intervals" / "intervals"


def at(seconds: int) -> str:
    return f"{DAY + timedelta(seconds=seconds):%Y-%m-%dT%H:%M:%SZ}"


def description(services: int, rate: int = 0) -> str:
    """So many services, at a bit rate where it is not 0."""
    lines = ["network,40,Demo", "stream,1,1", f"start,{at(0)}"]
    lines += [f"service,{101 + n},1,1,{256 + 2 * n},{257 + 2 * n},Acme,Programme {n}" for n in range(services)]
    lines += [f"rate,{rate}"] if rate else []
    return "\n".join([*lines, "end", ""])


def event(service: int, number: int) -> str:
    """An event of 48 minutes with a name of 25 letters, 60 of a text, and every third 120 more."""
    more = "m" * 120 if number % 3 == 0 else ""
    name, short = f"{service:03}-{number:05}".ljust(25, "n"), "s" * 60
    return f"feed,1,put,{101 + service},{number + 1},{at(2880 * number)},00:48:00,eng,{name},{short},{more},,,\n"


def script(services: int, days: int, swaps: int) -> str:
    """A guide of 30 events a day and service, and swaps with a minute between two."""
    edits = "".join(event(service, number) for service in range(services) for number in range(30 * days))
    return edits + "".join(f"0,tick,{at(60 * (n + 1))}\n0,publish\n0,swap\n" for n in range(swaps))


def worked_description(services: int, rate: int) -> str:
    """Of n services: an NIT of 42 + 3 n bytes, an SDT of 15 + 21 n, and PMTs of 16 bytes."""
    lines = ["network,40,Worked guides 16", "stream,1,1", f"start,{at(0)}"]
    lines += [f"service,{101 + n},1,1,{256 + 2 * n},{257 + 2 * n},Acme,Serv{101 + n}" for n in range(services)]
    return "\n".join([*lines, f"rate,{rate}", "end", ""])


def worked_event(service: int, number: int) -> str:
    """An event whose coded name has 25 bytes, with a text of 63 bytes and its number, and every third with 120 more."""
    more = "m" * 120 if number % 3 == 0 else ""
    return f"feed,1,put,{101 + service},{number + 1},{at(2880 * number)},00:48:00,eng,{'n' * 25},{'s' * 63}{number},{more},,,\n"


def worked_script(services: int, days: int) -> str:
    edits = "".join(worked_event(service, number) for service in range(services) for number in range(30 * days))
    return f"{edits}0,publish\n0,swap\n"


class Worked(NamedTuple):
    """A worked cycle: a guide at a rate, its packets, and how many of these are null packets."""

    services: int
    days: int
    rate: int
    packets: int
    nulls: int


# Guides of 30 events a day and service: 3 services and a week have 181 sections of 100,227 bytes, 20 services 1,184 of 667,721, and 64 services
# and 14 days 7,365 of 4,252,896. The counts are those of bench/timed/simulate, which makes each of these airs byte for byte. A simulation before
# the player was written had 733 and 2, 631 and 24, 1,253 and 583, 5,491 and 4,840, 7,186, 5,864, 4,000, 5,705 and 1,536, 31,429, and 24,588 and
# 173: in it sections of different tiers shared packets, frames repeated PAT and PMT in half a second, not NIT, SDT and TDT, and a section began
# in a packet with room for less than 8 bytes of it.
WORKED = (
    Worked(3, 7, 100_000, 746, 2),
    Worked(3, 7, 500_000, 638, 19),
    Worked(3, 7, 2_000_000, 1_255, 582),
    Worked(3, 7, 10_000_000, 5_492, 4_840),
    Worked(20, 7, 100_000, 7_209, 2),
    Worked(20, 7, 500_000, 5_970, 9),
    Worked(20, 7, 2_000_000, 4_003, 34),
    Worked(20, 7, 10_000_000, 5_706, 1_533),
    Worked(64, 14, 2_000_000, 31_762, 34),
    Worked(64, 14, 10_000_000, 24_600, 170),
)


def is_kept(rate: int, first: int, most: int) -> bool:
    """Whether frames whose leads have `most` packets, `first` of them before present and following, repeat the first in half a second and
    all, in two leads, in two (air_timing), where a lead begins at most a gap late and frames are as short as leads and gaps let them be."""
    gap, half = -(-rate // 60_160), rate // 3_008
    frame = most + 3 * gap + 26
    return frame + 1 + gap + first <= half and 2 * frame + 1 + gap + most <= 4 * half


def least_rate(services: int, sdt: int) -> int:
    """Of the worked guides. Before present and following a lead has PAT, PMTs, NIT, SDT and TDT; a present event takes two packets."""
    first = 1 + services + 1 + sdt + 1
    return next(rate for rate in range(100_000, 100_000_001) if is_kept(rate, first, first + 2 * services))


RATE_LINES = (
    (3, 500_000, "rate,500000,kept"),
    (3, 100_000, f"rate,100000,short,1,{least_rate(3, 1)}"),
    (20, 100_000, f"rate,100000,short,1,{least_rate(20, 3)}"),
)


class Spans(NamedTuple):
    """In seconds: the least gap between sections of one sub-table, and how long the tables wait."""

    gap: float
    waits: Dict[str, float]
    errors: int


def spans(air: Path, rate: int) -> Spans:
    done = subprocess.run([str(INTERVALS), "--bitrate", str(rate), "--json", str(air)], capture_output=True, check=False, timeout=60)
    found = json.loads(done.stdout)
    gaps = [table["least_gap"]["seconds"] for table in found["tables"] if table["least_gap"]]
    waits = {table["table"]: table["most"]["seconds"] for table in found["tables"] if table["most"]}
    return Spans(min(gaps), waits, done.returncode)


class RateOfOnAir(unittest.TestCase):
    def test_the_rate_is_that_of_the_description(self) -> None:
        on_air = load("air/on_air")
        self.assertEqual(on_air.rate_of(b"network,1,N\nrate,750000\nend\n", None), 750_000)
        self.assertEqual(on_air.rate_of(b"rate,750000\nend\n", 750_000.0), 750_000)
        self.assertEqual(on_air.rate_of(b"network,1,N\nend\n", 250_000.0), 250_000)
        self.assertEqual(on_air.rate_of(b"network,1,N\nend\n", None), 500_000)
        with self.assertRaises(on_air.Faulty):
            on_air.rate_of(b"rate,750000\nend\n", 500_000.0)


@needs_program
class BitRates(unittest.TestCase):
    def setUp(self) -> None:
        self.scratch = tempfile.TemporaryDirectory()
        self.addCleanup(self.scratch.cleanup)
        self.folder = Path(self.scratch.name)

    def played(self, text: str) -> bytes:
        done = program("play", data=text.encode())
        self.assertEqual(done.returncode, 0, done.stderr[-300:])
        return done.stdout

    def report(self, text: str) -> str:
        done = program("play", data=text.encode())
        self.assertEqual(done.returncode, 0, done.stderr[-300:])
        return done.stderr.decode()

    def simulated(self, air: bytes, rate: int) -> bytes:
        """What the model makes of an air without a rate."""
        plain, timed = self.folder / "plain.ts", self.folder / "simulated.ts"
        plain.write_bytes(air)
        subprocess.run([str(SIMULATE), str(plain), str(rate), "--output", str(timed)], check=True, capture_output=True, timeout=120)
        return timed.read_bytes()

    def test_an_air_at_a_rate_is_that_of_the_model(self) -> None:
        for services, days, rate in ((1, 1, 100_000), (3, 2, 500_000), (3, 2, 2_000_000), (3, 2, 10_000_000)):
            text = script(services, days, 3)
            with self.subTest(services=services, rate=rate):
                made = self.played(description(services, rate) + text)
                self.assertEqual(made, self.simulated(self.played(description(services) + text), rate))

    def test_worked_guides_have_their_packets(self) -> None:
        for worked in WORKED:
            text = worked_description(worked.services, worked.rate) + worked_script(worked.services, worked.days)
            with self.subTest(services=worked.services, rate=worked.rate):
                air = self.played(text)
                packets = [air[place:place + 188] for place in range(0, len(air), 188)]
                nulls = sum(int.from_bytes(packet[1:3], "big") & 0x1FFF == 0x1FFF for packet in packets)
                self.assertEqual((len(packets), nulls), (worked.packets, worked.nulls))

    def test_the_report_says_whether_all_is_kept(self) -> None:
        for services, rate, line in RATE_LINES:
            with self.subTest(services=services, rate=rate):
                self.assertEqual(self.report(worked_description(services, rate) + worked_script(services, 1)).splitlines()[-1], line)
        self.assertNotIn("rate", self.report(description(1) + script(1, 1, 1)))

    def test_the_needed_rate_would_have_done(self) -> None:
        text = worked_script(20, 1)
        word, rate, said, cycles, needed = self.report(worked_description(20, 100_000) + text).splitlines()[-1].split(",")
        self.assertEqual((word, rate, said, cycles), ("rate", "100000", "short", "1"))
        self.assertTrue(self.report(worked_description(20, int(needed)) + text).endswith(f"rate,{needed},kept\n"))
        self.assertIn(",short,1,", self.report(worked_description(20, int(needed) - 1) + text))

    def test_sections_are_apart_and_come_in_time(self) -> None:
        for rate in (500_000, 1_000_000, 2_000_000):
            air = self.folder / "air.ts"
            air.write_bytes(self.played(description(3, rate) + script(3, 7, 2)))
            with self.subTest(rate=rate):
                found = spans(air, rate)
                self.assertGreaterEqual(found.gap, 0.025)
                own = {name: seconds for name, seconds in found.waits.items() if not name.startswith("EIT")}
                self.assertTrue(own)
                self.assertLessEqual(max(own.values()), 0.5)

    def test_listen_hears_what_it_hears_without_a_rate(self) -> None:
        guides: List[bytes] = []
        for rate in (0, 1_000_000):
            heard = program("listen", data=self.played(description(3, rate) + script(3, 2, 2)))
            self.assertEqual(heard.returncode, 0)
            guides.append(heard.stderr.partition(b"guide\t")[2].partition(b"\n")[2])
        self.assertEqual(guides[0], guides[1])

    def test_the_journal_of_live_makes_the_same_air(self) -> None:
        feed, text = self.folder / "feed.txt", description(1, 300_000)
        feed.write_text("name,101,Acme,News\n", encoding="utf-8")
        live = program("live", "--feed", str(feed), "--cycles=40", "--join=0", data=text.encode())
        self.assertEqual(live.returncode, 0, live.stderr[-300:])
        journal = [line for line in live.stderr.decode().splitlines(True) if line[0].isdigit() or line.startswith("=,")]
        self.assertEqual(sum(line.startswith("1,tick,") for line in journal), 39)
        self.assertEqual(self.played(text + "".join(journal)), live.stdout)

    def test_on_air_keeps_sections_apart(self) -> None:
        air = self.folder / "on-air.ts"
        run = OnAirRun(self.folder, "--output", str(air), description=DESCRIPTION.replace("end\n", "rate,1000000\nend\n"))
        self.addCleanup(lambda: run.process.poll() is None and run.end(signal.SIGKILL))
        self.assertTrue(wait_until(run.is_playing), run.log())
        self.assertTrue(run.put_on_air("1.txt", "feed,1,name,101,Acme,News\n"), run.log())
        self.assertTrue(wait_until(lambda: run.status().get("cycles", 0) >= 6), run.log())
        self.assertEqual(run.end(), 0, run.log())
        self.assertEqual(run.status()["rate"], 1_000_000)
        self.assertGreaterEqual(spans(air, 1_000_000).gap, 0.025)


if __name__ == "__main__":
    unittest.main()
