"""Tests of tools/intervals, over streams that are made by hand. At 1,504,000 bit/s a packet takes one millisecond."""
import contextlib
import io
import json
import subprocess
import tempfile
import unittest
from pathlib import Path
from typing import Dict, List, Optional, Tuple

from examples import TOP, program
from intervals.clocks import FREQUENCY, MODULUS, SteadyClock, pcr_clock
from intervals.limits import LIMITS, limits_of, table_of
from intervals.measures import Row, measured, shown
from intervals.packets import NoPackets, Packets
from intervals.recording import Recording
from loading import load
from streams import Stream, eit, pat, section, short_section, tot

tool = load("intervals/intervals")

RATE = 1_504_000
BYTE = 8 / RATE
# 1993-10-13T12:45:00Z, and Great Britain an hour ahead until 1993-10-24T01:00:00Z.
MOMENT = bytes.fromhex("c079124500")
BRITAIN = bytes.fromhex("474252 02 0100 c084010000 0000")


def rows_of(data: bytes, rate: float = RATE) -> Dict[str, Row]:
    """The rows of a stream by their tables, at a bit rate."""
    recording = Recording(data)
    rows = measured(recording.sections, LIMITS, SteadyClock(rate, "as given"), recording.packets * 188)
    return {row.limit.table: row for row in rows}


def run(data: bytes, *words: str, name: str = "air.ts") -> Tuple[int, str, str]:
    """The status of the tool over a recording, what it writes, and what it prints."""
    out, printed = io.TextIOWrapper(io.BytesIO(), encoding="utf-8"), io.StringIO()
    with tempfile.TemporaryDirectory() as folder, contextlib.redirect_stdout(out), contextlib.redirect_stderr(printed):
        path = Path(folder) / name
        path.write_bytes(data)
        status = tool.main([str(path), *words])
    out.seek(0)
    return status, out.read(), printed.getvalue()


def stream_at(places: List[int], pid: int, data: bytes, end: Optional[int] = None) -> Stream:
    """A stream with a section in the packets with these numbers, and null packets between."""
    stream = Stream()
    for place in places:
        stream.until(place)
        stream.put(pid, data)
    if end is not None:
        stream.until(end)
    return stream


class Waits(unittest.TestCase):
    def test_the_distances_are_measured(self) -> None:
        row = rows_of(stream_at([0, 100, 300, 900], 0, pat({101: 256})).data)["PAT"]
        self.assertEqual((row.sections, row.waits, len(row.sub_tables)), (4, 3, 1))
        assert row.least and row.mean and row.most
        self.assertAlmostEqual(row.least, 0.1)
        self.assertAlmostEqual(row.mean, 0.3)
        self.assertAlmostEqual(row.most.seconds, 0.6)
        self.assertAlmostEqual(row.most.at, 0.3 + 5 * BYTE)
        self.assertEqual(row.state, "error")
        self.assertEqual(row.errors, ["PAT comes after 600 ms, tolerated are 500 ms (TR 101 290, 1.3)"])

    def test_states(self) -> None:
        for places, state in (([0, 90, 180], "good"), ([0, 100, 300], "late"), ([0, 501], "error"), ([0], "once")):
            self.assertEqual(rows_of(stream_at(places, 0, pat({})).data)["PAT"].state, state)

    def test_a_bit_rate_is_the_scale(self) -> None:
        data = stream_at([0, 300], 0, pat({})).data
        self.assertEqual(rows_of(data, RATE / 2)["PAT"].state, "error")

    def test_each_section_number_waits_for_itself(self) -> None:
        stream = Stream()
        for at in (0, 1000, 2000):
            stream.until(at)
            stream.put(0x12, eit(0x4E, 101, 0, 1))
            stream.until(at + 400)
            stream.put(0x12, eit(0x4E, 101, 1, 1))
        row = rows_of(stream.data)["EIT p/f"]
        assert row.least and row.most
        self.assertEqual((row.waits, round(row.least, 6), round(row.most.seconds, 6)), (4, 1.0, 1.0))

    def test_sub_tables_are_apart_from_each_other(self) -> None:
        stream = Stream()
        for at in (0, 1000):
            stream.until(at)
            for service in (101, 102):
                stream.put(0x12, eit(0x4E, service), eit(0x50, service))
        rows = rows_of(stream.data)
        for table in ("EIT p/f", "EIT schedule, days 1 to 8"):
            self.assertEqual((len(rows[table].sub_tables), rows[table].waits, rows[table].errors), (2, 2, []))

    def test_a_wait_goes_on_over_a_new_version(self) -> None:
        stream = stream_at([0], 0x11, section(0x42, 1, b"\0\1\xff", version=31))
        stream.until(2500)
        stream.put(0x11, section(0x42, 1, b"\0\1\xff", version=0))
        self.assertEqual(rows_of(stream.data)["SDT"].errors, ["SDT comes after 2.50 s, tolerated are 2 s (TR 101 290, 3.5.a)"])

    def test_silence_up_to_the_end_counts(self) -> None:
        row = rows_of(stream_at([0, 100], 0, pat({}), 700).data)["PAT"]
        assert row.silence
        self.assertAlmostEqual(row.silence.seconds, 0.6 - 5 * BYTE)
        self.assertEqual(row.errors, ["PAT comes after 600 ms, tolerated are 500 ms (TR 101 290, 1.3)"])
        self.assertEqual(rows_of(stream_at([0, 100], 0, pat({}), 400).data)["PAT"].state, "late")

    def test_a_section_that_a_new_version_lacks_is_not_silent(self) -> None:
        stream = stream_at([0], 0x11, section(0x42, 1, b"\0\1\xff", 0, 1, 1))
        for place in range(100, 5000, 1000):
            stream.until(place)
            stream.put(0x11, section(0x42, 1, b"\0\1\xff", 1, 0, 0))
        self.assertEqual(rows_of(stream.data)["SDT"].errors, [])

    def test_what_is_not_in_force_is_left_out(self) -> None:
        stream = stream_at([0], 0, section(0, 1, current=0))
        self.assertEqual(rows_of(stream.data)["PAT"].state, "absent")

    def test_expected_tables_that_are_not_heard(self) -> None:
        rows = rows_of(stream_at([0, 90], 0, pat({})).data)
        self.assertEqual([table for table, row in rows.items() if row.state == "absent"], ["PMT", "NIT", "SDT", "EIT p/f", "TDT"])


class LocalTime(unittest.TestCase):
    def test_a_tot_is_written_as_the_standard_says(self) -> None:
        written = "73 701a c079124500 f00f 580d 474252 02 0100 c084010000 0000 ced97170"
        self.assertEqual(tot(MOMENT, BRITAIN), bytes.fromhex(written))

    def test_a_tot_is_to_come_each_30_seconds(self) -> None:
        for places, state in (([0, 30_000, 60_000], "good"), ([0, 30_001], "late"), ([0], "once")):
            rows = rows_of(stream_at(places, 0x14, tot(MOMENT, BRITAIN)).data)
            self.assertEqual((rows["TOT"].state, rows["TDT"].state), (state, "absent"))

    def test_a_tdt_and_a_tot_that_share_a_packet_are_timed_each_by_itself(self) -> None:
        stream = Stream()
        for place in (0, 1000, 20_000):
            stream.until(place)
            stream.put(0x14, short_section(0x70, MOMENT), tot(MOMENT, BRITAIN))
        rows = rows_of(stream.data)
        for table in ("TDT", "TOT"):
            row = rows[table]
            assert row.most and row.gap
            self.assertEqual((row.state, row.waits, round(row.most.seconds, 6)), ("good", 2, 19.0))
        self.assertEqual(rows["TOT"].bytes, 3 * 29)

    def test_a_tot_of_two_packets(self) -> None:
        self.assertEqual(len(tot(MOMENT, 16 * BRITAIN)), 224)
        row = rows_of(stream_at([0, 1000], 0x14, tot(MOMENT, 16 * BRITAIN)).data)["TOT"]
        self.assertEqual((row.sections, row.waits, row.state), (2, 1, "good"))

    def test_a_damaged_tot_is_no_tot(self) -> None:
        whole = tot(MOMENT, BRITAIN)
        for data in (whole[:9] + b"\x01" + whole[10:], short_section(0x73, bytes(3)), short_section(0x73, MOMENT)):
            recording = Recording(stream_at([0], 0x14, data).data)
            self.assertEqual((recording.sections, recording.damaged), ([], 1))

    def test_a_recording_without_local_time_lacks_nothing(self) -> None:
        self.assertNotIn("TOT", rows_of(stream_at([0, 90], 0, pat({})).data))


class Gaps(unittest.TestCase):
    def gap(self, pid: int, *groups: Tuple[int, List[bytes]]) -> Dict[str, Row]:
        stream = Stream()
        for place, sections in groups:
            stream.until(place)
            stream.put(pid, *sections)
        return rows_of(stream.data)

    def test_from_the_last_byte_to_the_first(self) -> None:
        one = section(0x42, 1, b"\0\1\xff", 0, 0, 1)
        other = section(0x42, 1, b"\0\1\xff", 0, 1, 1)
        for place, fits in ((25, False), (26, True)):
            row = self.gap(0x11, (0, [one]), (place, [other]))["SDT"]
            assert row.gap
            self.assertAlmostEqual(row.gap.seconds, place / 1000 - len(one) * BYTE)
            self.assertEqual(row.errors == [], fits)

    def test_one_directly_after_the_other(self) -> None:
        row = self.gap(0x12, (0, [eit(0x50, 101, 0, 8), eit(0x50, 101, 8, 8)]))["EIT schedule, days 1 to 8"]
        assert row.gap
        self.assertEqual((row.gap.seconds, row.state), (0, "error"))
        self.assertEqual(row.errors, ["EIT schedule, days 1 to 8 has sections 0 ms apart, at least 25 ms is asked (EN 300 468, 5.1.4)"])

    def test_psi_may_follow_at_once(self) -> None:
        self.assertEqual(self.gap(0, (0, [section(0, 1, b"", 0, 0, 1), section(0, 1, b"", 0, 1, 1)]))["PAT"].errors, [])

    def test_other_extensions_and_tables_may_follow_at_once(self) -> None:
        rows = self.gap(0x12, (0, [eit(0x50, 101), eit(0x51, 101), eit(0x50, 102), eit(0x58, 101)]))
        self.assertEqual([error for row in rows.values() for error in row.errors], [])

    def test_tables_of_the_short_form(self) -> None:
        row = self.gap(0x14, (0, [short_section(0x70, bytes(5))]), (10, [short_section(0x70, bytes(5))]))["TDT"]
        assert row.gap
        self.assertEqual((round(row.gap.seconds * 1000, 2), row.state), (round(10 - 8 * BYTE * 1000, 2), "error"))


class Tables(unittest.TestCase):
    def test_each_table_by_its_pid_and_table_id(self) -> None:
        for pid, table_id, table in ((0, 0, "PAT"), (1, 1, "CAT"), (256, 2, "PMT"), (16, 0x40, "NIT"), (16, 0x41, "NIT other"), (17, 0x42, "SDT"),
                                     (17, 0x46, "SDT other"), (17, 0x4A, "BAT"), (18, 0x4E, "EIT p/f"), (18, 0x4F, "EIT p/f other"),
                                     (18, 0x51, "EIT schedule, days 1 to 8"), (18, 0x52, "EIT schedule, later days"),
                                     (18, 0x61, "EIT schedule other, days 1 to 8"), (18, 0x6F, "EIT schedule other, later days"),
                                     (19, 0x71, "RST"), (20, 0x70, "TDT"), (20, 0x73, "TOT"), (17, 0x40, "other"), (18, 0x72, "other"),
                                     (16, 2, "other")):
            self.assertEqual(table_of(pid, table_id), table)

    def test_every_table_has_a_row_and_its_clauses(self) -> None:
        for network in ("cable", "terrestrial"):
            for limit in limits_of(network):
                self.assertEqual((limit.recommended is None, limit.tolerated is None), (not limit.recommended_by, not limit.tolerated_by), limit.table)
                self.assertLessEqual(limit.recommended or 0, limit.tolerated or 1000, limit.table)

    def test_terrestrial_networks(self) -> None:
        limits = {limit.table: limit for limit in limits_of("terrestrial")}
        self.assertEqual(limits["EIT schedule other, later days"].recommended, 300)
        self.assertEqual((limits["EIT p/f other"].recommended, limits["EIT p/f other"].tolerated), (20, 20))
        self.assertEqual((limits["SDT"].recommended, limits["SDT"].recommended_by), (2, "TR 101 211, 4.4.2"))

    def test_pmts_are_found_by_the_pat(self) -> None:
        stream = Stream()
        for at in (0, 50):
            stream.until(at)
            stream.put(0, pat({0: 16, 101: 256, 102: 256}))
            stream.put(256, section(2, 101, b"\xe1\x01\xf0\0"), section(2, 102, b"\xe1\x01\xf0\0"))
        recording = Recording(stream.data)
        self.assertEqual(recording.pid_name(256), "PMT of 101, 102")
        self.assertEqual((len(rows_of(stream.data)["PMT"].sub_tables), rows_of(stream.data)["PMT"].waits), (2, 2))


class Reading(unittest.TestCase):
    def test_long_sections_over_packets(self) -> None:
        stream = Stream()
        for at in (0, 1000):
            stream.until(at)
            stream.put(0x12, eit(0x4E, 101, size=3000))
            stream.put(0x12, eit(0x4E, 102), eit(0x4E, 103, size=400))
        recording = Recording(stream.data)
        self.assertEqual((len(recording.sections), recording.damaged, recording.breaks), (6, 0, 0))
        first = recording.sections[0]
        self.assertEqual((first.start, first.end), (5, 16 * 188 + 4 + 75))

    def test_a_section_that_ends_where_another_begins(self) -> None:
        long = eit(0x4E, 101, size=200)
        head, tail = long[:183], long[183:]
        second = tail + eit(0x4E, 102)
        data = bytes([0x47, 0x40, 0x12, 0x10, 0]) + head + (bytes([0x47, 0x40, 0x12, 0x11, len(tail)]) + second).ljust(188, b"\xff")
        recording = Recording(data)
        self.assertEqual([(found.extension, found.start) for found in recording.sections], [(101, 5), (102, 188 + 5 + len(tail))])

    def test_damaged_sections_lost_packets_and_repeated_ones(self) -> None:
        stream = Stream()
        long = eit(0x4E, 101, size=300)
        stream.put(0x12, long)
        stream.put(0x12, long[:-1] + b"\0")
        stream.put(0x12, long)
        packets = [*stream.packets[:2], stream.packets[1], *stream.packets[2:4], stream.packets[4]]
        recording = Recording(b"".join(packets))
        self.assertEqual((len(recording.sections), recording.damaged, recording.breaks), (1, 1, 0))
        recording = Recording(b"".join([stream.packets[0], *stream.packets[4:]]))
        self.assertEqual((len(recording.sections), recording.damaged, recording.breaks), (1, 0, 1))

    def test_packets_that_cannot_be_read(self) -> None:
        good = stream_at([0], 0x11, section(0x42, 1, b"\0\1\xff")).data
        error = bytes([0x47, 0xC0]) + good[2:]
        scrambled = good[:3] + bytes([good[3] | 0x80]) + good[4:]
        pointer = good[:4] + b"\xb8" + good[5:]
        no_payload = good[:3] + bytes([0x30, 183]) + good[5:]
        for packet, damaged in ((error, 0), (scrambled, 0), (pointer, 1), (no_payload, 0)):
            recording = Recording(packet)
            self.assertEqual((recording.packets, len(recording.sections), recording.damaged), (1, 0, damaged))

    def test_sizes_of_packets(self) -> None:
        stream = stream_at([0, 100], 0, pat({}), 150)
        for before, after, size in ((b"", b"", 188), (b"\1\2\3\4", b"", 192), (b"", bytes(range(16)), 204)):
            data = stream.dressed(before, after)
            recording = Recording(data)
            self.assertEqual((recording.size, recording.packets, recording.junk), (size, 150, 0))
            row = rows_of(data)["PAT"]
            assert row.most
            self.assertAlmostEqual(row.most.seconds, 0.1)

    def test_junk_is_counted_and_passed_over(self) -> None:
        stream = stream_at([0, 100], 0, pat({}), 150)
        for before, after in ((b"", b""), (b"\1\2\3\4", b""), (b"", bytes(16))):
            unit = 188 + len(before) + len(after)
            data = stream.dressed(before, after)
            front, middle, end = b"G" * 3 + b"noise", b"\x47" * 11, b"cut"
            recording = Recording(front + data[: 40 * unit] + middle + data[40 * unit:] + end)
            self.assertEqual((recording.size, recording.packets, recording.junk), (unit, 150, len(front + middle + end)))
            self.assertEqual(len(recording.sections), 2)

    def test_a_packet_that_lost_bytes_takes_no_other_with_it(self) -> None:
        stream = stream_at([0, 100], 0, pat({}), 150)
        data = stream.data[:188 * 50 + 20] + stream.data[188 * 50 + 60:]
        recording = Recording(data)
        self.assertEqual((recording.packets, recording.junk, len(recording.sections)), (149, 148, 2))

    def test_one_packet_is_a_recording_and_a_text_is_none(self) -> None:
        packet = stream_at([0], 0, pat({})).data
        self.assertEqual([(Packets(data).size, list(Packets(data).starts())) for data in (packet, packet + bytes(16))], [(188, [0]), (204, [0])])
        for data in (b"", b"G", b"G" * 40, b"no packets\n" * 1000, packet[:187]):
            with self.assertRaises(NoPackets):
                Packets(data)


class Clocks(unittest.TestCase):
    def stream(self, steps: List[Tuple[int, int]], start: int = 0) -> Stream:
        """A stream with a PCR in each of these packets, whose ticks go on by so many from the one before."""
        stream, ticks = Stream(), start
        for place, step in steps:
            ticks += step
            stream.until(place)
            stream.pcr(256, ticks)
        return stream

    def seconds(self, stream: Stream, *numbers: float) -> List[float]:
        clock = pcr_clock(Recording(stream.data).pcrs)
        assert clock
        return [round(clock.seconds(round(number * 188) + 10) - clock.seconds(10), 6) for number in numbers]

    def test_time_between_pcrs(self) -> None:
        second = FREQUENCY
        stream = self.stream([(0, 0), (100, second), (200, 3 * second)])
        self.assertEqual(self.seconds(stream, 50, 100, 150, 200, 250), [0.5, 1.0, 2.5, 4.0, 5.0])

    def test_a_counter_that_begins_again(self) -> None:
        stream = self.stream([(0, 0), (100, FREQUENCY), (200, FREQUENCY)], MODULUS - FREQUENCY - 1)
        self.assertEqual(self.seconds(stream, 100, 200), [1.0, 2.0])

    def test_a_new_clock_and_a_leap(self) -> None:
        stream = self.stream([(0, 0), (100, FREQUENCY)])
        stream.until(150)
        stream.pcr(256, 77 * FREQUENCY)
        stream.until(200)
        stream.pcr(256, 78 * FREQUENCY, is_new=True)
        self.assertEqual(self.seconds(stream, 100, 150, 200), [1.0, 1.5, 2.0])

    def test_the_pid_with_the_most(self) -> None:
        stream = Stream()
        for place in range(0, 300, 100):
            stream.until(place)
            stream.pcr(256, place * FREQUENCY // 100)
        stream.pcr(257, 0)
        stream.pcr(257, 9 * FREQUENCY)
        clock = pcr_clock(Recording(stream.data).pcrs)
        assert clock
        self.assertEqual(clock.how, "by 3 PCRs of PID 256")

    def test_one_pcr_is_no_clock(self) -> None:
        self.assertIsNone(pcr_clock(Recording(self.stream([(0, 0)]).data).pcrs))
        self.assertIsNone(pcr_clock(Recording(self.stream([(0, 5), (1, 0)]).data).pcrs))


class Command(unittest.TestCase):
    def test_status_and_lines(self) -> None:
        good = stream_at([0, 90], 0, pat({})).data
        status, page, printed = run(good, "--bitrate", str(RATE))
        self.assertEqual((status, "No tolerated interval is broken." in page), (0, True))
        self.assertRegex(printed, r"PAT +good +most +90 ms +recommended +100 ms")
        status, page, printed = run(stream_at([0, 600], 0, pat({})).data, "--bitrate", str(RATE))
        self.assertEqual((status, "<li>PAT comes after 600 ms" in page), (1, True))
        self.assertIn("intervals: PAT comes after 600 ms, tolerated are 500 ms (TR 101 290, 1.3)\n", printed)

    def test_what_cannot_be_measured(self) -> None:
        some = stream_at([0, 90], 0, pat({})).data
        for data, bitrate, what in ((some, None, "no PCRs tell the time: give the bit rate with --bitrate"), (b"", "1", "no packets"),
                                    (some, "0", "--bitrate is from 1"), (some, "nan", "--bitrate is from 1")):
            status, page, printed = run(data, *(["--bitrate", bitrate] if bitrate else []))
            self.assertEqual((status, page, what in printed), (2, "", True), printed)
        with contextlib.redirect_stderr(io.StringIO()):
            self.assertEqual(tool.main(["no-such-file.ts"]), 2)

    def test_pcrs_are_used_where_there_are_any(self) -> None:
        stream = Stream()
        stream.pcr(256, 0)
        stream.put(0, pat({}))
        stream.until(1000)
        stream.pcr(256, FREQUENCY)
        status, text, printed = run(stream.data, "--bitrate", "1", "--json")
        made = json.loads(text)
        self.assertEqual((round(made["bits_per_second"]), made["time"]), (RATE, "by 2 PCRs of PID 256"))
        self.assertIn("--bitrate is not used", printed)

    def test_json(self) -> None:
        stream = stream_at([0, 100, 300], 0, pat({101: 256}), 400)
        status, text, _ = run(b"x" * 9 + stream.data, "--bitrate", str(RATE), "--json")
        made = json.loads(text)
        tables = {row["table"]: row for row in made["tables"]}
        self.assertEqual((status, made["packets"], made["junk_bytes"], round(made["seconds"], 6)), (0, 400, 9, 0.4))
        self.assertEqual((tables["PAT"]["state"], round(tables["PAT"]["mean"], 6), tables["TDT"]["state"]), ("late", 0.15, "absent"))
        self.assertEqual(round(tables["PAT"]["bits_per_second"]), 3 * 16 * 8 * 10 // 4)
        self.assertEqual([(pid["pid"], pid["packets"], pid["carries"]) for pid in made["pids"]], [(0, 3, "PAT"), (8191, 397, "null packets")])
        self.assertEqual(made["pids"][0]["bits_per_second"], 3 * 1504 / 0.4)

    def test_the_page_is_one_file_with_its_texts_escaped(self) -> None:
        _, page, _ = run(stream_at([0, 90], 0, pat({})).data, "--bitrate", str(RATE), name="<script>&.ts")
        self.assertIn("&lt;script&gt;&amp;.ts", page)
        self.assertNotRegex(page, r"<script|<link|<img|url\(|@import|https?:")
        self.assertEqual((page.count("<svg"), page.count("<tr class=")), (1, 6))

    def test_times_as_they_are_shown(self) -> None:
        for seconds, text in ((0, "0 ms"), (0.0042, "4.2 ms"), (0.0251, "25 ms"), (0.9, "900 ms"), (1.5, "1.50 s"), (30, "30.0 s")):
            self.assertEqual(shown(seconds), text)

    def test_an_air_of_the_program(self) -> None:
        with (TOP / "examples" / "week.txt").open("rb") as script:
            air = subprocess.run([program(), "play"], stdin=script, capture_output=True, timeout=60, check=True).stdout
        rows = rows_of(air, 500_000)
        assert rows["PAT"].most
        first, second = [at for at in range(0, len(air), 188) if air[at + 1] % 32 == 0 and air[at + 2] == 0]
        self.assertAlmostEqual(rows["PAT"].most.seconds, (second - first) * 8 / 500_000)
        self.assertEqual([table for table, row in rows.items() if row.state == "absent"], [])


if __name__ == "__main__":
    unittest.main()
