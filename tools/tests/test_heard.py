"""Tests of heard.py: lines as `listen` prints them."""
import json
import unittest
from datetime import datetime, timedelta, timezone

from examples import stored_lines
from heard import Descriptor, Genre, HeardError, heard_json, lines_of, read_heard

EVENT = "14\t2026-11-30T20:00:00Z\t01:30:00\teng\tThe Lighthouse\tDrama\tTwo keepers\tGBR\t12\t1.0.0 7.0.15"
LINES = ["done\t5\t18\t78\t101\t7\t65281\t3", "lost\t9\t18", "clock\t2026-11-30T20:20:00Z",
         "local\tPRT\t1\tahead\t0\t2027-03-28T01:00:00Z\t60\t2026-11-30T20:20:00", "network\t65281\tHarbour Cable", "stream\t7\t65281",
         "cable\t3460000\t3\t69000\t2\t15", "service\t101\t1\tHarbour Media\tHarbour One\t256\t257", "component\t3\t258\teng", "now\t" + EVENT,
         "next\t15\t2026-11-30T22:00:00Z\t02:00:00\teng\tNight Ship\t\t\t\t\t", "event\t" + EVENT, "end"]


class Lines(unittest.TestCase):
    def test_each_line(self) -> None:
        heard = read_heard(LINES)
        self.assertEqual(heard.clock, datetime(2026, 11, 30, 20, 20, tzinfo=timezone.utc))
        self.assertEqual((heard.network, heard.stream, heard.cable), ((65281, "Harbour Cable"), (7, 65281), (3460000, 3, 69000, 2, 15)))
        self.assertEqual((heard.completions, heard.losses), ([(5, 18, 78, 101, 7, 65281, 3)], [(9, 18)]))
        change = datetime(2027, 3, 28, 1, tzinfo=timezone.utc)
        self.assertEqual(heard.local_times, [("PRT", 1, False, 0, change, 60, "2026-11-30T20:20:00")])
        (service,) = heard.services
        self.assertEqual((service.id, service.type, service.pmt_pid, service.pcr_pid), (101, 1, 256, 257))
        self.assertEqual((service.provider, service.name, service.components), ("Harbour Media", "Harbour One", [(3, 258, "eng")]))
        (event,) = service.events
        self.assertEqual((event, event.duration, event.end.hour), (service.present, timedelta(minutes=90), 21))
        self.assertEqual((event.rating, event.least_age, event.genres), (12, 15, (Genre(1, 0, 0), Genre(7, 0, 15))))
        assert service.following
        self.assertEqual((service.following.rating, service.following.genres, service.following.short), (None, (), ""))
        self.assertTrue(heard.is_whole)

    def test_local_times(self) -> None:
        lines = ["local\tPRT\t2\tbehind\t60\t2027-03-28T01:00:00Z\t0\t2026-11-30T19:20:00", "local\thex:414200\t63\tahead\t780\t\t780\t"]
        azores, other = read_heard(lines).local_times
        moments = [datetime(2027, 3, 28, 0, 59, 59, tzinfo=timezone.utc), datetime(2027, 3, 28, 1, tzinfo=timezone.utc), None]
        self.assertEqual([azores.offset_at(moment) for moment in moments], [-60, 0, -60])
        self.assertEqual((other, [other.offset_at(moment) for moment in moments]), (("hex:414200", 63, False, 780, None, 780, ""), [780] * 3))

    def test_other_streams(self) -> None:
        lines = [*LINES[:-1], "other\t2\t65281\t\t\t\t\t", "other\t3\t4\t3460000\t3\t69000\t2\t15", "remote\t101\t1\tFar Media\tFar One",
                 "now\t" + EVENT, "remote\t102\t2\t\thex:05ff", "event\t" + EVENT, "end"]
        heard = read_heard(lines)
        empty, other = heard.others
        self.assertEqual((empty.id, empty.original_network_id, empty.cable, empty.services), (2, 65281, None, []))
        self.assertEqual((other.id, other.original_network_id, other.cable), (3, 4, (3460000, 3, 69000, 2, 15)))
        self.assertEqual([(remote.id, remote.name, remote.present is None, len(remote.events)) for remote in other.services],
                         [(101, "Far One", False, 0), (102, "hex:05ff", True, 1)])
        self.assertEqual([(service.id, len(service.events)) for service in heard.services], [(101, 1)])
        made = json.loads(json.dumps(heard_json(heard)))["others"][1]
        self.assertEqual((made["id"], made["cable"]["inner"], made["services"][0]["present"]["name"]), (3, 15, "The Lighthouse"))

    def test_a_service_without_a_programme(self) -> None:
        (service,) = read_heard(["service\t5\t0\t\tFive\t\t"]).services
        self.assertEqual((service.pmt_pid, service.pcr_pid), (None, None))

    def test_the_examples(self) -> None:
        heard = read_heard(stored_lines("play < week.txt"))
        self.assertEqual((heard.is_whole, heard.passed_over, len(heard.completions)), (True, 0, 20))
        self.assertEqual([(service.id, len(service.events)) for service in heard.services], [(101, 28), (102, 14), (103, 2)])

    def test_details(self) -> None:
        """Lines of `listen --details` over a recording that libdvbpsi made, and one of a programme."""
        lines = ["service\t101\t1\t\tOne\t256\t257", "program\t09040b00e5dc", "component\t6\t258\tdeu", "descriptor\t6a028042",
                 "other\t300\t1\t3540000\t3\t69000\t2\t15", "descriptor\t830306a501"]
        self.assertEqual(read_heard(lines).descriptors, [
            Descriptor("program", 0x09, bytes.fromhex("0b00e5dc")), Descriptor("component", 0x6A, bytes.fromhex("8042")),
            Descriptor("other", 0x83, bytes.fromhex("06a501"))])
        for digits in ("83", "8302ff", "8301ffff", "8x00"):
            with self.assertRaises(HeardError):
                read_heard(["descriptor\t" + digits])

    def test_descriptors_of_services_and_events(self) -> None:
        """Each has those that stand after its line, and none of another line."""
        lines = ["network\t1\tN", "descriptor\t730161", "service\t101\t1\t\tOne\t256\t257", "descriptor\t730162", "program\t0900",
                 "component\t6\t258\tdeu", "descriptor\t5200", "now\t" + EVENT, "descriptor\t7600", "event\t" + EVENT, "descriptor\t5001ff",
                 "descriptor\t7601ff", "other\t2\t1\t\t\t\t\t", "remote\t5\t1\t\tFive", "descriptor\t730163", "event\t" + EVENT]
        heard = read_heard(lines)
        (service,), (remote,) = heard.services, heard.others[0].services
        assert service.present
        self.assertEqual(service.descriptors, [Descriptor("service", 0x73, b"b")])
        self.assertEqual(service.present.descriptors, [Descriptor("now", 0x76, b"")])
        self.assertEqual(service.events[0].descriptors, [Descriptor("event", 0x50, b"\xff"), Descriptor("event", 0x76, b"\xff")])
        self.assertEqual((remote.descriptors, remote.events[0].descriptors), ([Descriptor("remote", 0x73, b"c")], []))
        self.assertEqual([found.place for found in heard.descriptors],
                         ["network", "service", "program", "component", "now", "event", "event", "remote"])
        self.assertEqual(hash(service.events[0]), hash(remote.events[0]))

    def test_what_is_wanting(self) -> None:
        heard = read_heard(["wanting\tpat", "wanting\tpmt\t256\t101", "end"])
        self.assertEqual((heard.wanting, heard.is_whole), ([("pat",), ("pmt", "256", "101")], False))

    def test_a_part_of_a_guide(self) -> None:
        heard = read_heard(["junk\t0\t187", "wanting\tpat", "stream\t1\t", "service\t101\t\t\t\t256\t", "event\t" + EVENT, "end"])
        self.assertEqual((heard.junk, heard.stream, heard.is_whole), ([(0, 187)], (1, None), False))
        (service,) = heard.services
        self.assertEqual((service.type, service.pmt_pid, service.pcr_pid, len(service.events)), (None, 256, None, 1))
        made = json.loads(json.dumps(heard_json(heard)))
        self.assertEqual((made["junk"], made["stream"]["original_network_id"]), ([{"packet": 0, "bytes": 187}], None))

    def test_a_fault_and_a_report_that_is_cut_off(self) -> None:
        self.assertEqual(read_heard([*LINES[:1], "fault: packet 7 is no packet"]).fault, "packet 7 is no packet")
        self.assertFalse(read_heard(LINES[:-1]).is_whole)

    def test_other_lines_are_passed_over(self) -> None:
        heard = read_heard(["# lepnugan: building", "0,publish", "view\t101\t0\t\t", "", *LINES])
        self.assertEqual((heard.passed_over, heard.is_whole), (3, True))

    def test_lines_that_listen_does_not_print(self) -> None:
        for line in ("done\t1", "lost\t1\tx", "junk\t1", "clock\t2026-11-31T00:00:00Z", "clock\t٢٠٢٦-11-30T00:00:00Z", "network\t1", "wanting", "end\t1",
                     "local\tGBR\t0\tahead\t60", "local\tGBR\t0\twest\t0\t2027-03-28T01:00:00Z\t0\t", "local\tGBR\t0\tahead\t0\t\t0\t20:20",
                     "event\t" + EVENT, "component\t1\t2\teng", "service\t1\t1\tA\tB\t1", "remote\t1\t1\tA\tB", "other\t1\t1",
                     "other\t1\t1\t1\t\t\t\t"):
            with self.assertRaises(HeardError) as caught:
                read_heard(["", line])
            self.assertIn("line 2 is no `", str(caught.exception))

    def test_only_a_line_feed_ends_a_line(self) -> None:
        self.assertEqual(lines_of("a\u2028b\x85c\r\nd".encode()), ["a\u2028b\x85c", "d"])

    def test_json_has_what_was_printed(self) -> None:
        made = json.loads(json.dumps(heard_json(read_heard(LINES))))
        self.assertEqual((made["whole"], made["clock"], made["network"]["name"]), (True, "2026-11-30T20:20:00Z", "Harbour Cable"))
        self.assertEqual(made["local_times"], [{"country": "PRT", "region": 1, "is_behind": False, "minutes": 0, "change": "2027-03-28T01:00:00Z",
                                                "next_minutes": 60, "time": "2026-11-30T20:20:00"}])
        (event,) = made["services"][0]["events"]
        self.assertEqual((event, event["end"], event["duration"]), (made["services"][0]["present"], "2026-11-30T21:30:00Z", "01:30:00"))
        self.assertEqual(event["genres"][1], {"level_1": 7, "level_2": 0, "user": 15})
        self.assertEqual(made["completions"][0]["version"], 3)


if __name__ == "__main__":
    unittest.main()
