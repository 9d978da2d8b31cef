"""Tests of tools/air/ts_merge."""
import io
import socket
import subprocess
import sys
import tempfile
import unittest
from pathlib import Path
from typing import List

from loading import TOOLS, load
from air_streams import breaks, packet, ts, with_clock

tool = load("air/ts_merge")

AIR = [packet(pid, number, 7) for number in range(6) for pid in (0, 16, 17, 18, 256)]


def multiplex(cycles: int) -> List[bytes]:
    """Per cycle of ten packets: six of a picture, of which the first has a PCR, two of its own tables, and two null packets."""
    made: List[bytes] = []
    for cycle in range(cycles):
        made += [with_clock(512, 6 * cycle, 3600 * cycle)] + [packet(512, 6 * cycle + n, 0xAA) for n in range(1, 6)]
        made += [packet(0, cycle), packet(4096, cycle), ts.NULL, ts.NULL]
    return made


def is_of_the_air(one: bytes) -> bool:
    return one[4:] == b"\x07" * 184


class Merge(unittest.TestCase):
    def merged(self, air: "tool.Air", base: List[bytes], dropped: "set[int]", share: float = 1.0) -> "tuple[List[bytes], tool.Merger]":
        target = io.BytesIO()
        merger = tool.Merger(air, dropped, share)
        tool.merge(io.BytesIO(b"".join(base)), target, merger)
        return list(ts.split(target.getvalue())), merger

    def test_places_and_clocks_stay(self) -> None:
        base = multiplex(20)
        out, merger = self.merged(tool.Air(iter(AIR)), base, {0, 4096})
        self.assertEqual(len(out), len(base))
        pictures = [(place, one) for place, one in enumerate(base) if ts.pid_of(one) == 512]
        self.assertEqual([(place, one) for place, one in enumerate(out) if ts.pid_of(one) == 512], pictures)
        self.assertEqual([one for one in out if is_of_the_air(one)], AIR)
        self.assertEqual((merger.packets, merger.places, merger.put), (200, 80, len(AIR)))
        self.assertEqual({ts.pid_of(one) for one in out if not is_of_the_air(one)}, {512, ts.NULL_PID})

    def test_a_pid_of_the_air_is_dropped_from_the_multiplex(self) -> None:
        base = [ts.NULL, packet(256, 3), packet(257, 4)]
        out, _ = self.merged(tool.Air(iter([packet(256, 9, 7)])), base, set())
        self.assertEqual(out, [packet(256, 9, 7), ts.NULL, packet(257, 4)])

    def test_null_packets_of_the_air_take_no_place(self) -> None:
        out, _ = self.merged(tool.Air(iter([ts.NULL, AIR[0], ts.NULL, AIR[1]])), [ts.NULL] * 3, set())
        self.assertEqual(out, [AIR[0], AIR[1], ts.NULL])

    def test_a_share(self) -> None:
        out, _ = self.merged(tool.Air(tool.again_and_again(b"".join(AIR))), [ts.NULL] * 100, set(), 0.25)
        self.assertEqual(sum(is_of_the_air(one) for one in out), 25)

    def test_a_recording_again_and_again(self) -> None:
        out, _ = self.merged(tool.Air(tool.again_and_again(b"".join(AIR))), [ts.NULL] * 500, set())
        self.assertEqual((sum(map(is_of_the_air, out)), breaks(b"".join(out))), (500, []))

    def test_an_air_that_is_too_fast_loses_its_oldest_packets(self) -> None:
        with socket.socket(socket.AF_INET, socket.SOCK_DGRAM) as hearing, socket.socket(socket.AF_INET, socket.SOCK_DGRAM) as sending:
            hearing.bind(("127.0.0.1", 0))
            heard = tool.Heard(hearing, most=7)
            self.assertIsNone(next(heard))
            for _ in range(2):
                sending.sendto(b"".join(AIR[:7]), hearing.getsockname())
            self.assertEqual((next(heard), heard.lost), (AIR[0], 7))


class Command(unittest.TestCase):
    def test_a_file_into_standard_input(self) -> None:
        with tempfile.TemporaryDirectory() as folder:
            path = Path(folder) / "air.ts"
            path.write_bytes(b"".join(AIR))
            words = [sys.executable, str(TOOLS / "air" / "ts_merge"), "--air", str(path), "--drop", "0,0x1000"]
            done = subprocess.run(words, input=b"".join(multiplex(10)), capture_output=True, check=False)
            self.assertEqual((done.returncode, done.stderr), (0, b"ts_merge: 100 packets, 40 places, 30 of the air, 0 lost\n"))
            self.assertEqual(len(done.stdout), 100 * 188)

    def test_wrong_words_say_why(self) -> None:
        for words in (["--air", "udp://127.0.0.1:x"], ["--air", "/no/such/file"]):
            done = subprocess.run([sys.executable, str(TOOLS / "air" / "ts_merge"), *words], input=b"", capture_output=True, check=False)
            self.assertEqual((done.returncode, done.stderr.startswith(b"ts_merge: ")), (1, True), done.stderr)


if __name__ == "__main__":
    unittest.main()
