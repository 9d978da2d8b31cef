"""Tests of tools/air/ts_sync."""
import io
import subprocess
import sys
import unittest

from loading import TOOLS, load
from air_streams import noise, packet

tool = load("air/ts_sync")

PACKETS = [packet(pid, number, number) for number in range(8) for pid in (0, 17, 18, 256)]
WHOLE = b"".join(PACKETS)


class Pieces(io.RawIOBase):
    """A stream that gives its bytes in pieces of this size."""

    def __init__(self, data: bytes, size: int) -> None:
        self._data = io.BytesIO(data)
        self._size = size

    def read(self, size: int = -1) -> bytes:
        return self._data.read(self._size)


class Sync(unittest.TestCase):
    def assert_found(self, capture: bytes, packets: bytes, passed_over: int) -> None:
        for size in (1, 100, 188, 1000, 1 << 18):
            target = io.BytesIO()
            finder = tool.sync(Pieces(capture, size), target)
            self.assertEqual((finder.packets, finder.passed_over), (len(packets) // 188, passed_over), size)
            self.assertEqual(target.getvalue(), packets)

    def test_packets_alone(self) -> None:
        self.assert_found(WHOLE, WHOLE, 0)
        self.assert_found(WHOLE[:188], WHOLE[:188], 0)
        self.assert_found(b"", b"", 0)

    def test_a_front_that_is_cut(self) -> None:
        self.assert_found(WHOLE[100:], WHOLE[188:], 88)

    def test_an_end_that_is_cut(self) -> None:
        self.assert_found(WHOLE[:-1], WHOLE[:-188], 187)

    def test_junk_before_between_and_at_the_end(self) -> None:
        for size in (1, 8, 188, 500):
            junk = noise(size, size)
            self.assert_found(junk + WHOLE + junk + WHOLE + junk, WHOLE + WHOLE, 3 * size)

    def test_a_sync_byte_in_the_junk_is_no_packet(self) -> None:
        self.assert_found(b"\x47\x00\x47" + WHOLE, WHOLE, 3)

    def test_a_packet_with_a_damaged_sync_byte_is_passed_over(self) -> None:
        damaged = WHOLE[:188 * 5] + b"\xb8" + WHOLE[188 * 5 + 1:]
        self.assert_found(damaged, WHOLE[:188 * 5] + WHOLE[188 * 6:], 188)

    def test_192_bytes_with_time_stamps(self) -> None:
        stamped = b"".join(noise(4, number) + one for number, one in enumerate(PACKETS))
        self.assert_found(stamped, WHOLE, 4)
        self.assert_found(noise(37, 1) + stamped[4:], WHOLE, 37)

    def test_204_bytes_with_check_bytes(self) -> None:
        self.assert_found(b"".join(one + noise(16, number) for number, one in enumerate(PACKETS)), WHOLE, 0)

    def test_no_packet(self) -> None:
        self.assert_found(noise(5000, 3), b"", 5000)


class Command(unittest.TestCase):
    def run_words(self, *words: str, data: bytes = b"") -> "subprocess.CompletedProcess[bytes]":
        return subprocess.run([sys.executable, str(TOOLS / "air" / "ts_sync"), *words], input=data, capture_output=True, check=False)

    def test_standard_input(self) -> None:
        done = self.run_words(data=b"junk" + WHOLE)
        self.assertEqual((done.returncode, done.stdout, done.stderr), (0, WHOLE, b"ts_sync: 32 packets, 4 bytes passed over\n"))

    def test_help_and_a_file_that_is_not_there(self) -> None:
        self.assertEqual(self.run_words("--help").returncode, 0)
        self.assertEqual(self.run_words("no-such-file").returncode, 1)


if __name__ == "__main__":
    unittest.main()
