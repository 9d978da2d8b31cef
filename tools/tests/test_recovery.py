"""Going on after a kill, by the program: what stands of a killed run is folded, and a second run goes on from the checkpoint.

The answers are by hand, from docs/FORMATS.md and the standards: a cycle of one service without events is six packets, on the PIDs of PAT,
PMT, NIT, SDT, TDT and EIT (EN 300 468, 5.1.3), each with its own continuity counter (ISO/IEC 13818-1, 2.4.3.3).
"""
import subprocess
import tempfile
import unittest
from pathlib import Path
from typing import Dict, List, Tuple

from examples import program

DESCRIPTION = b"network,40,Demo\nstream,1,1\nservice,101,1,1,256,257,Acme,One\nend\n"
SCRIPT = DESCRIPTION + b"feed,1,name,101,Acme,News\npublish\nswap\n"
RENAMED = b"feed,1,name,101,Acme,More\npublish\nswap\n"
PACKET = 188
PIDS = [0, 256, 16, 17, 20, 18]
BAD_PACKET = 6


def packets(air: bytes) -> List[Tuple[int, int]]:
    """PID and continuity counter of each whole packet."""
    starts = range(0, len(air) - PACKET + 1, PACKET)
    return [((air[at + 1] & 0x1F) << 8 | air[at + 2], air[at + 3] & 15) for at in starts]


def first_counters(air: bytes) -> Dict[int, int]:
    """The counter of the first packet of each PID."""
    found: Dict[int, int] = {}
    for pid, counter in packets(air):
        found.setdefault(pid, counter)
    return found


def sdt_version(air: bytes) -> int:
    """The version_number of the section that begins in the first packet on PID 17 (EN 300 468, 5.2.3)."""
    place = [pid for pid, _ in packets(air)].index(17)
    return air[place * PACKET + 5 + 5] >> 1 & 31


class Recovery(unittest.TestCase):
    def setUp(self) -> None:
        self.program = str(program())
        self.scratch = tempfile.TemporaryDirectory()
        self.addCleanup(self.scratch.cleanup)
        self.checkpoint = Path(self.scratch.name) / "checkpoint"
        self.first = self.run_words("play", "--follow", data=SCRIPT)
        self.assertEqual((self.first.returncode, len(self.first.stdout)), (0, 6 * PACKET))

    def run_words(self, *words: str, data: bytes) -> "subprocess.CompletedProcess[bytes]":
        return subprocess.run([self.program, *words], input=data, capture_output=True, timeout=60, check=False)

    def go_on(self, script: bytes) -> bytes:
        """The air of a run that goes on from the journal of the first: its last entry was written before its cycle."""
        fold = self.run_words("play", "--fold", data=DESCRIPTION + self.first.stderr)
        self.assertEqual((fold.returncode, fold.stdout), (0, self.first.stdout))
        self.checkpoint.write_bytes(fold.stderr)
        run = self.run_words("play", "--follow", f"--resume={self.checkpoint}", data=DESCRIPTION + script)
        self.assertEqual(run.returncode, 0)
        return run.stdout

    def heard(self, air: bytes, *words: str) -> Tuple[int, List[bytes]]:
        run = self.run_words("listen", *words, data=air)
        return run.returncode, run.stderr.splitlines()

    def test_counters_go_on_over_a_kill_between_packets(self) -> None:
        left = self.first.stdout[:3 * PACKET]
        self.assertEqual(packets(left), [(pid, 0) for pid in PIDS[:3]])
        more = self.go_on(b"swap\n")
        self.assertEqual(packets(more), [(pid, 1) for pid in PIDS])
        self.assertEqual(first_counters(left + more), {0: 0, 256: 0, 16: 0, 17: 1, 20: 1, 18: 1})
        status, lines = self.heard(left + more)
        self.assertEqual((status, lines[-1]), (0, b"end"))
        self.assertIn(b"service\t101\t1\tAcme\tNews\t256\t257", lines)

    def test_a_new_name_has_a_new_version(self) -> None:
        self.assertEqual(sdt_version(self.first.stdout), 0)
        more = self.go_on(RENAMED)
        self.assertEqual(sdt_version(more), 1)
        self.assertIn(b"service\t101\t1\tAcme\tMore\t256\t257", self.heard(self.first.stdout[:3 * PACKET] + more)[1])

    def test_a_kill_within_a_packet_is_damage(self) -> None:
        joined = self.first.stdout[:3 * PACKET + 36] + self.go_on(b"swap\n")
        status, lines = self.heard(joined)
        self.assertEqual((status, lines[-1]), (BAD_PACKET, b"fault: packet 4"))
        status, lines = self.heard(joined, "--resync")
        self.assertEqual((status, [line for line in lines if line.startswith(b"junk")]), (0, [b"junk\t4\t36"]))
        self.assertIn(b"service\t101\t1\tAcme\tNews\t256\t257", lines)


if __name__ == "__main__":
    unittest.main()
