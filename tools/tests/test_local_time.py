"""Local time on air: the offsets of a description, as `listen`, tshark and a reader of bytes that is made here show them."""
import re
import shutil
import subprocess
import tempfile
import unittest
from datetime import datetime, timedelta, timezone
from pathlib import Path
from typing import Dict, List

from examples import TOP, program, skip
from intervals.sections import Assembler, Section
from streams import Stream, short_section, tot

COUNTS = (1, 12, 13, 16)
MULTIPLEX = "network,40,Demo\nstream,1,1\nservice,101,1,1,256,257,Acme,One\nstart,1993-10-13T12:45:00Z\n"
MOMENT = bytes.fromhex("c079124500")
ZERO = datetime(1858, 11, 17, tzinfo=timezone.utc)
# An offset as the fields of its line: country, region, side, minutes, change, next.
Offset = List[str]


def offsets(count: int) -> List[Offset]:
    """So many offsets that differ in each field, with the first and the last of each range."""
    made = []
    for place in range(count):
        farthest = 720 if place % 2 else 780
        change = datetime(1993, 10, 24, 1, tzinfo=timezone.utc) + timedelta(days=900 * place, seconds=3661 * place)
        made.append([f"A{chr(65 + place)}Z", str(63 - 4 * place), "behind" if place % 2 else "ahead", str(place * farthest // 15),
                     f"{change:%Y-%m-%dT%H:%M:%SZ}", str(farthest - place * farthest // 15)])
    return made


# ---- a reader of bytes


def sections_of(stream: bytes, table: int) -> List[bytes]:
    """The sections of a table on PID 0x0014 of packets of 188 bytes, each whole."""
    found: List[bytes] = []

    def take(section: Section, data: bytes) -> None:
        if section.table_id == table:
            found.append(data)

    assembler = Assembler(0x14, take)
    for at in range(0, len(stream), 188):
        packet = stream[at:at + 188]
        if (packet[1] & 0x1F) << 8 | packet[2] == 0x14:
            assembler.take(packet[4:], at + 4, bool(packet[1] & 0x40), packet[3] & 15)
    assert not assembler.damaged
    return found


def digits(data: bytes) -> int:
    """Decimal digits, four bits each."""
    return int(data.hex())


def minutes_of(data: bytes) -> str:
    return str(digits(data[:1]) * 60 + digits(data[1:]))


def moment_of(data: bytes) -> str:
    time = timedelta(hours=digits(data[2:3]), minutes=digits(data[3:4]), seconds=digits(data[4:]))
    return f"{ZERO + timedelta(days=data[0] << 8 | data[1]) + time:%Y-%m-%dT%H:%M:%SZ}"


def entries_of(section: bytes) -> List[Offset]:
    """The entries of a TOT with one descriptor."""
    loop = section[10:-4]
    assert loop[0] == 0x58 and loop[1] == len(loop) - 2
    found = []
    for at in range(2, len(loop), 13):
        entry = loop[at:at + 13]
        found.append([entry[:3].decode("ascii"), str(entry[3] >> 2), "behind" if entry[3] & 1 else "ahead", minutes_of(entry[4:6]),
                      moment_of(entry[6:11]), minutes_of(entry[11:])])
    return found


# ---- tshark


def fields_of(text: str, name: str, value: str) -> List[str]:
    return re.findall(rf"^ *(?:[01. ]+= )?{name}: {value}", text, re.M)


def clock_minutes(text: str) -> str:
    hours, minutes = text.split(":")
    return str(int(hours) * 60 + int(minutes))


def tshark_entries(stream: bytes) -> List[Offset]:
    """The entries of all TOTs that tshark shows."""
    if not shutil.which("tshark"):
        skip("there is no tshark")
    with tempfile.TemporaryDirectory() as folder:
        path = Path(folder) / "air.ts"
        path.write_bytes(stream)
        words = ["tshark", "-o", "mpeg_sect.verify_crc:TRUE", "-r", str(path), "-V", "-Y", "dvb_tot"]
        text = subprocess.run(words, capture_output=True, text=True, check=True, env={"LC_ALL": "C", "PATH": "/usr/bin:/bin", "HOME": folder}).stdout
    assert "CRC 32 Status: Bad" not in text
    changes = [datetime.strptime(change, "%b %d, %Y %H:%M:%S") for change in fields_of(text, "Time of Change", r"(.{20,21})\.0+ UTC")]
    columns = [fields_of(text, "Country Code", "(...)"), [str(int(region, 16)) for region in fields_of(text, "Region ID", "0x(..)")],
               ["ahead" if side == "Positive" else "behind" for side in fields_of(text, "Time Offset Polarity", "(Positive|Negative)")],
               [clock_minutes(time) for time in fields_of(text, "Local Time Offset", "([0-9:]+)")],
               [f"{change:%Y-%m-%dT%H:%M:%SZ}" for change in changes],
               [clock_minutes(time) for time in fields_of(text, "Next Time Offset", "([0-9:]+)")]]
    assert len({len(column) for column in columns}) == 1, columns
    return [list(entry) for entry in zip(*columns)]


# ---- tests


def bcd(minutes: str) -> bytes:
    return bytes.fromhex(f"{int(minutes) // 60:02}{int(minutes) % 60:02}")


def entry_bytes(offset: Offset) -> bytes:
    """An entry of the descriptor (EN 300 468, 6.2.20)."""
    country, region, side, minutes, change, later = offset
    moment = datetime.strptime(change, "%Y-%m-%dT%H:%M:%SZ").replace(tzinfo=timezone.utc)
    place = bytes([int(region) << 2 | 2 | (side == "behind")])
    day = (moment - ZERO).days.to_bytes(2, "big")
    return country.encode("ascii") + place + bcd(minutes) + day + bytes.fromhex(f"{moment:%H%M%S}") + bcd(later)


class Readers(unittest.TestCase):
    """Both readers show what is written here."""

    def stream(self, count: int) -> bytes:
        stream = Stream()
        stream.put(0x14, short_section(0x70, MOMENT), tot(MOMENT, b"".join(map(entry_bytes, offsets(count)))))
        stream.until(12)
        return stream.data

    def test_bytes(self) -> None:
        for count in COUNTS:
            (section,) = sections_of(self.stream(count), 0x73)
            self.assertEqual(entries_of(section), offsets(count))

    def test_tshark(self) -> None:
        for count in COUNTS:
            self.assertEqual(tshark_entries(self.stream(count)), offsets(count))


class OnAir(unittest.TestCase):
    """What the program sends of a description."""

    def run_program(self, *words: str, data: bytes) -> "subprocess.CompletedProcess[bytes]":
        return subprocess.run([str(program()), *words], input=data, capture_output=True, timeout=60, check=True)

    def script(self, count: int) -> bytes:
        lines = "".join(f"offset,{','.join(offset)}\n" for offset in offsets(count))
        return f"{MULTIPLEX}{lines}end\nswap\n".encode()

    def test_the_offsets_of_an_air(self) -> None:
        for count in COUNTS:
            air = self.run_program("play", data=self.script(count)).stdout
            (section,) = sections_of(air, 0x73)
            self.assertEqual((section[3:8], len(section), entries_of(section)), (MOMENT, 16 + 13 * count, offsets(count)))
            self.assertEqual(len(air), 188 * (6 if count <= 12 else 7))
            heard = self.run_program("listen", data=air).stderr.decode()
            local = [line.split("\t") for line in heard.splitlines() if line.startswith("local\t")]
            self.assertEqual([line[1:7] for line in local], offsets(count))

    def test_tshark_shows_them_too(self) -> None:
        for count in COUNTS:
            self.assertEqual(tshark_entries(self.run_program("play", data=self.script(count)).stdout), offsets(count))

    def test_an_audit_asks_for_them(self) -> None:
        with tempfile.TemporaryDirectory() as folder:
            air = Path(folder) / "air.ts"
            air.write_bytes(self.run_program("play", data=self.script(2)).stdout)
            self.assertEqual(self.run_program("audit", f"--air={air}", data=self.script(2)).stderr, b"air\t6\t1\n")
            done = subprocess.run([str(program()), "audit", f"--air={air}"], input=self.script(1), capture_output=True, timeout=60, check=False)
            self.assertEqual((done.returncode, done.stderr), (15, b"fault: packet 4 breaks bytes\n"))

    def test_local_times(self) -> None:
        rows: Dict[str, str] = {
            "GBR,0,ahead,60,1993-10-24T01:00:00Z,0": "1993-10-13T13:45:00", "GBR,0,ahead,60,1993-10-13T12:45:00Z,0": "1993-10-13T12:45:00",
            "GBR,0,ahead,60,1993-10-13T12:45:01Z,0": "1993-10-13T13:45:00", "USA,63,behind,330,1993-10-13T12:45:01Z,0": "1993-10-13T07:15:00",
            "NZL,1,ahead,720,1993-10-03T14:00:00Z,780": "1993-10-14T01:45:00",
        }
        for offset, time in rows.items():
            air = self.run_program("play", data=f"{MULTIPLEX}offset,{offset}\nend\nswap\n".encode()).stdout
            heard = self.run_program("listen", data=air).stderr.decode()
            self.assertIn("\t".join(["local", *offset.split(","), time]) + "\n", heard)

    def test_each_run_of_a_cycle_has_one(self) -> None:
        week = (TOP / "examples" / "week.txt").read_text(encoding="utf-8")
        self.assertEqual(week.count("\nquota,200\nend\n"), 1)
        counts = []
        for offset in ("", "offset,GBR,0,ahead,0,2027-03-28T01:00:00Z,60\n"):
            air = self.run_program("play", data=week.replace("\nquota,200\nend\n", f"\n{offset}quota,1\nend\n").encode()).stdout
            counts.append((len(sections_of(air, 0x70)), len(sections_of(air, 0x73))))
        (times, none), (again, with_offsets) = counts
        self.assertEqual((none, with_offsets, again), (0, times, times))
        self.assertGreater(times, 4)


if __name__ == "__main__":
    unittest.main()
