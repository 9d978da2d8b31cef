"""Tests of tools/air/on_air with the program: on air, edits, stops, kills, a full disk, UDP.

Ten minutes of air at ten times the rate, outside the gate: LEPNUGAN_LONG=1 tools/tests/run -k TenMinutes
"""
import os
import re
import signal
import socket
import subprocess
import tempfile
import time
import unittest
from pathlib import Path
from typing import Dict, List, Tuple

from loading import load
from on_air_run import DESCRIPTION, PROGRAM, STAND_IN, OnAirRun, needs_follow, program, wait_until, without_nulls
from air_streams import breaks, ts

load("air/ts_merge")

import addresses  # noqa: E402

NOW = time.strftime("%Y-%m-%dT%H:00:00Z", time.gmtime(time.time() - 3600))
GROUP = "239.255.40.1"
SDT = 17


def name(service: int, text: str) -> str:
    return f"feed,1,name,{service},Acme,{text}\n"


def show(service: int, event: int, text: str) -> str:
    return f"feed,1,put,{service},{event},{NOW},10:00:00,eng,{text},,,,,\n"


def versions(stream: bytes, pid: int) -> Dict[int, "set[bytes]"]:
    """The contents that each version_number had, of a table whose section begins a packet of its own and ends in it."""
    found: Dict[int, "set[bytes]"] = {}
    for one in ts.split(stream):
        if ts.pid_of(one) == pid:
            found.setdefault(one[10] >> 1 & 31, set()).add(one[4:])
    return found


def names_in_last_sdt(stream: bytes) -> str:
    """The names of the last SDT of an air of the stand-in, as text between tabs."""
    last = [one for one in ts.split(stream) if ts.pid_of(one) == SDT][-1]
    return "".join(f"\t{text}\t" for text in re.split(r"[^ -~]", last[5:].decode("ascii", "replace")))


def free_port() -> int:
    with socket.socket(socket.AF_INET, socket.SOCK_DGRAM) as probe:
        probe.bind(("127.0.0.1", 0))
        return int(probe.getsockname()[1])


def hear(address: "addresses.Address", interface: str, seconds: float) -> List[Tuple[float, bytes]]:
    """The datagrams that come, with the moments at which they came."""
    heard = []
    with addresses.hearing_socket(address, interface) as source:
        source.settimeout(10)
        heard.append((time.monotonic(), source.recv(2048)))
        while heard[-1][0] < heard[0][0] + seconds:
            data = source.recv(2048)
            heard.append((time.monotonic(), data))
    return heard


def gap(moments: List[float]) -> float:
    """The time from one moment to the next, by least squares: what delays a few of them moves it little."""
    middle = (len(moments) - 1) / 2
    places = [number - middle for number in range(len(moments))]
    return sum(place * moment for place, moment in zip(places, moments)) / sum(place * place for place in places)


class Case(unittest.TestCase):
    path = PROGRAM

    def setUp(self) -> None:
        scratch = tempfile.TemporaryDirectory()
        self.addCleanup(scratch.cleanup)
        self.folder = Path(scratch.name)
        self.air = self.folder / "air.ts"

    def begin(self, *words: str, **options: object) -> OnAirRun:
        words = words or ("--output", str(self.air), "--rate", "500000")
        run = OnAirRun(self.folder, *words, path=self.path, **options)  # type: ignore[arg-type]
        self.addCleanup(lambda: run.process.poll() is None and run.end(signal.SIGKILL))
        self.assertTrue(wait_until(run.is_playing), run.log())
        return run

    def assert_one_joint(self, stream: bytes, before: int) -> None:
        """The counters of each PID break at most once, after so many packets."""
        found = breaks(stream)
        pids = [ts.pid_of(stream[188 * number:]) for number in found]
        self.assertEqual(sorted(pids), sorted(set(pids)))
        self.assertTrue(all(number >= before for number in found), found)

    def guide(self) -> str:
        """What is heard of the recording."""
        return program("listen", data=self.air.read_bytes()).stderr.decode()


@needs_follow
class OnAir(Case):
    def test_a_run_is_the_air_of_its_script(self) -> None:
        run = self.begin()
        self.assertTrue(run.put_on_air("1.txt", show(101, 5, "Harbour") + show(102, 6, "Fjord")), run.log())
        time.sleep(0.5)
        self.assertEqual(run.end(), 0, run.log())
        (self.folder / "sent.ts").write_bytes(without_nulls(self.air.read_bytes()))
        script = DESCRIPTION.encode() + (run.state / "journal-0").read_bytes()
        done = program("audit", f"--air={self.folder / 'sent.ts'}", data=script)
        self.assertEqual(done.returncode, 0, done.stderr)
        guide = self.guide()
        self.assertEqual([line.split("\t")[5] for line in guide.splitlines() if line.startswith("now")], ["Harbour", "Fjord"])

    def test_two_folds_a_stop_and_a_start_break_no_counter(self) -> None:
        run = self.begin()
        for number in (1, 2):
            self.assertTrue(run.put_on_air(f"{number}.txt", name(101, f"News {number}")), run.log())
            self.assertTrue(run.fold(), run.log())
        self.assertEqual(run.end(), 0, run.log())
        again = self.begin()
        self.assertTrue(again.put_on_air("3.txt", name(101, "News 3")), again.log())
        self.assertEqual(again.end(), 0, again.log())
        stream = self.air.read_bytes()
        self.assertEqual(breaks(stream), [])
        self.assertEqual({version: len(contents) for version, contents in versions(stream, SDT).items()}, {0: 1, 1: 1, 2: 1, 3: 1})
        self.assertIn("\tNews 3\t", self.guide())

    def test_offset_lines_change_at_a_stop_and_a_start(self) -> None:
        mainland, azores = "offset,PRT,1,ahead,60,2027-10-31T01:00:00Z,0\n", "offset,PRT,2,behind,0,2027-10-31T01:00:00Z,60\n"
        for lines in ("offset,PRT,1,ahead,0,2027-03-28T01:00:00Z,60\n", mainland + azores):
            run = self.begin(description=DESCRIPTION.replace("end\n", f"{lines}end\n"))
            self.assertTrue(run.put_on_air("1.txt", name(101, "Harbour")), run.log())
            time.sleep(0.5)
            self.assertEqual(run.end(), 0, run.log())
        self.assertEqual(breaks(self.air.read_bytes()), [])
        local = [line.split("\t")[:-1] for line in self.guide().splitlines() if line.startswith("local\t")]
        self.assertEqual(local, [line.replace("offset", "local").strip().split(",") for line in (mainland, azores)])

    def test_other_streams_come_at_a_stop_and_a_start(self) -> None:
        other = "other,2,1\nremote,2,1,201,1,1,Acme,Far\n"
        for lines, edits in (("", show(101, 5, "Harbour")), (other, name(201, "Elsewhere") + show(201, 6, "Fjord"))):
            run = self.begin(description=DESCRIPTION.replace("end\n", f"{lines}end\n"))
            self.assertTrue(run.put_on_air("1.txt", edits), run.log())
            time.sleep(0.5)
            self.assertEqual(run.end(), 0, run.log())
        self.assertEqual(breaks(self.air.read_bytes()), [])
        guide = self.guide()
        self.assertIn("\nother\t2\t1\t\t\t\t\t\nremote\t201\t1\tAcme\tElsewhere\nnow\t6\t", guide)
        self.assertEqual([line.split("\t")[5] for line in guide.splitlines() if line.startswith("now")], ["Harbour", "Fjord"])

    def test_a_kill_gives_no_version_to_two_contents(self) -> None:
        run = self.begin()
        self.assertTrue(run.put_on_air("1.txt", name(101, "First")), run.log())
        time.sleep(0.4)
        run.end(signal.SIGKILL)
        before = self.air.stat().st_size // 188
        again = self.begin()
        self.assertTrue(again.put_on_air("2.txt", name(101, "Second")), again.log())
        time.sleep(0.4)
        self.assertEqual(again.end(), 0, again.log())
        stream = self.air.read_bytes()
        self.assertEqual({version: len(contents) for version, contents in versions(stream, SDT).items()}, {0: 1, 1: 1, 2: 1})
        self.assert_one_joint(stream, before)
        self.assertIn("\tSecond\t", self.guide())

    def test_a_kill_of_play_is_gone_on_from(self) -> None:
        run = self.begin()
        self.assertTrue(run.put_on_air("1.txt", name(101, "First")), run.log())
        time.sleep(1)
        before = self.air.stat().st_size // 188
        os.kill(run.player(), signal.SIGKILL)
        self.assertTrue(wait_until(lambda: run.checkpoint() == 1), run.log())
        self.assertTrue(run.put_on_air("2.txt", name(102, "Second")), run.log())
        time.sleep(0.4)
        self.assertEqual(run.end(), 0, run.log())
        self.assertIn("going on from the journal", run.log())
        self.assert_one_joint(self.air.read_bytes(), before)
        self.assertEqual({version: len(contents) for version, contents in versions(self.air.read_bytes(), SDT).items()}, {0: 1, 1: 1, 2: 1})
        self.assertIn("\tFirst\t", self.guide())

    def test_what_two_processes_may_not_share(self) -> None:
        run = self.begin()
        other = OnAirRun(self.folder, "--output", "/dev/null")
        self.assertEqual(other.process.wait(timeout=20), 1)
        self.assertIn("another process uses", run.log())
        self.assertEqual(run.end(), 0)


@needs_follow
class Edits(Case):
    BAD = {
        "a-word.txt": ("swop\n", "line 1: only lines of edits may stand here, feed,N,.. and item,.."),
        "b-swap.txt": (name(101, "X") + "swap\n", "line 2: only lines of edits may stand here, feed,N,.. and item,.."),
        "c-moment.txt": ("# a comment\n\nfeed,1,put,101,1,2026-01-01,00:30:00,eng,A,,,,,\n", "line 3: is no command"),
        "d-foreign.txt": ("feed,2,clear,101\n", "line 1: the desk answers foreign,101"),
        "e-overlap.txt": (show(101, 1, "A") + show(101, 2, "B"), "line 2: the desk answers overlap,1"),
        "f-cut.txt": ("feed,1,day,101,2026-01-01,2\nitem,1,2026-01-01T00:00:00Z,00:30:00,eng,A,,,,,\n", "line 2: is no command"),
        "g-bytes.txt": ("\x00\x01\udcff", "line 1: only lines of edits may stand here, feed,N,.. and item,.."),
    }

    def test_bad_files_go_aside_and_good_ones_on_air(self) -> None:
        run = self.begin()
        for file, (text, _) in self.BAD.items():
            (run.state / "x").write_bytes(text.encode("utf-8", "surrogateescape"))
            (run.state / "x").rename(run.state / "in" / file)
        (run.state / "in" / "z-folder.txt").mkdir()
        self.assertTrue(run.put_on_air("h-good.txt", name(101, "Good")), run.log())
        self.assertTrue(wait_until(lambda: run.status().get("edits", {}).get("on_air") == 1))
        for file, (_, why) in self.BAD.items():
            self.assertEqual((run.state / "refused" / f"{file}.why").read_text(), f"{why}\n", file)
        self.assertEqual(run.status()["edits"]["refused"], len(self.BAD))
        self.assertEqual(run.status()["last_refused"], {"file": "g-bytes.txt", "why": self.BAD["g-bytes.txt"][1]})
        self.assertEqual(run.end(), 0, run.log())
        self.assertIn("\tGood\t", self.guide())

    def test_a_faulty_description_is_refused_at_the_start(self) -> None:
        for text, why in (("network,40,Demo\nend\n", "mux lacks stream"), ("network,40,Demo\n", "no line is end")):
            run = OnAirRun(self.folder, "--output", "/dev/null", description=text)
            self.assertEqual(run.process.wait(timeout=20), 1)
            self.assertIn(why, run.log())


class FullDiskCase(Case):
    def setUp(self) -> None:
        super().setUp()
        state = self.folder / "state"
        state.mkdir()
        mounted = subprocess.run(["mount", "-t", "tmpfs", "-o", "size=256k", "none", str(state)], capture_output=True, check=False)
        if mounted.returncode:
            self.skipTest("no tmpfs can be mounted here")
        self.addCleanup(lambda: subprocess.run(["umount", "-l", str(state)], check=True))

    def fill(self, path: Path) -> None:
        with open(path, "wb", buffering=0) as ballast:
            try:
                while True:
                    ballast.write(b"\0" * 4096)
            except OSError:
                pass

    def check_that_the_air_goes_on(self) -> None:
        run = self.begin()
        self.assertTrue(run.put_on_air("1.txt", name(101, "Before")), run.log())
        run.edit("2.new", name(101, "After") * 200)
        self.fill(run.state / "ballast")
        (run.state / "in" / "2.new").rename(run.state / "in" / "2.txt")
        self.assertTrue(wait_until(lambda: "edits and the guide wait" in run.log()), run.log())
        run.process.send_signal(signal.SIGHUP)
        self.assertTrue(wait_until(lambda: "the checkpoint is not written" in run.log()), run.log())
        time.sleep(0.5)
        self.assertFalse(run.is_on_air("2.txt"))
        (run.state / "ballast").unlink()
        self.assertTrue(wait_until(lambda: run.is_on_air("2.txt")), run.log())
        self.assertTrue(run.fold(), run.log())
        self.assertEqual(run.end(), 0, run.log())
        self.assertEqual(breaks(self.air.read_bytes()), [])
        self.assertIn("\tAfter\t", self.guide())

    def check_a_stop_without_room(self) -> None:
        run = self.begin()
        self.assertTrue(run.put_on_air("1.txt", name(101, "Before")), run.log())
        self.fill(run.state / "ballast")
        self.assertEqual(run.end(), 1)
        self.assertIn("no checkpoint is written", run.log())
        (run.state / "ballast").unlink()
        again = self.begin()
        self.assertEqual(again.end(), 0, again.log())
        self.assertEqual({version: len(contents) for version, contents in versions(self.air.read_bytes(), SDT).items()}, {0: 1, 1: 1})
        self.assertIn("\tBefore\t", self.guide())


    def check_that_play_goes_on_in_memory(self) -> None:
        """The journal itself is no longer taken: `play` ends, and the next one has its journal in memory."""
        run = self.begin("--output", str(self.air), "--rate", "4000000", "--every", "0.005", "--ahead", "0.01")
        self.assertTrue(run.put_on_air("1.txt", name(101, "Before")), run.log())
        self.fill(run.state / "ballast")
        self.assertTrue(wait_until(lambda: "play ended with status 10" in run.log()), run.log())
        size = self.air.stat().st_size
        self.assertTrue(wait_until(lambda: self.air.stat().st_size > size + 500_000), run.log())
        (run.state / "ballast").unlink()
        self.assertTrue(wait_until(lambda: run.checkpoint() == 1), run.log())
        run.edit("2.txt", name(101, "After"))
        self.assertTrue(wait_until(lambda: run.is_on_air("2.txt")), run.log())
        self.assertEqual(run.end(), 0, run.log())
        self.assertEqual(breaks(self.air.read_bytes()), [])
        self.assertEqual({version: len(contents) for version, contents in versions(self.air.read_bytes(), SDT).items()}, {0: 1, 1: 1, 2: 1})
        self.assertIn("\tAfter\t", self.guide())


@needs_follow
class FullDisk(FullDiskCase):
    def test_play_goes_on_in_memory(self) -> None:
        self.check_that_play_goes_on_in_memory()

    def test_the_air_goes_on_and_edits_wait(self) -> None:
        self.check_that_the_air_goes_on()

    def test_a_stop_without_room_says_so_and_loses_nothing(self) -> None:
        self.check_a_stop_without_room()


class FullDiskWithStandIn(FullDiskCase):
    path = STAND_IN

    def test_play_goes_on_in_memory(self) -> None:
        self.check_that_play_goes_on_in_memory()

    def guide(self) -> str:
        return names_in_last_sdt(self.air.read_bytes())

    def test_the_air_goes_on_and_edits_wait(self) -> None:
        self.check_that_the_air_goes_on()

    def test_a_stop_without_room_says_so_and_loses_nothing(self) -> None:
        self.check_a_stop_without_room()


@needs_follow
class Udp(Case):
    def check(self, host: str, seconds: float, *words: str) -> None:
        address = addresses.Address(host, free_port())
        run = self.begin("--output", f"udp://{address.host}:{address.port}", "--rate", "2000000", *words)
        heard = hear(address, "127.0.0.1", seconds)
        self.assertEqual(run.end(), 0, run.log())
        self.assertEqual({len(data) for _, data in heard}, {7 * 188})
        self.assertLess(abs(7 * 1504 / gap([moment for moment, _ in heard]) / 2_000_000 - 1), 0.01)
        stream = b"".join(data for _, data in heard)
        self.assertEqual(breaks(stream), [])
        self.air.write_bytes(stream)
        self.assertIn("\nend", self.guide())
        self.assertNotIn("wanting", self.guide())

    def test_one_host_at_the_rate(self) -> None:
        self.check("127.0.0.1", 1.5)

    def test_a_group_on_the_loopback_at_the_rate(self) -> None:
        self.check(GROUP, 1, "--source", "127.0.0.1")


@needs_follow
@unittest.skipUnless(os.environ.get("LEPNUGAN_LONG"), "long: run by hand with LEPNUGAN_LONG=1")
class TenMinutes(Case):
    def test_ten_minutes_of_air_at_ten_times_the_rate(self) -> None:
        words = ("--output", str(self.air), "--rate", "5000000")
        run = self.begin(*words)
        begun, size = time.monotonic(), self.air.stat().st_size
        for number in range(40):
            self.assertTrue(run.put_on_air(f"{number:02}.txt", name(101, f"News {number}")), run.log())
            time.sleep(1)
            if number in (10, 20):
                self.assertTrue(run.fold(), run.log())
        sent = self.air.stat().st_size - size
        self.assertLess(abs(8 * sent / (time.monotonic() - begun) / 5_000_000 - 1), 0.01)
        self.assertEqual(run.end(), 0, run.log())
        run = self.begin(*words)
        for number in range(40, 55):
            self.assertTrue(run.put_on_air(f"{number:02}.txt", name(101, f"News {number}")), run.log())
            time.sleep(1)
        self.assertEqual(run.end(), 0, run.log())
        stream = self.air.read_bytes()
        self.assertGreater(len(stream), 55 * 5_000_000 / 8)
        self.assertEqual(breaks(stream), [])
        self.assertIn("\tNews 54\t", self.guide())


if __name__ == "__main__":
    unittest.main()
