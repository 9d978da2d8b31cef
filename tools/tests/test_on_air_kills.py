"""Tests of tools/air/on_air that kill it and its `play` at random moments, and look at what is then on air.

They run with the stand-in, and with the program where it is built: then its air is also heard.
"""
import os
import random
import re
import signal
import time
import unittest
from typing import List

from on_air_run import DESCRIPTION, PROGRAM, STAND_IN, OnAirRun, needs_follow, program, wait_until, without_nulls
from air_streams import breaks, ts
from test_on_air import SDT, Case, name, names_in_last_sdt, versions

from journal import up_to_last_swap

KILLS = 6


def common_packets(one: bytes, other: bytes) -> int:
    """How many packets stand at the front of both."""
    pairs = zip(ts.split(one), ts.split(other))
    return next((number for number, (left, right) in enumerate(pairs) if left != right), min(len(one), len(other)) // ts.SIZE)


class KillCase(Case):
    """The journals of all runs, joined, are one script; and what was sent is its air, but for what a kill left unsent."""

    def setUp(self) -> None:
        super().setUp()
        self.links = self.folder / "journals"
        self.links.mkdir()
        self.done: List[str] = []

    def keep_journals(self, run: OnAirRun) -> None:
        """Gives each journal another name, so that it stays when the next one has begun."""
        for path in run.state.glob("journal-*"):
            if not (self.links / path.name).exists():
                os.link(path, self.links / path.name)

    def journals(self) -> List[bytes]:
        paths = sorted(self.links.iterdir(), key=lambda path: int(path.name.split("-")[1]))
        return [up_to_last_swap(path.read_bytes()) for path in paths]

    def edit(self, run: OnAirRun, number: int) -> None:
        run.edit(f"{number:03}.txt", name(101, f"News {number}") + name(102, f"Film {number}"))
        self.done.append(f"{number:03}.txt")

    def kill(self, run: OnAirRun, draws: random.Random) -> OnAirRun:
        """Kills on_air or its `play`, at a random moment. What goes on."""
        self.keep_journals(run)
        if draws.randrange(2):
            run.end(signal.SIGKILL)
            return self.begin_again()
        begun = run.checkpoint()
        time.sleep(max(0.0, 1.1 - (time.monotonic() - self.begun)))
        os.kill(run.player(), signal.SIGKILL)
        self.assertTrue(wait_until(lambda: run.checkpoint() > begun), run.log())
        self.begun = time.monotonic()
        return run

    def begin_again(self) -> OnAirRun:
        run = self.begin("--output", str(self.air), "--rate", "60000")
        self.begun = time.monotonic()
        return run

    def kill_often(self, seed: int) -> None:
        draws = random.Random(seed)
        run = self.begin_again()
        for number in range(KILLS):
            wait_until((run.state / "refused").exists)
            self.edit(run, number)
            time.sleep(draws.random())
            run = self.kill(run, draws)
        last = self.done[-1]
        self.assertTrue(wait_until(lambda: run.is_on_air(last)), run.log())
        time.sleep(0.5)
        self.keep_journals(run)
        self.assertEqual(run.end(), 0, run.log())

    def check(self, seed: int) -> None:
        self.kill_often(seed)
        journals = self.journals()
        script = DESCRIPTION.encode() + b"".join(journals)
        played = program("play", data=script, path=self.path)
        self.assertEqual((played.returncode, played.stderr), (0, b"".join(journals)))
        self.check_edits(played.stderr.decode())
        sent = without_nulls(self.air.read_bytes())
        self.check_air(sent, played.stdout, journals)
        self.assertTrue(all(len(contents) == 1 for contents in versions(sent, SDT).values()))
        counted = [ts.pid_of(sent[ts.SIZE * number:]) for number in breaks(sent)]
        self.assertTrue(all(counted.count(pid) <= KILLS for pid in counted))

    def check_edits(self, journal: str) -> None:
        """Each file of edits was done whole, once, and in its turn."""
        names = re.findall(r",name,10[12],Acme,(\w+ \d+)\n=,done\n", journal)
        self.assertEqual(names, [f"{word} {number}" for number in range(KILLS) for word in ("News", "Film")])
        self.assertEqual(sorted(os.listdir(self.folder / "state" / "done")), self.done)

    def check_air(self, sent: bytes, whole: bytes, journals: List[bytes]) -> None:
        """What was sent is the whole air, but for the last packets of a journal at whose end a kill stands."""
        scripts = [DESCRIPTION.encode() + b"".join(journals[:count]) for count in range(len(journals) + 1)]
        ends = [len(program("play", data=script, path=self.path).stdout) for script in scripts]
        at = missing = 0
        for begin, end in zip(ends, ends[1:]):
            found = common_packets(sent[at:], whole[begin:end]) * ts.SIZE
            at += found
            missing = end - begin - found
        self.assertEqual((at, missing), (len(sent), 0))


class KillsWithStandIn(KillCase):
    path = STAND_IN

    def test_kills_are_gone_on_from(self) -> None:
        for seed in (1, 2):
            with self.subTest(seed=seed):
                self.doCleanups()
                self.setUp()
                self.check(seed)


    def test_a_kill_after_the_entry_of_a_swap(self) -> None:
        """Of the cycle nothing was sent, and its edits are done: they are not sent again."""
        text = STAND_IN.read_text(encoding="utf-8")
        cycle = '        if command == ["swap"]:\n'
        self.assertIn(cycle, text)
        flag = self.folder / "flag"
        kill = f'            if caller != "0" and not Path({str(flag)!r}).exists():\n                Path({str(flag)!r}).touch()\n'
        kill += "                signal.raise_signal(signal.SIGKILL)\n"
        self.path = self.folder / "program"
        text = text.replace(cycle, cycle + kill).replace("import csv\n", "import csv\nfrom pathlib import Path\n")
        self.path.write_text(text, encoding="utf-8")
        self.path.chmod(0o755)
        run = self.begin_again()
        self.keep_journals(run)
        time.sleep(1.1)
        self.edit(run, 0)
        self.assertTrue(wait_until(lambda: run.is_on_air("000.txt")), run.log())
        self.assertTrue(flag.exists())
        time.sleep(0.5)
        self.keep_journals(run)
        self.assertEqual(run.end(), 0, run.log())
        journals = self.journals()
        self.assertEqual(b"".join(journals).count(b",News 0\n"), 1)
        self.assertTrue(journals[0].endswith(b"Z\n") and b"\n1,swap\n" in journals[0], journals)
        self.assertIn("\tNews 0\t", names_in_last_sdt(self.air.read_bytes()))


@needs_follow
class Kills(KillCase):
    path = PROGRAM

    def test_kills_are_gone_on_from(self) -> None:
        self.check(3)
        guide = self.guide()
        self.assertIn("\nend", guide)
        self.assertNotIn("wanting", guide)
        self.assertIn(f"\tNews {KILLS - 1}\t", guide)


if __name__ == "__main__":
    unittest.main()
