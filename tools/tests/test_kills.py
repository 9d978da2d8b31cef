"""Tests of bench/kills: what it reads of reports and airs, the scripts that it makes, and some kills of the stand-in."""
import contextlib
import io
import random
import tempfile
import unittest
from pathlib import Path

from loading import TOOLS, load
from air_streams import packet, with_clock
from on_air_run import DESCRIPTION, STAND_IN, program

tool = load("../bench/kills/run")

import kill_airs  # noqa: E402
import kill_runs  # noqa: E402
import kill_scripts  # noqa: E402

DAY = b"0,feed,1,day,101,2026-11-29,1\nitem,1,x\n=,done\n"
SWAP = b"7,swap\n=,swapped,0,1970-01-01T00:00:00Z\n"


def play(*names: str) -> bytes:
    """The air of the stand-in that has each of these names in a cycle of its own."""
    script = DESCRIPTION + "".join(f"feed,1,name,101,Acme,{text}\npublish\nswap\n" for text in names)
    return program("play", data=script.encode(), path=STAND_IN).stdout


class Reports(unittest.TestCase):
    def test_entries_without_comments(self) -> None:
        self.assertEqual(kill_airs.entries_of(b"# line 5: no fields\n" + DAY + b"# line 9: no item\n" + SWAP), [DAY, SWAP])
        self.assertEqual(kill_airs.entries_of(b""), [])

    def test_what_comes_after_the_whole_entries(self) -> None:
        for rest, left in ((b"", b""), (b"7,sw", b"7,sw"), (b"# line 7: no fie", b""), (b"# line 7: no fields\n# l", b""),
                           (b"# line 7: no fields\n7,swap\n=,swap", b"7,swap\n=,swap"),
                           (b"fault: air not written\n", b"fault: air not written\n")):
            report = kill_airs.report_of(DAY + SWAP + rest)
            self.assertEqual((report.text, report.entries, report.rest), (DAY + SWAP, [DAY, SWAP], left), rest)

    def test_swaps(self) -> None:
        self.assertEqual([kill_airs.is_swap(entry) for entry in (DAY, SWAP, b"0,feed,1,name,101,A,swap\n=,done\n")], [False, True, True])

    def test_the_guide_of_a_report(self) -> None:
        text = "done\t0\t0\njunk\t4\t36\nlost\t5\t17\nclock\tx\nservice\t1\nend\n"
        self.assertEqual(kill_airs.guide_of(text), ["clock\tx", "service\t1", "end"])


class Airs(unittest.TestCase):
    def heard(self, *airs: bytes) -> kill_airs.Heard:
        heard = kill_airs.Heard()
        for air in airs:
            heard.take(air)
        return heard

    def test_payloads(self) -> None:
        self.assertEqual((kill_airs.payload_at(packet(17, 0)), kill_airs.payload_at(with_clock(17, 0, 0))), (4, 12))

    def test_an_air_without_a_kill(self) -> None:
        air = play("One", "Two", "Three")
        heard = self.heard(air)
        self.assertEqual((heard.packets, heard.breaks, heard.doubled()), (15, [], []))
        versions = sorted(key[4] for key in heard.contents if key[0] == 17)
        self.assertEqual(versions, [0, 1, 2])

    def test_two_contents_of_one_version(self) -> None:
        self.assertEqual(self.heard(play("One"), play("Two")).doubled(), [(17, 0x42, (1, 1), 0, 0)])

    def test_a_cut_packet_is_passed_over(self) -> None:
        air = play("One")
        heard = self.heard(air[:600], play("One", "One")[len(air):])
        self.assertEqual((heard.packets, heard.breaks), (8, []))

    def test_breaks_and_joints(self) -> None:
        self.assertEqual(self.heard(packet(17, 0) + packet(17, 1), packet(17, 3) + packet(20, 3) + packet(17, 4)).breaks, [(2, 17)])
        breaks = [(1, 17), (4, 17), (5, 18), (6, 17), (9, 17)]
        self.assertEqual(kill_airs.breaks_elsewhere(breaks, [4, 8]), [(1, 17), (6, 17)])
        self.assertEqual(kill_airs.breaks_elsewhere([], [4]), [])


class Scripts(unittest.TestCase):
    def made(self, seed: int, is_simple: bool = False) -> kill_scripts.Script:
        return kill_scripts.Maker(random.Random(seed), is_simple).script(40, 10)

    def test_one_seed_makes_one_script(self) -> None:
        self.assertEqual(self.made(1), self.made(1))
        self.assertNotEqual(self.made(1), self.made(2))

    def test_swaps_and_what_has_no_entry(self) -> None:
        for seed in range(20):
            script = self.made(seed)
            self.assertEqual((len(script.commands), sum(command.is_swap for command in script.commands)), (50, 10))
            self.assertTrue(script.commands[-1].is_swap)
            self.assertTrue(all(command.text.endswith("\n") for command in script.commands))
            self.assertNotIn("swop", script.without_bad().text().decode())

    def test_a_part_of_a_script(self) -> None:
        commands = [kill_scripts.Command(text) for text in ("publish\n", "3,swap\n", "swop\n")]
        script = kill_scripts.Script("end\n", commands)
        texts = [b"end\npublish\n3,swap\nswop\n", b"end\n3,swap\nswop\n", b"end\npublish\n"]
        self.assertEqual([script.text(), script.text(1), script.text(0, 1)], texts)
        self.assertEqual([command.is_swap for command in commands], [False, True, False])

    def test_fields_that_need_quotes(self) -> None:
        self.assertEqual([kill_scripts.quoted(text) for text in ("a b", "a,b", 'a "b"')], ["a b", '"a,b"', '"a ""b"""'])


class Runs(unittest.TestCase):
    SCRIPT = (DESCRIPTION + "publish\nswap\nfeed,1,name,101,Acme,News\npublish\nswap\n").encode()

    def setUp(self) -> None:
        scratch = tempfile.TemporaryDirectory()
        self.addCleanup(scratch.cleanup)
        self.program = kill_runs.Program(STAND_IN, Path(scratch.name), True)
        self.whole = self.program.follow(self.SCRIPT, None)

    def test_a_report_takes_so_many_bytes(self) -> None:
        for size in (0, 1, 30, 100):
            ended = self.program.killed_at_report(self.SCRIPT, None, size)
            self.assertEqual((ended.status, ended.report), (-25, self.whole.report[:size]))
            self.assertEqual(len(ended.air) % (5 * 188), 0)

    def test_an_air_takes_so_many_bytes(self) -> None:
        for size in (0, 188, 1000):
            ended = self.program.killed_at_air(self.SCRIPT, None, size)
            self.assertEqual((ended.status, ended.air), (-25, self.whole.air[:size]))
            self.assertTrue(kill_airs.is_swap(kill_airs.report_of(ended.report).entries[-1]))

    def test_a_reader_kills(self) -> None:
        ended = self.program.killed_by_reader(self.SCRIPT, None, 500)
        self.assertIn(ended.status, (0, -9))
        self.assertTrue(self.whole.air.startswith(ended.air) and len(ended.air) >= 500)

    def test_kills_of_the_stand_in(self) -> None:
        out = io.StringIO()
        with contextlib.redirect_stdout(out):
            status = tool.main(["--program", str(STAND_IN), "--simple", "--kills", "4", "--seed", "5"])
        self.assertEqual(status, 0, out.getvalue())
        counts = r"^kills 4: report \d, air \d, reader \d; by a signal \d, by a failed write 0\nchains \d, entries \d+; "
        self.assertRegex(out.getvalue(), counts)

    def test_a_program_that_is_wrong(self) -> None:
        """One that sends the cycle before its entry is in the report."""
        text = STAND_IN.read_text(encoding="utf-8")
        entry = '        self._say(row(int(caller), *command) + row("=", *self._made.split(",")))\n'
        cycle = '        if command == ["swap"]:\n            self._air.write(desk.cycle())\n'
        self.assertIn(entry + cycle, text)
        self.check_wrong(text.replace(entry + cycle, cycle + entry), r"is not that of its entries|is another")

    def test_a_program_that_forgets_its_counters(self) -> None:
        text = STAND_IN.read_text(encoding="utf-8")
        line = "                self.counters[int(fields[1])] = int(fields[2])\n"
        self.assertIn(line, text)
        self.check_wrong(text.replace(line, "                pass\n"), r"is another")

    def check_wrong(self, text: str, words: str) -> None:
        with tempfile.TemporaryDirectory() as folder:
            path = Path(folder) / "wrong"
            path.write_text(text, encoding="utf-8")
            path.chmod(0o755)
            out = io.StringIO()
            with contextlib.redirect_stdout(out):
                status = tool.main(["--program", str(path), "--simple", "--kills", "20", "--seed", "5"])
        self.assertEqual(status, 1)
        self.assertRegex(out.getvalue(), r"^wrong: chain 5-\d+: .*" + words)


if __name__ == "__main__":
    unittest.main()
