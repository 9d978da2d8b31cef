"""Tests of the parts of tools/air/on_air that need no program: pacing, the state folder, files of edits, moments."""
import subprocess
import sys
import tempfile
import unittest
from pathlib import Path
from typing import List

from loading import TOOLS, load
from air_streams import packet, ts

load("air/ts_merge")

import edit_files  # noqa: E402
import guide_moments  # noqa: E402
import head_end  # noqa: E402
import journal as journals  # noqa: E402
import sending  # noqa: E402
import state_folder  # noqa: E402
from journal import Journal  # noqa: E402
from memory_file import MemoryFile  # noqa: E402
from player import Faulty, fold_at_once  # noqa: E402

STAND_IN = Path(__file__).resolve().parent / "stand_in"
DESCRIPTION = b"network,40,Demo\nend\n"
MUX = b"network,40,Demo\nstream,1,1\nservice,101,1,1,256,257,Acme,One\nservice,102,1,1,258,259,Acme,Two\nend\n"
EDIT = b"0,feed,1,clear,101\n=,done\n"
SWAP = b"0,swap\n=,swapped,0,x\n"


class Clock:
    """A clock that moves only by waiting, and by what each sending takes."""

    def __init__(self, takes: float = 0.0) -> None:
        self.now = 100.0
        self.takes = takes
        self.sent: List[bytes] = []
        self.moments: List[float] = []

    def read(self) -> float:
        return self.now

    def sleep(self, seconds: float) -> None:
        self.now += seconds

    def put(self, data: bytes) -> None:
        self.sent.append(data)
        self.moments.append(self.now)
        self.now += self.takes


class Pacing(unittest.TestCase):
    def send(self, clock: Clock, packets: List[bytes], rate: float, datagrams: int) -> sending.Sender:
        waiting = sending.Waiting(rate)
        waiting.add(b"".join(packets))
        sender = sending.Sender(clock.put, waiting, rate, clock.read, clock.sleep)
        sender.run(lambda: len(clock.sent) >= datagrams)
        return sender

    def test_the_rate_is_held_whatever_a_sending_takes(self) -> None:
        for takes in (0.0, 0.003):
            clock = Clock(takes)
            self.send(clock, [], 7 * 1504 * 100, 501)
            self.assertAlmostEqual(clock.moments[-1] - clock.moments[0], 5.0, places=6)

    def test_null_packets_where_nothing_waits(self) -> None:
        clock = Clock()
        packets = [packet(17, number) for number in range(10)]
        sender = self.send(clock, packets, 1_000_000, 3)
        self.assertEqual(list(ts.split(b"".join(clock.sent))), packets + [ts.NULL] * 11)
        self.assertEqual((sender.packets, sender.nulls), (21, 11))

    def test_what_waits_is_sent_after_the_end(self) -> None:
        clock = Clock()
        packets = [packet(17, number) for number in range(70)]
        self.send(clock, packets, 1_000_000, 1)
        self.assertEqual(b"".join(clock.sent), b"".join(packets))

    def test_a_long_delay_is_given_up(self) -> None:
        clock = Clock(5.0)
        with self.assertLogs("on_air", "WARNING"):
            sender = self.send(clock, [], 1_000_000, 2)
        self.assertGreater(sender.given_up, 9.0)
        self.assertGreater(sender.latest(), 4.0)
        self.assertEqual(sender.latest(), 0.0)

    def test_how_long_the_packets_take_that_wait(self) -> None:
        waiting = sending.Waiting(1504)
        self.assertEqual(waiting.add(ts.NULL * 3 + b"rest"), 3)
        self.assertEqual((waiting.seconds, len(waiting.take(2)), waiting.seconds), (3.0, 2, 1.0))


class Files(unittest.TestCase):
    def setUp(self) -> None:
        scratch = tempfile.TemporaryDirectory()
        self.addCleanup(scratch.cleanup)
        self.path = Path(scratch.name)


class State(Files):
    def open(self, folder: Path) -> state_folder.StateFolder:
        state = state_folder.StateFolder(folder)
        self.addCleanup(state.close)
        return state

    def names(self) -> List[str]:
        return sorted(path.name for path in self.path.iterdir() if path.name != "lock")

    def write(self, journal: Journal, entries: bytes) -> None:
        state_folder.write_all(journal.file, entries)

    def test_a_journal_and_the_checkpoint_after_it(self) -> None:
        state = self.open(self.path)
        journal = state.begin_journal(DESCRIPTION)
        self.write(journal, SWAP + EDIT)
        journal.close()
        self.assertEqual((state.checkpoint, state.left()), (None, state_folder.Left(DESCRIPTION, SWAP, [])))
        state.add_checkpoint(b"checkpoint,1\nend\n")
        self.assertEqual((state.left().entries, self.names()), (b"", ["checkpoint-1", "description-0", "journal-0"]))
        state.begin_journal(DESCRIPTION + b"#\n").close()
        self.assertEqual(self.names(), ["checkpoint-1", "description-1", "journal-1"])
        self.assertEqual((state.checkpoint, state.left().entries), (self.path / "checkpoint-1", b""))

    def test_the_files_of_the_last_batch(self) -> None:
        state = self.open(self.path)
        batch = state.batch().next(["a.txt", "b c.txt"])
        state.write_batch(batch)
        self.assertEqual((batch.number, state.batch(), batch.next([]).number), (1, batch, 2))
        for entries, files in ((EDIT + SWAP, []), (EDIT + b"1,swap\n=,swapped,1,x\n", batch.files), (b"1,swap\n=,swapped,1,x\n" + SWAP, []),
                               (b"11,swap\n=,swapped,1,x\n", []), (b"1,swap\n=,swapped,1,x\n" + EDIT, batch.files)):
            journal = state.begin_journal(DESCRIPTION)
            self.write(journal, entries)
            journal.close()
            self.assertEqual(state.left().files, files, entries)

    def test_a_batch_file_that_is_none(self) -> None:
        state = self.open(self.path)
        for text in ("", "{", "[1]", '{"number": 5}'):
            (self.path / "batch").write_text(text, encoding="utf-8")
            self.assertEqual(state.batch(), state_folder.Batch(0, []))
        self.assertEqual(state_folder.Batch(state_folder.LAST_BATCH, []).next([]).number, 1)

    def test_a_journal_waits_for_its_writer(self) -> None:
        state = self.open(self.path)
        journal = state.begin_journal(DESCRIPTION)
        with subprocess.Popen(["sh", "-c", "sleep 0.3; printf '0,swap\\n=,swapped,0,x\\n' >&2"], stderr=journal.file):
            journal.close()
            self.assertEqual(state.left().entries, b"0,swap\n=,swapped,0,x\n")

    def test_what_an_earlier_version_left(self) -> None:
        script = DESCRIPTION + b"# edits a.txt\nfeed,1,clear,101\nswap\ntick,x\n# edits b.txt\n# edits c d.txt\npublish\nswap\n"
        self.assertEqual(state_folder.left_in_script(script), state_folder.Left(b"", script, ["b.txt", "c d.txt"]))
        first = DESCRIPTION + b"# edits a.txt\nswap\n"
        self.assertEqual(state_folder.left_in_script(first + b"feed,1,clear,101\nswa"), state_folder.Left(b"", first, ["a.txt"]))
        self.assertEqual(state_folder.left_in_script(b""), state_folder.Left(b"", b"", []))
        (self.path / "script-0").write_bytes(script)
        state = self.open(self.path)
        self.assertEqual(state.left().entries, script)
        state.begin_journal(DESCRIPTION).close()
        self.assertEqual(self.names(), ["description-0", "journal-0"])

    def test_the_highest_checkpoint_counts_and_a_new_one_does_not(self) -> None:
        for name in ("checkpoint-9", "checkpoint-10", "checkpoint-11.new", "journal-9"):
            (self.path / name).write_bytes(SWAP)
        state = self.open(self.path)
        self.assertEqual((state.number, state.left().entries), (10, b""))

    def test_one_process_at_a_time(self) -> None:
        state = self.open(self.path)
        with self.assertRaises(state_folder.Busy):
            self.open(self.path)
        state.close()
        self.open(self.path)

    def test_what_the_disk_does_not_take_leaves_nothing(self) -> None:
        """A limit on the size of files, in a process of its own, stands for a full disk."""
        code = f"""
import resource, sys
sys.path[:0] = [{str(TOOLS / "air")!r}]
from pathlib import Path
from state_folder import StateFolder
state = StateFolder(Path({str(self.path)!r}))
print(state.has_room(1000))
resource.setrlimit(resource.RLIMIT_FSIZE, (40, resource.RLIM_INFINITY))
print(state.has_room(1000))
for call in (lambda: state.add_checkpoint(b"c" * 50), lambda: state.write_batch(state.batch().next(["a.txt"] * 10))):
    try:
        call()
    except OSError:
        print("refused", state.number, state.batch().number)
"""
        done = subprocess.run([sys.executable, "-B", "-c", code], capture_output=True, text=True, check=False)
        self.assertEqual((done.stdout, done.stderr), ("True\nFalse\nrefused 0 0\nrefused 0 0\n", ""))
        self.assertEqual(self.names(), [])

    def test_a_file_in_memory(self) -> None:
        file = MemoryFile(b"checkpoint")
        self.assertEqual(subprocess.run(["cat", str(file.path)], capture_output=True, check=True).stdout, b"checkpoint")


class EditFiles(unittest.TestCase):
    def test_what_is_tried_and_what_is_kept(self) -> None:
        text = b"# a\nfeed,1,day,101,2026-01-01,1\n\nitem,1,x\n7,feed,1,clear,101\n\"feed\",1,clear,102\n"
        checked = edit_files.Checked(DESCRIPTION, text)
        lines = [b"feed,1,day,101,2026-01-01,1", b"item,1,x", b"7,feed,1,clear,101", b"\"feed\",1,clear,102"]
        self.assertEqual(checked.kept, lines)
        tried = [lines[0], lines[1], b"=,done", lines[2], b"=,done", lines[3], b"=,done", b""]
        self.assertEqual(checked.tried, DESCRIPTION + b"\n".join(tried))

    def test_faults_are_named_by_the_lines_of_the_file(self) -> None:
        checked = edit_files.Checked(DESCRIPTION, b"# a\nfeed,1,clear,101\nfeed,1,clear,102\n")
        self.assertEqual(checked.why("input line 3 is no command"), "line 2: is no command")
        self.assertEqual(checked.why("input line 6 kept done found foreign,102"), "line 3: the desk answers foreign,102")
        self.assertEqual(checked.why("input line 7 is no command"), "the end: is no command")
        self.assertEqual(checked.why("memory"), "memory")

    def test_lines_that_are_no_edits(self) -> None:
        for line in (b"swap", b"tick,2026-01-01T00:00:00Z", b"=,done", b"publish", b"\xff\x00", b"3,swap", b" feed,1,clear,101"):
            with self.assertRaisesRegex(edit_files.Refused, "^line 2: only lines of edits"):
                edit_files.Checked(DESCRIPTION, b"feed,1,clear,101\n" + line + b"\n")

    def test_line_ends_and_a_mark_at_the_front(self) -> None:
        self.assertEqual([edit_files.word_of(line) for line in (b"", b"\r", b"# x", b"\xef\xbb\xbffeed,1", b"0,feed,1", b"item,1\r")],
                         ["#", "#", "#", "feed", "feed", "item"])


class Moments(unittest.TestCase):
    TEXT = b"checkpoint,1\n0,feed,1,name,101,A,B\n0,feed,1,put,101,5,2026-11-29T18:00:00Z,00:30:00,eng,A,,,,,\nversion,0,0,1,0,0,0\nend\n"

    def test_events_begin_and_end(self) -> None:
        moments = guide_moments.GuideMoments(self.TEXT)
        begin = guide_moments.seconds_of("2026-11-29T18:00:00Z")
        for after, until, changes in ((-9, -1, False), (-1, 0, True), (0, 1799, False), (1799, 1800, True), (1800, 5000, False)):
            self.assertEqual(moments.change_between(begin + after, begin + until), changes, (after, until))

    def test_a_day_begins(self) -> None:
        midnight = guide_moments.seconds_of("2026-11-30T00:00:00Z")
        self.assertTrue(guide_moments.GuideMoments().change_between(midnight - 1, midnight))
        self.assertFalse(guide_moments.GuideMoments().change_between(midnight, midnight + 86_399))

    def test_the_clock_of_a_checkpoint(self) -> None:
        text = b"checkpoint,1\n0,tick,2026-11-29T18:00:00Z\n0,publish\n0,tick,2026-11-29T18:30:00Z\nversion,0,0,1,0,0,0\nend\n"
        self.assertEqual(guide_moments.clock_of(text), guide_moments.seconds_of("2026-11-29T18:30:00Z"))

    def test_moments_are_written_as_they_are_read(self) -> None:
        self.assertEqual(guide_moments.moment_text(guide_moments.seconds_of("2026-02-28T23:59:59Z")), "2026-02-28T23:59:59Z")


class Entries(unittest.TestCase):
    TEXT = b"0,feed,1,day,101,2026-01-01,1\nitem,1,x\n=,done\n# line 9: no fields\n0,swap\n=,swapped,0,x\n0,feed,1,name,101,A,=,B\n=,done\n"

    def test_whole_entries_at_each_byte(self) -> None:
        ends = [self.TEXT.index(line) + len(line) for line in (b"item,1,x\n=,done\n", b"=,swapped,0,x\n")] + [len(self.TEXT)]
        for cut in range(len(self.TEXT) + 1):
            whole = max([end for end in ends if end <= cut], default=0)
            swapped = ends[1] if cut >= ends[1] else 0
            self.assertEqual(journals.whole_entries(self.TEXT[:cut]), self.TEXT[:whole], cut)
            self.assertEqual(journals.up_to_last_swap(self.TEXT[:cut]), self.TEXT[:swapped], cut)

    def test_what_comes_after_the_entries_is_no_part_of_them(self) -> None:
        for rest in (b"# line 9: no fields\n", b"fault: air not written\n", b"rate,500000,kept\n", b"0,feed,1,name,101,A,\"=", b"=,do"):
            self.assertEqual(journals.whole_entries(self.TEXT + rest), self.TEXT)

    def test_parts_are_whole_entries(self) -> None:
        text = self.TEXT * 20
        for size in (0, 1, 100, 1000, len(text), 2 * len(text)):
            found = list(journals.parts(text, size))
            self.assertEqual(b"".join(found), text)
            self.assertTrue(all(part == journals.whole_entries(part) and len(part) <= size + len(self.TEXT) for part in found), size)
        self.assertEqual(list(journals.parts(b"")), [])


class Folds(Files):
    """Folds by the stand-in."""

    PLAY = journals.Play(str(STAND_IN), MUX)

    def journal(self, text: bytes) -> Journal:
        journal = Journal(open(self.path / "journal-0", "wb", buffering=0), self.path / "journal-0", True)
        self.addCleanup(journal.close)
        state_folder.write_all(journal.file, text)
        return journal

    def test_parts_come_to_what_the_whole_comes_to(self) -> None:
        entries = b"".join(b"0,feed,1,name,101,Acme,News %d\n=,done\n0,publish\n=,published,%d\n" % (number, number)
                           + b"0,swap\n=,swapped,%d,1970-01-01T00:00:00Z\n" % number for number in range(1, 5))
        once = fold_at_once(str(STAND_IN), None, MUX + entries)
        self.assertEqual(once.status, 0, once.fault)
        made = None
        for part in journals.parts(entries, 1):
            made = journals.fold(self.PLAY, made, part)
        self.assertEqual(made and made.text, once.report)
        self.assertEqual(journals.fold_parts(self.PLAY, None, entries).text, once.report)

    def test_a_journal_is_folded_while_it_grows(self) -> None:
        swap = b"0,swap\n=,swapped,0,1970-01-01T00:00:00Z\n"
        journal = self.journal(swap + b"0,sw")
        folding = journals.Folding(self.PLAY, None, journal)
        folding.advance()
        self.assertEqual(folding.at, len(swap))
        state_folder.write_all(journal.file, b"ap\n=,swapped,0,1970-01-01T00:00:00Z\nrate,1,kept\n")
        folding.advance()
        journal.cut(folding.at)
        self.assertEqual((folding.at, journal.text()), (2 * len(swap), 2 * swap))
        self.assertEqual(folding.text(), fold_at_once(str(STAND_IN), None, MUX + 2 * swap).report)

    def test_a_journal_that_does_not_agree_is_refused(self) -> None:
        found = "input line 7 kept swapped,1,x found swapped,0,1970-01-01T00:00:00Z"
        with self.assertRaisesRegex(Faulty, f"^the journal can't be folded: {found}$"):
            journals.fold(self.PLAY, None, b"0,swap\n=,swapped,1,x\n")

    def test_what_is_recovered(self) -> None:
        for folder in ("taken", "done"):
            (self.path / folder).mkdir()
        for file in ("a.txt", "b.txt"):
            (self.path / "taken" / file).write_bytes(b"")
        state = state_folder.StateFolder(self.path)
        self.addCleanup(state.close)
        batch = state.batch().next(["a.txt"])
        state.write_batch(batch)
        entries = b"0,publish\n=,published,1\n1,swap\n=,swapped,1,1970-01-01T00:00:00Z\n"
        journal = state.begin_journal(MUX)
        state_folder.write_all(journal.file, entries + b"0,feed,1,name,101,Acme,News\n=,done\n0,publ")
        journal.close()
        with self.assertLogs("on_air", "INFO"):
            head_end.recover(str(STAND_IN), state)
        self.assertEqual((self.path / "checkpoint-1").read_bytes(), fold_at_once(str(STAND_IN), None, MUX + entries).report)
        files = [sorted(path.name for path in (self.path / folder).iterdir()) for folder in ("taken", "done")]
        self.assertEqual(files, [["b.txt"], ["a.txt"]])
        head_end.recover(str(STAND_IN), state)
        self.assertEqual(state.number, 1)

    def test_the_fault_of_a_journal(self) -> None:
        for text, fault in ((b"0,swap\n=,swapped,0,x\nfault: air not written\n", "air not written"), (b"0,swap\n=,swap", ""), (b"", "")):
            self.assertEqual(self.journal(text).fault(), fault)

    def test_a_journal_in_memory(self) -> None:
        journal = Journal.in_memory()
        self.addCleanup(journal.close)
        state_folder.write_all(journal.file, SWAP + b"0,")
        journal.cut(len(SWAP))
        state_folder.write_all(journal.file, b"1,")
        self.assertEqual(journal.text(), SWAP + b"1,")


if __name__ == "__main__":
    unittest.main()
