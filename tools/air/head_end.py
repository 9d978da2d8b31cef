"""Keeps `play` going: batches of lines at the right time, checkpoints, and what to do where it ends or the disk is full."""
from __future__ import annotations

import logging
import threading
import time
from typing import List, NamedTuple, Optional

from edit_files import Edits, Inbox, to_done
from guide_moments import GuideMoments, moment_text
from journal import Folding, Journal, Play, fold_parts
from memory_file import MemoryFile
from player import WRITE_FAULT, Faulty, PlayEnded, Player
from sending import Waiting
from state_folder import Batch, StateFolder

LOG = logging.getLogger("on_air")
# A journal is folded, and another begun, where `play` has read so much.
MOST_BYTES = 24 << 20
MOST_SWAPS = 20_000
# A `play` that ends by itself so soon would do so again.
SOON = 1.0
# Where the disk was full it is tried again after so many seconds, with so many bytes more than are to be written.
TRY = 1.0
ROOM = 1 << 16


class Timing(NamedTuple):
    """How long before the end of a cycle the next is made, the least time from one to the next, and the most between folds; in seconds."""

    ahead: float
    every: float
    fold: float


class Asked(NamedTuple):
    """What a head-end is asked for from outside: to stop, or to write a checkpoint."""

    stop: threading.Event
    fold: threading.Event


def kept(state: StateFolder) -> Optional[MemoryFile]:
    """The latest checkpoint on disk."""
    return MemoryFile(state.checkpoint.read_bytes()) if state.checkpoint else None


def recover(program: str, state: StateFolder) -> None:
    """Makes a checkpoint of what an earlier process put on air since the latest one. Files of edits that were on air then go to `done`."""
    description, entries, files = state.left()
    if not entries:
        return
    made = fold_parts(Play(program, description), kept(state), entries)
    assert made is not None
    to_done(state.folder, files)
    state.add_checkpoint(made.text)
    LOG.info("recovered: checkpoint %d is made of the journal before", state.number)


class Run:
    """The entries since a checkpoint: their journal, the checkpoint that they come to, and one `play` after the other that adds to them."""

    def __init__(self, play: Play, checkpoint: Optional[MemoryFile], journal: Journal) -> None:
        self.journal = journal
        self.folding = Folding(play, checkpoint, journal)
        self._play = play
        self._player: Optional[Player] = None
        self.begun = 0.0

    @property
    def process_id(self) -> Optional[int]:
        return self._player.process_id if self._player else None

    @property
    def player(self) -> Player:
        assert self._player is not None
        return self._player

    def begin(self) -> None:
        """Begins a `play` that goes on from what the journal has."""
        checkpoint = self.folding.checkpoint
        self._player = Player(self._play.program, checkpoint.path if checkpoint else None, self._play.description, self.journal.file)
        self.begun = time.monotonic()

    def end(self) -> None:
        """Ends the `play`, folds all, and leaves the journal up to the last swap."""
        self.player.end()
        self.folding.advance()
        self.journal.cut(self.folding.at)

    def stop(self) -> None:
        """Ends the `play`, whatever it does."""
        if self._player is not None:
            self._player.stop()


class HeadEnd:
    """Makes cycle after cycle, up to a stop. It runs in a thread of its own, and the packets wait to be sent."""

    def __init__(self, play: Play, state: StateFolder, inbox: Inbox, waiting: Waiting, timing: Timing, asked: Asked) -> None:
        self.moments = GuideMoments()
        self.clock = 0
        self.cycles = self.cycle_packets = self.folds = 0
        self.disk_is_full = False
        self.fault: Optional[str] = None
        self.has_ended = False
        self.stopping = asked.stop
        self.fold_wanted = asked.fold
        self._play = play
        self._state = state
        self._inbox = inbox
        self._waiting = waiting
        self._timing = timing
        self._run: Optional[Run] = None
        self._batch = state.batch()
        self._files: List[Edits] = []
        self._published = -1
        self._tried = 0.0

    @property
    def checkpoint_number(self) -> int:
        return self._state.number

    @property
    def process_id(self) -> Optional[int]:
        return self._run.process_id if self._run else None

    def run(self) -> None:
        """Makes cycles until it is stopped, and then a checkpoint. `fault` says why where that can't be."""
        try:
            self._run = self._next_run()
            self._begin()
            while not self.stopping.is_set():
                self._turn()
            self._run.end()
            if not self._write_checkpoint():
                raise Faulty("no checkpoint is written; the next start goes on from the journal")
        except (Faulty, PlayEnded, OSError) as fault:
            self.fault = str(fault)
            LOG.error("stopped: %s", fault)
        except Exception:  # whatever it is, the packets that wait are sent, and the status says that it failed
            self.fault = "an error of on_air itself"
            LOG.exception("stopped")
        finally:
            if self._run:
                self._run.stop()
            self.has_ended = True

    def fold_part(self) -> None:
        """Folds what has come, while the air goes on, so that the next checkpoint is soon made."""
        if self._run:
            self._run.folding.advance()

    # ---- runs of `play`

    @property
    def _now(self) -> Run:
        assert self._run is not None
        return self._run

    def _next_run(self) -> Run:
        """A journal that follows the checkpoint in the folder; in memory where the disk does not take it."""
        try:
            return Run(self._play, kept(self._state), self._state.begin_journal(self._play.description))
        except OSError as fault:
            self._say_full(fault)
            return Run(self._play, kept(self._state), Journal.in_memory())

    def _begin(self) -> None:
        self._now.begin()
        self._published = -1

    def _turn(self) -> None:
        begun = time.monotonic()
        try:
            if self._is_fold_due():
                self._fold()
            self._make_cycle()
        except PlayEnded as fault:
            self._go_on_after(fault)
        self._pause(begun)

    def _go_on_after(self, fault: PlayEnded) -> None:
        """Goes on from the journal where `play` ended by itself."""
        run = self._now
        why = f"{fault}, {run.journal.fault() or 'and no fault line'}"
        run.end()
        self._settle(run.journal.text())
        if fault.status == WRITE_FAULT and run.journal.is_on_disk:
            self._say_full(OSError(why))
            self._replace_run(Run(self._play, run.folding.checkpoint, Journal.in_memory()))
        elif time.monotonic() - run.begun < SOON:
            raise Faulty(why) from fault
        else:
            LOG.error("%s; going on from the journal", why)
            self._go_on()

    def _settle(self, entries: bytes) -> None:
        """Says of the files of the last batch whether they are on air, where `play` ended before its cycle was whole."""
        if self._files and self._batch.is_last_in(entries):
            self._inbox.are_on_air(self._files)
        self._files = []

    def _replace_run(self, run: Run) -> None:
        self._now.journal.close()
        self._run = run
        self._begin()

    def _is_fold_due(self) -> bool:
        run = self._now
        if self.fold_wanted.is_set() or self.disk_is_full and self._has_room_again():
            return True
        return run.player.bytes > MOST_BYTES or run.player.swaps >= MOST_SWAPS or time.monotonic() - run.begun > self._timing.fold

    def _has_room_again(self) -> bool:
        """Whether the disk takes a checkpoint and the edits that wait. It is asked now and then."""
        if time.monotonic() - self._tried < TRY:
            return False
        self._tried = time.monotonic()
        checkpoint = self._now.folding.checkpoint
        size = len(checkpoint.text) if checkpoint else 0
        return self._state.has_room(size + 2 * sum(len(edits.lines) for edits in self._inbox.waiting()) + ROOM)

    def _fold(self) -> None:
        """Ends the `play`, and begins the next from the checkpoint that its journal comes to."""
        self._now.end()
        self.fold_wanted.clear()
        self._go_on()

    def _go_on(self) -> None:
        """Begins the next `play`: with the next journal where a checkpoint is written, else with the same one, or another one in memory."""
        run = self._now
        if self._write_checkpoint():
            self._replace_run(self._next_run())
        elif run.journal.is_on_disk:
            self._begin()
        else:
            self._replace_run(Run(self._play, run.folding.checkpoint, Journal.in_memory()))

    def _write_checkpoint(self) -> bool:
        """Writes what the journal comes to. Whether the disk took it."""
        text = self._now.folding.text()
        try:
            self._state.add_checkpoint(text)
        except OSError as fault:
            self.disk_is_full = True
            LOG.error("the checkpoint is not written, %s", fault)
            return False
        self.disk_is_full = False
        self.folds += 1
        LOG.info("checkpoint %d written, %d bytes", self._state.number, len(text))
        return True

    def _say_full(self, fault: OSError) -> None:
        if not self.disk_is_full:
            LOG.error("the journal is not written, %s: edits and the guide wait", fault)
        self.disk_is_full = True

    # ---- a cycle

    def _make_cycle(self) -> None:
        """Puts the files of edits that wait on air, and publishes where what is on has changed."""
        run = self._now
        now = int(time.time() + self._waiting.seconds)
        self._files = self._next_files()
        publish = bool(self._files) or self._is_publish_due(now)
        data = run.player.cycle(self._lines(now, publish))
        self._promise(run, publish)
        self._published = now if publish else self._published
        self.clock = max(now, self.clock)
        self.cycle_packets = self._waiting.add(data)
        self.cycles += 1

    def _is_publish_due(self, now: int) -> bool:
        """Whether what is on has changed. Nothing is published that the disk does not have."""
        return self._now.journal.is_on_disk and (self._published < 0 or self.moments.change_between(self._published, now))

    def _promise(self, run: Run, publish: bool) -> None:
        """Brings a batch that changes what is on air to the disk, before its packets are sent. Its files are on air from now on."""
        try:
            if publish:
                run.journal.sync()
        except OSError as fault:
            LOG.error("the journal is not brought to the disk, %s", fault)
        if self._files:
            self._inbox.are_on_air(self._files)
        self._files = []

    def _next_files(self) -> List[Edits]:
        """The files that wait, as many as one run of `play` may still read. Which they are is on disk before they are played."""
        if not self._now.journal.is_on_disk:
            return []
        found: List[Edits] = []
        room = 2 * MOST_BYTES - self._now.player.bytes
        for edits in self._inbox.waiting():
            room -= len(edits.lines)
            if room < 0:
                break
            found.append(edits)
        return found if found and self._is_noted(found) else []

    def _is_noted(self, files: List[Edits]) -> bool:
        batch = self._batch.next([edits.name for edits in files])
        try:
            self._state.write_batch(batch)
        except OSError as fault:
            self._say_full(fault)
            return False
        self._batch = batch
        return True

    def _lines(self, now: int, publish: bool) -> bytes:
        """A tick where the clock has moved, the edits, a publish, and a swap, whose caller is the number of a batch with files."""
        tick = f"tick,{moment_text(now)}\n".encode() if now > self.clock else b""
        edits = b"".join(edits.lines for edits in self._files)
        caller = b"%d," % self._batch.number if self._files else b""
        return b"".join([tick, edits, b"publish\n" if publish else b"", caller, b"swap\n"])

    def _pause(self, begun: float) -> None:
        """Waits until the next cycle has to be made."""
        while not self.stopping.is_set() and not self.fold_wanted.is_set():
            left = max(self._waiting.seconds - self._timing.ahead, begun + self._timing.every - time.monotonic())
            if left <= 0:
                return
            self.stopping.wait(min(left, 0.2))
