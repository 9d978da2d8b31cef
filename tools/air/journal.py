"""The journal of a `play --follow`: its whole entries, and the checkpoint that they are folded to, part by part."""
from __future__ import annotations

import os
import threading
from pathlib import Path
from typing import BinaryIO, Iterator, NamedTuple, Optional

from memory_file import MemoryFile
from player import Faulty, fold_at_once

SWAPPED = b"\n=,swapped,"
OUTCOME = b"\n=,"
FAULT = "fault: "
# A part ends with the entry that passes this size. An entry may have half of the 64 MiB that `play --fold` reads.
PART = 16 << 20
LAST_BYTES = 4096


def whole_entries(text: bytes) -> bytes:
    """The longest front of a journal that ends with LF and whose last line begins with `=`."""
    end = text.rfind(b"\n") + 1
    while end:
        begin = text.rfind(b"\n", 0, end - 1) + 1
        if text[begin] == ord("="):
            return text[:end]
        end = begin
    return b""


def up_to_last_swap(text: bytes) -> bytes:
    """The longest front of whole entries of which the last is a swap. What comes after it was not on air."""
    whole = whole_entries(text)
    begin = whole.rfind(SWAPPED)
    return b"" if begin < 0 else whole[:whole.index(b"\n", begin + 1) + 1]


def parts(entries: bytes, size: int = PART) -> Iterator[bytes]:
    """Whole entries in pieces of whole entries, each the shortest that has so many bytes, and what is left."""
    at = 0
    while at < len(entries):
        outcome = entries.find(OUTCOME, at + size)
        end = len(entries) if outcome < 0 else entries.index(b"\n", outcome + 1) + 1
        yield entries[at:end]
        at = end


class Play(NamedTuple):
    """The program, and the description of the multiplex that it plays."""

    program: str
    description: bytes


def fold(play: Play, checkpoint: Optional[MemoryFile], part: bytes) -> MemoryFile:
    """The checkpoint of what an earlier one stands for and of more entries."""
    outcome = fold_at_once(play.program, checkpoint.path if checkpoint else None, play.description + part)
    if outcome.status:
        raise Faulty(f"the journal can't be folded: {outcome.fault}")
    return MemoryFile(outcome.report)


def fold_parts(play: Play, checkpoint: Optional[MemoryFile], entries: bytes) -> Optional[MemoryFile]:
    """The checkpoint of any number of entries, folded part by part."""
    for part in parts(entries):
        checkpoint = fold(play, checkpoint, part)
    return checkpoint


class Journal:
    """What a `play --follow` reports: a file on disk, or one in memory where the disk takes nothing."""

    def __init__(self, file: BinaryIO, path: Path, is_on_disk: bool) -> None:
        self.file = file
        self.path = path
        self.is_on_disk = is_on_disk

    @classmethod
    def in_memory(cls) -> "Journal":
        number = os.memfd_create("journal")
        return cls(open(number, "wb", buffering=0), Path(f"/proc/{os.getpid()}/fd/{number}"), False)

    def text(self, at: int = 0) -> bytes:
        """What it has from this place on."""
        with open(self.path, "rb") as source:
            source.seek(at)
            return source.read()

    def cut(self, at: int) -> None:
        """Takes away what it has from this place on. The next bytes are written there."""
        self.file.truncate(at)
        self.file.seek(at)

    def sync(self) -> None:
        """Brings what it has to the disk."""
        os.fsync(self.file.fileno())

    def close(self) -> None:
        self.file.close()

    def fault(self) -> str:
        """Its fault line without the first word, where that is its last line; else nothing."""
        end = self.text(max(0, self.path.stat().st_size - LAST_BYTES)).decode("utf-8", "replace")
        last = end.rstrip("\n").rpartition("\n")[2]
        return last[len(FAULT):] if last.startswith(FAULT) else ""


class Folding:
    """The checkpoint that a journal comes to. It is made part by part while the journal grows, so that little is left at the end."""

    def __init__(self, play: Play, checkpoint: Optional[MemoryFile], journal: Journal) -> None:
        self.checkpoint = checkpoint
        self.at = 0
        self._play = play
        self._journal = journal
        self._lock = threading.Lock()

    def advance(self) -> None:
        """Folds the entries that have come, up to the last swap."""
        with self._lock:
            if self._journal.file.closed:
                return
            for part in parts(up_to_last_swap(self._journal.text(self.at))):
                self.checkpoint = fold(self._play, self.checkpoint, part)
                self.at += len(part)

    def text(self) -> bytes:
        """The checkpoint so far."""
        if self.checkpoint is None:
            self.checkpoint = fold(self._play, None, b"")
        return self.checkpoint.text
