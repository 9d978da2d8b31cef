"""The state of a head-end on disk, from which it goes on after any end.

  checkpoint-N    what `play --fold` left of all entries before; there is none for N = 0
  description-N   the description of the multiplex with which the entries of journal-N were made
  journal-N       the entries since checkpoint-N. `play --follow` writes each of them before the packets of its cycle
  batch           the number of the latest batch with edits, which is the caller of its swap, and the files that it has
  lock            held by the one process that uses the folder

The next checkpoint is written under another name, synced and renamed; then its journal begins and the older files go. So whenever it ends,
the highest checkpoint and the entries of its journal up to the last swap are what was put on air, and the same program makes the same
versions of them. A journal is locked as long as a `play` may write to it.

Earlier versions left script-N in place of journal-N: the whole input of a `play`, with the description, each batch up to its swap.
"""
from __future__ import annotations

import fcntl
import json
import os
import re
import time
from pathlib import Path
from typing import BinaryIO, Iterator, List, NamedTuple, Optional, Tuple

from journal import Journal, up_to_last_swap

SWAP = b"\nswap\n"
EDITS = "# edits "
KINDS = ("checkpoint", "description", "journal", "script")
NUMBERED = re.compile(r"(%s)-(\d+)" % "|".join(KINDS))
LAST_BATCH = 999_999_999
# A `play` whose head-end was killed ends when it has done the lines that it has.
WAIT_FOR_WRITER = 30.0
TRY = 0.05


class Busy(Exception):
    """Another process uses the folder."""


class Batch(NamedTuple):
    """A batch of lines with files of edits."""

    number: int
    files: List[str]

    def is_last_in(self, entries: bytes) -> bool:
        """Whether the last of these entries is its swap."""
        return entries.rsplit(b"\n", 3)[-3:-2] == [b"%d,swap" % self.number]

    def next(self, files: List[str]) -> "Batch":
        return Batch(self.number % LAST_BATCH + 1, files)


class Left(NamedTuple):
    """What was put on air since the latest checkpoint: its description, lines of `play` after it, and the files of edits of its last batch."""

    description: bytes
    entries: bytes
    files: List[str]


class StateFolder:
    def __init__(self, folder: Path) -> None:
        self.folder = folder
        folder.mkdir(parents=True, exist_ok=True)
        self._lock = open(folder / "lock", "ab")
        try:
            fcntl.flock(self._lock, fcntl.LOCK_EX | fcntl.LOCK_NB)
        except OSError as fault:
            self._lock.close()
            raise Busy(f"another process uses {folder}") from fault
        self.number = max((number for kind, number in self._files() if kind == "checkpoint"), default=0)

    @property
    def checkpoint(self) -> Optional[Path]:
        """The latest checkpoint."""
        return self._path("checkpoint") if self.number else None

    def left(self) -> Left:
        """What an earlier process left since the checkpoint, once its `play` has ended."""
        if self._path("script").exists():
            return left_in_script(self._path("script").read_bytes())
        if not self._path("journal").exists():
            return Left(b"", b"", [])
        with open(self._path("journal"), "rb") as source:
            self._wait_for_writer(source)
            entries = up_to_last_swap(source.read())
        batch = self.batch()
        return Left(self._path("description").read_bytes(), entries, batch.files if batch.is_last_in(entries) else [])

    def begin_journal(self, description: bytes) -> Journal:
        """An empty journal, which follows the latest checkpoint."""
        replace(self._path("description"), description, sync=True)
        path = self._path("journal")
        file = open(path, "wb", buffering=0)
        fcntl.flock(file, fcntl.LOCK_EX | fcntl.LOCK_NB)
        sync_folder(self.folder)
        for kind, number in list(self._files()):
            if number < self.number or kind == "script":
                (self.folder / f"{kind}-{number}").unlink()
        return Journal(file, path, True)

    def batch(self) -> Batch:
        """The latest batch that had files of edits."""
        try:
            found = json.loads((self.folder / "batch").read_bytes())
            return Batch(int(found["number"]), list(found["files"]))
        except (OSError, ValueError, KeyError, TypeError):
            return Batch(0, [])

    def write_batch(self, batch: Batch) -> None:
        """Keeps what the next batch has, before it is played."""
        replace(self.folder / "batch", json.dumps(batch._asdict()).encode(), sync=True)
        sync_folder(self.folder)

    def add_checkpoint(self, text: bytes) -> None:
        """Makes this the latest checkpoint, which the next journal follows."""
        path = self.folder / f"checkpoint-{self.number + 1}"
        replace(path, text, sync=True)
        sync_folder(self.folder)
        self.number += 1

    def has_room(self, size: int) -> bool:
        """Whether the disk takes so many bytes more."""
        path = self.folder / "room.new"
        try:
            with open(path, "wb", buffering=0) as target:
                write_all(target, bytes(size))
            return True
        except OSError:
            return False
        finally:
            path.unlink(missing_ok=True)

    def close(self) -> None:
        """Lets another process use the folder."""
        self._lock.close()

    def _wait_for_writer(self, journal: BinaryIO) -> None:
        end = time.monotonic() + WAIT_FOR_WRITER
        while True:
            try:
                fcntl.flock(journal, fcntl.LOCK_SH | fcntl.LOCK_NB)
                return
            except OSError as fault:
                if time.monotonic() > end:
                    raise Busy(f"a play of an earlier process still writes {self._path('journal')}") from fault
                time.sleep(TRY)

    def _path(self, kind: str) -> Path:
        return self.folder / f"{kind}-{self.number}"

    def _files(self) -> Iterator[Tuple[str, int]]:
        for name in os.listdir(self.folder):
            match = NUMBERED.fullmatch(name)
            if match:
                yield match.group(1), int(match.group(2))


def left_in_script(script: bytes) -> Left:
    """What the script of an earlier version has, up to its last swap. It begins with its description, and names files in comments."""
    end = script.rfind(SWAP)
    if end < 0:
        return Left(b"", b"", [])
    before = script.rfind(SWAP, 0, end)
    lines = script[before + 1:end].decode("utf-8", "replace").split("\n")
    files = [line[len(EDITS):] for line in lines if line.startswith(EDITS)]
    return Left(b"", script[:end + len(SWAP)], files)


def write_all(target: BinaryIO, data: bytes) -> None:
    view = memoryview(data)
    while view:
        view = view[target.write(view):]


def replace(path: Path, data: bytes, sync: bool = False) -> None:
    """Puts a file in the place of another: a reader sees the old one or the new one, whole."""
    new = path.with_name(path.name + ".new")
    try:
        with open(new, "wb", buffering=0) as target:
            write_all(target, data)
            if sync:
                os.fsync(target.fileno())
        os.replace(new, path)
    except OSError:
        new.unlink(missing_ok=True)
        raise


def sync_folder(folder: Path) -> None:
    """Brings the names in a folder to the disk."""
    handle = os.open(folder, os.O_RDONLY)
    try:
        os.fsync(handle)
    finally:
        os.close(handle)
