"""Files of edits: what may stand in them, and the desk on which each is tried before it goes on air."""
from __future__ import annotations

import csv
import logging
import os
import re
import threading
from pathlib import Path
from typing import Callable, Dict, Iterable, List, NamedTuple, Optional, Set

from memory_file import MemoryFile
from player import fold_at_once
from state_folder import replace

LOG = logging.getLogger("on_air")
ENDING = ".txt"
FOLDERS = ("in", "taken", "done", "refused")
DONE = b"=,done"
LARGEST = 16 << 20
INPUT_LINE = re.compile(r"input line (\d+) (.*)")


class Edits(NamedTuple):
    """A file of edits: its name, and its lines without those that the program passes over."""

    name: str
    lines: bytes


class Refused(Exception):
    """Why a file does not go on air."""


def word_of(line: bytes) -> str:
    """The command of a line, after its caller's number if it has one; `#` where it is passed over."""
    text = line.decode("utf-8", "surrogateescape").lstrip("\ufeff").rstrip("\r")
    if not text or text.startswith("#"):
        return "#"
    try:
        fields = next(csv.reader([text]))
    except (csv.Error, StopIteration):
        return ""
    return fields[1] if len(fields) > 1 and fields[0].isdigit() else fields[0]


class Checked:
    """The input that tries a file: each edit is followed by the outcome that it has to have."""

    def __init__(self, description: bytes, text: bytes) -> None:
        self.kept: List[bytes] = []
        self._first = description.count(b"\n") + 1
        self._tried: List[bytes] = [description]
        self._from: List[int] = []
        for number, line in enumerate(text.split(b"\n"), 1):
            self._take(number, line)
        self._close()

    @property
    def tried(self) -> bytes:
        return b"".join(self._tried)

    def why(self, fault: str) -> str:
        """What a fault line of the trial says of the file's own lines."""
        match = INPUT_LINE.fullmatch(fault)
        if not match:
            return fault
        place = int(match.group(1)) - self._first
        line = f"line {self._from[place]}" if 0 <= place < len(self._from) else "the end"
        return f"{line}: " + match.group(2).replace("kept done found ", "the desk answers ")

    def _take(self, number: int, line: bytes) -> None:
        word = word_of(line)
        if word == "#":
            return
        if word not in ("feed", "item"):
            raise Refused(f"line {number}: only lines of edits may stand here, feed,N,.. and item,..")
        if word == "feed":
            self._close()
        self.kept.append(line)
        self._add(number, line)

    def _close(self) -> None:
        if self._from:
            self._add(self._from[-1], DONE)

    def _add(self, number: int, line: bytes) -> None:
        self._from.append(number)
        self._tried.append(line + b"\n")


def to_done(folder: Path, names: Iterable[str]) -> None:
    """Moves files that an earlier process put on air."""
    for name in names:
        if (folder / "taken" / name).exists():
            os.replace(folder / "taken" / name, folder / "done" / name)


class TrialDesk:
    """A desk that has the edits that were accepted, on air or not yet. It goes on from a checkpoint of the air.

    Its own checkpoint is in memory, so that a full disk does not stop it."""

    def __init__(self, program: str, description: bytes) -> None:
        self.text = b""
        self._program = program
        self._description = description
        self._file: Optional[MemoryFile] = None

    def begin(self, checkpoint: Optional[Path]) -> None:
        """Tries the description and the checkpoint themselves."""
        outcome = fold_at_once(self._program, checkpoint, self._description)
        if outcome.status:
            raise Refused(outcome.fault)
        self._keep(outcome.report)

    def take(self, text: bytes) -> bytes:
        """The lines of a file, all of which the desk accepts. Else it raises Refused, and nothing of the file is kept."""
        if len(text) > LARGEST:
            raise Refused(f"it has more than {LARGEST} bytes")
        checked = Checked(self._description, text)
        outcome = fold_at_once(self._program, self._file.path if self._file else None, checked.tried)
        if outcome.status:
            raise Refused(checked.why(outcome.fault))
        self._keep(outcome.report)
        return b"".join(line + b"\n" for line in checked.kept)

    def _keep(self, checkpoint: bytes) -> None:
        self.text = checkpoint
        self._file = MemoryFile(checkpoint)


class Inbox:
    """The folders of edits. A file is a group: all of it goes on air, or nothing.

      in       files to come, NAME.txt, renamed into it from another place
      taken    files that the desk has accepted, up to the next cycle
      done     files that are on air
      refused  files that the desk has refused, each with its reason in NAME.txt.why
    """

    def __init__(self, folder: Path, desk: TrialDesk, accepted: Callable[[], None]) -> None:
        self.on_air = 0
        self.refused = 0
        self.last_refused: Optional[Dict[str, str]] = None
        self._folder = folder
        self._desk = desk
        self._accepted = accepted
        self._waiting: List[Edits] = []
        self._left_alone: Set[str] = set()
        self._lock = threading.Lock()
        for name in FOLDERS:
            (folder / name).mkdir(exist_ok=True)

    def begin(self) -> None:
        """Takes up what an earlier process had accepted, and did not put on air."""
        for name in self._names("taken"):
            self._try(name, "taken")

    def look(self) -> None:
        """Tries the files that are new, in the order of their names."""
        for name in self._names("in"):
            if name not in self._left_alone and not any(name == edits.name for edits in self.waiting()):
                self._try(name, "in")

    def waiting(self) -> List[Edits]:
        """The accepted files that are not yet on air, oldest first."""
        with self._lock:
            return list(self._waiting)

    def are_on_air(self, files: List[Edits]) -> None:
        for edits in files:
            self._move(edits.name, "taken", "done")
            self.on_air += 1
            with self._lock:
                self._waiting.remove(edits)

    def _names(self, where: str) -> List[str]:
        return sorted(name for name in os.listdir(self._folder / where) if name.endswith(ENDING) and name.isprintable())

    def _try(self, name: str, where: str) -> None:
        path = self._folder / where / name
        try:
            edits = Edits(name, self._desk.take(path.read_bytes()))
        except Refused as fault:
            self._refuse(name, where, str(fault))
            return
        except OSError as fault:
            LOG.error("edits %s: not tried yet, %s", name, fault)
            return
        if where == "taken" or self._move(name, where, "taken"):
            with self._lock:
                self._waiting.append(edits)
            LOG.info("edits %s: accepted", name)
            self._accepted()

    def _refuse(self, name: str, where: str, why: str) -> None:
        LOG.warning("edits %s: refused, %s", name, why)
        self.refused += 1
        self.last_refused = {"file": name, "why": why}
        self._move(name, where, "refused")
        try:
            replace(self._folder / "refused" / f"{name}.why", f"{why}\n".encode())
        except OSError as fault:
            LOG.error("edits %s: its reason is not written, %s", name, fault)

    def _move(self, name: str, where: str, to: str) -> bool:
        """Moves a file. One that cannot be moved is left alone from then on."""
        try:
            os.replace(self._folder / where / name, self._folder / to / name)
            return True
        except OSError as fault:
            LOG.error("edits %s: not moved to %s, and left alone, %s", name, to, fault)
            self._left_alone.add(name)
            return False
