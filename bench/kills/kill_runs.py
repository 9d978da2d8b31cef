"""Runs of the program that are killed after so many bytes, and those that go on from them."""
from __future__ import annotations

import os
import resource
import signal
import subprocess
from pathlib import Path
from typing import Callable, List, NamedTuple, Optional

WAIT = 60
READ = 1 << 16


class Ended(NamedTuple):
    """How a run ended: its status, which is below 0 for a signal, and what its air and its report have taken."""

    status: int
    air: bytes
    report: bytes


class Program:
    """The program, with a folder for what it reads and writes."""

    def __init__(self, path: Path, folder: Path, keeps_going: bool) -> None:
        self._path = str(path.resolve())
        self._folder = folder
        self._follow = ["--follow", "--keep-going"] if keeps_going else ["--follow"]

    def play(self, text: bytes, *words: str) -> Ended:
        """A run of `play` that is not killed."""
        return self._run(["play", *words], text)

    def listen(self, air: bytes, *words: str) -> Ended:
        return self._run(["listen", *words], air)

    def fold(self, text: bytes, checkpoint: Optional[Path]) -> Ended:
        return self.play(text, "--fold", *resuming(checkpoint))

    def follow(self, text: bytes, checkpoint: Optional[Path]) -> Ended:
        return self.play(text, *self._follow, *resuming(checkpoint))

    def killed_at_report(self, text: bytes, checkpoint: Optional[Path], size: int) -> Ended:
        """A run whose report is a file that takes so many bytes. The next one kills it (RLIMIT_FSIZE, by SIGXFSZ)."""
        return self._killed_at_file(text, checkpoint, size, is_air=False)

    def killed_at_air(self, text: bytes, checkpoint: Optional[Path], size: int) -> Ended:
        """The same of the air."""
        return self._killed_at_file(text, checkpoint, size, is_air=True)

    def killed_by_reader(self, text: bytes, checkpoint: Optional[Path], size: int) -> Ended:
        """A run whose air is a pipe. Who reads it kills the run after so many bytes, by SIGKILL; more may be in the pipe then."""
        words = [self._path, "play", *self._follow, *resuming(checkpoint)]
        source = self._written("input", text)
        with open(source, "rb") as stdin, open(self._folder / "report", "wb") as report:
            process = subprocess.Popen(words, stdin=stdin, stdout=subprocess.PIPE, stderr=report, bufsize=0)
        assert process.stdout is not None
        air = read_up_to(process.stdout.fileno(), size)
        process.kill()
        rest, _ = process.communicate(timeout=WAIT)
        return Ended(process.returncode, air + rest, (self._folder / "report").read_bytes())

    def checkpoint(self, text: bytes, number: int) -> Path:
        return self._written(f"checkpoint-{number}", text)

    def _killed_at_file(self, text: bytes, checkpoint: Optional[Path], size: int, is_air: bool) -> Ended:
        words = [self._path, "play", *self._follow, *resuming(checkpoint)]
        source, taken = self._written("input", text), self._folder / "taken"
        with open(source, "rb") as stdin, open(taken, "wb") as file:
            air, report = (file, subprocess.PIPE) if is_air else (subprocess.PIPE, file)
            process = subprocess.Popen(words, stdin=stdin, stdout=air, stderr=report, preexec_fn=limit(size))
            heard, said = process.communicate(timeout=WAIT)
        file_bytes = taken.read_bytes()
        return Ended(process.returncode, file_bytes if is_air else heard, said if is_air else file_bytes)

    def _run(self, words: List[str], text: bytes) -> Ended:
        done = subprocess.run([self._path, *words], input=text, capture_output=True, timeout=WAIT, check=False)
        return Ended(done.returncode, done.stdout, done.stderr)

    def _written(self, name: str, data: bytes) -> Path:
        path = self._folder / name
        path.write_bytes(data)
        return path


def resuming(checkpoint: Optional[Path]) -> List[str]:
    return ["--resume", str(checkpoint)] if checkpoint else []


def limit(size: int) -> Callable[[], None]:
    """Sets the most bytes that a file may have, in the process that is to run the program."""
    def set_limits() -> None:
        signal.signal(signal.SIGXFSZ, signal.SIG_DFL)
        resource.setrlimit(resource.RLIMIT_CORE, (0, 0))
        resource.setrlimit(resource.RLIMIT_FSIZE, (size, size))

    return set_limits


def read_up_to(number: int, size: int) -> bytes:
    """So many bytes; fewer where no more come."""
    parts: List[bytes] = []
    while size > 0:
        part = os.read(number, min(size, READ))
        if not part:
            break
        parts.append(part)
        size -= len(part)
    return b"".join(parts)
