"""Runs of the program: `play --follow`, cycle by cycle, and `play --fold` of a whole input at once."""
from __future__ import annotations

import array
import fcntl
import os
import select
import subprocess
import termios
from pathlib import Path
from typing import BinaryIO, List, NamedTuple, Optional

READ = 1 << 20
POLL = 0.002
# A line that the program passes over.
MARK = b"#\n"
# The status of a `play` whose report or whose air can't be written.
WRITE_FAULT = 10


class Faulty(Exception):
    """Why a head-end can't go on by itself."""


class PlayEnded(Exception):
    """The program ended by itself."""

    def __init__(self, status: int) -> None:
        super().__init__(f"play ended with status {status}")
        self.status = status


class Outcome(NamedTuple):
    """How a fold ended: its status, and what it left on standard error, a checkpoint or a fault line."""

    status: int
    report: bytes

    @property
    def fault(self) -> str:
        """The fault line without its first word, or the status."""
        last = self.report.decode("utf-8", "replace").rstrip("\n").rpartition("\n")[2]
        return last[len("fault: "):] if last.startswith("fault: ") else f"status {self.status}"


def words(program: str, options: List[str], checkpoint: Optional[Path]) -> List[str]:
    """The command that plays, and goes on from a checkpoint where there is one."""
    return [program, "play", *options] + (["--resume", str(checkpoint)] if checkpoint else [])


def fold_at_once(program: str, checkpoint: Optional[Path], text: bytes) -> Outcome:
    """Plays a whole input and leaves a checkpoint. Its packets go nowhere."""
    command = words(program, ["--fold"], checkpoint)
    done = subprocess.run(command, input=text, stdout=subprocess.DEVNULL, stderr=subprocess.PIPE, check=False)
    return Outcome(done.returncode, done.stderr)


class Player:
    """A run of `play --follow` that goes on, with its report in a file. A session of its own keeps the signals of a terminal from it."""

    def __init__(self, program: str, checkpoint: Optional[Path], description: bytes, report: BinaryIO) -> None:
        pipe = subprocess.PIPE
        command = words(program, ["--follow", "--keep-going"], checkpoint)
        self._process = subprocess.Popen(command, stdin=pipe, stdout=pipe, stderr=report, bufsize=0, start_new_session=True)
        assert self._process.stdin is not None and self._process.stdout is not None
        self._stdin = self._process.stdin
        self._stdout = self._process.stdout
        os.set_blocking(self._stdout.fileno(), False)
        self.bytes = 0
        self.swaps = 0
        self._write(description)

    @property
    def process_id(self) -> int:
        return self._process.pid

    def cycle(self, lines: bytes) -> bytes:
        """Writes lines of which the last is a swap. The packets of its cycle.

        The cycle is sent before the next line is read. So once its first packet has come all lines were read, and once a line that is
        written then was read, all its packets have come."""
        self._write(lines)
        self.swaps += 1
        select.select([self._stdout], [], [])
        packets = [self._come()]
        self._write(MARK)
        while True:
            was_read = self._unread() == 0
            select.select([self._stdout], [], [], 0 if was_read else POLL)
            packets.append(self._come())
            if was_read and not packets[-1]:
                return b"".join(packets)

    def end(self) -> int:
        """Ends the input, and waits for the end of the run. The status."""
        if not self._stdin.closed:
            self._process.stdin = None
            self._stdin.close()
            os.set_blocking(self._stdout.fileno(), True)
            self._process.communicate()
        return self._process.wait()

    def stop(self) -> None:
        """Ends the run, whatever it does."""
        self._process.kill()
        self.end()

    def _write(self, data: bytes) -> None:
        view = memoryview(data)
        try:
            while view:
                view = view[self._stdin.write(view):]
        except OSError as fault:
            raise PlayEnded(self.end()) from fault
        self.bytes += len(data)

    def _come(self) -> bytes:
        """All bytes that have come."""
        parts: List[bytes] = []
        while True:
            part = self._stdout.read(READ)
            if part is None:
                return b"".join(parts)
            if not part:
                raise PlayEnded(self.end())
            parts.append(part)

    def _unread(self) -> int:
        """How many bytes of the input the program has not read."""
        number = array.array("i", [0])
        fcntl.ioctl(self._stdin, termios.FIONREAD, number)
        return number[0]
