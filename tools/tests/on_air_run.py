"""Runs of tools/air/on_air for its tests, with the program that LEPNUGAN names, or that of this checkout."""
from __future__ import annotations

import json
import os
import signal
import subprocess
import sys
import time
import unittest
from pathlib import Path
from typing import Any, Callable, Dict, List

from loading import TOOLS

BUILT = TOOLS.parent / "crates" / "headend_main" / "out" / "headend_main"
PROGRAM = Path(os.environ.get("LEPNUGAN", BUILT)).absolute()
STAND_IN = Path(__file__).resolve().parent / "stand_in"
DESCRIPTION = """network,40,Demo
stream,1,1
service,101,1,1,256,257,Acme,One
service,102,1,1,258,259,Acme,Two
end
"""

USAGE = 2
MISSING = f"the program is not at {PROGRAM}: build it, or name it by the variable LEPNUGAN, with its whole path"
OLDER = f"the program at {PROGRAM} has no play --follow: build it anew"


def can_follow() -> bool:
    """Whether the program has `play --follow`: of other words it says that they are none, before it reads."""
    return os.access(PROGRAM, os.X_OK) and program("play", "--follow").returncode != USAGE


def program(*words: str, data: bytes = b"", path: Path = PROGRAM) -> "subprocess.CompletedProcess[bytes]":
    return subprocess.run([str(path), *words], input=data, capture_output=True, timeout=60, check=False)


needs_program = unittest.skipUnless(os.access(PROGRAM, os.X_OK), MISSING)
needs_follow = unittest.skipUnless(can_follow(), OLDER if os.access(PROGRAM, os.X_OK) else MISSING)
if not os.access(PROGRAM, os.X_OK):
    print(f"skipped: the tests of on_air with the program, and of the package, since {MISSING}", file=sys.stderr)
elif not can_follow():
    print(f"skipped: the tests of on_air with the program, since {OLDER}", file=sys.stderr)


def wait_until(what: Callable[[], bool], seconds: float = 10.0) -> bool:
    """Whether it comes true in this time."""
    end = time.monotonic() + seconds
    while time.monotonic() < end:
        if what():
            return True
        time.sleep(0.02)
    return what()


class OnAirRun:
    """One process of on_air, with its state in a folder."""

    def __init__(self, folder: Path, *words: str, description: str = DESCRIPTION, path: Path = PROGRAM) -> None:
        self.state = folder / "state"
        (folder / "head.txt").write_text(description, encoding="utf-8")
        (self.state / "status.json").unlink(missing_ok=True)
        command = [sys.executable, str(TOOLS / "air" / "on_air"), "--description", str(folder / "head.txt"), "--state", str(self.state),
                   "--program", str(path), "--every", "0.1", "--ahead", "0.3", *words]
        self._log = folder / "log"
        self._begun = time.time_ns()
        with open(self._log, "ab") as log:
            self.process = subprocess.Popen(command, stdout=subprocess.DEVNULL, stderr=log)

    def log(self) -> str:
        return self._log.read_text(encoding="utf-8")

    def is_playing(self) -> bool:
        """Whether the first swap of this process is in the journal. A journal may be taken away while the folder is read."""
        return any(b"\n=,swapped," in self._written_since_begun(path) for path in self.state.glob("journal-*"))

    def _written_since_begun(self, path: Path) -> bytes:
        """A file's bytes; none of one that is older than this process, or gone."""
        try:
            return path.read_bytes() if path.stat().st_mtime_ns > self._begun else b""
        except FileNotFoundError:
            return b""

    def status(self) -> Dict[str, Any]:
        """The status file; of one that is not written yet nothing."""
        try:
            found: Dict[str, Any] = json.loads((self.state / "status.json").read_text(encoding="utf-8"))
        except OSError:
            return {}
        return found

    def edit(self, name: str, text: str) -> None:
        """Writes a file of edits elsewhere and renames it into the folder."""
        new = self.state / f"{name}.new"
        new.write_text(text, encoding="utf-8")
        new.rename(self.state / "in" / name)

    def is_on_air(self, name: str) -> bool:
        return (self.state / "done" / name).exists()

    def put_on_air(self, name: str, text: str) -> bool:
        """Whether a file of edits comes on air."""
        wait_until((self.state / "refused").exists)
        self.edit(name, text)
        return wait_until(lambda: self.is_on_air(name))

    def checkpoint(self) -> int:
        """The number of the latest checkpoint."""
        return max((int(path.name.split("-")[1]) for path in self.state.glob("checkpoint-*") if path.suffix != ".new"), default=0)

    def fold(self) -> bool:
        """Asks for a checkpoint. Whether it comes."""
        before = self.checkpoint()
        self.process.send_signal(signal.SIGHUP)
        return wait_until(lambda: self.checkpoint() > before)

    def end(self, number: int = signal.SIGTERM) -> int:
        """Sends a signal and waits for the end. The status."""
        self.process.send_signal(number)
        return self.process.wait(timeout=60)

    def player(self) -> int:
        """The process of `play`."""
        return int(subprocess.run(["pgrep", "-P", str(self.process.pid)], capture_output=True, text=True, check=True).stdout.split()[0])


def without_nulls(stream: bytes) -> bytes:
    pieces: List[bytes] = [stream[at:at + 188] for at in range(0, len(stream), 188)]
    return b"".join(piece for piece in pieces if piece[1:3] != b"\x1f\xff")
