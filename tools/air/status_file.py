"""The status of a head-end on air, as a file of JSON."""
from __future__ import annotations

import json
import logging
import os
import time
from pathlib import Path
from typing import Dict, Optional

from edit_files import Inbox
from guide_moments import moment_text
from head_end import HeadEnd
from transport_packets import BITS
from sending import Sender, Waiting
from state_folder import replace

LOG = logging.getLogger("on_air")


def memory_of(process: Optional[int]) -> Optional[int]:
    """The memory that a process holds, in kB."""
    try:
        lines = Path(f"/proc/{process}/status").read_text(encoding="utf-8").splitlines()
    except OSError:
        return None
    return next((int(line.split()[1]) for line in lines if line.startswith("VmRSS:")), None)


class StatusFile:
    """Writes what the parts of a head-end say of themselves."""

    def __init__(self, path: Path, rate: float, head: HeadEnd, sender: Sender, inbox: Inbox, waiting: Waiting) -> None:
        self._path = path
        self._rate = rate
        self._head = head
        self._sender = sender
        self._inbox = inbox
        self._waiting = waiting
        self._started = int(time.time())
        self._last = (time.monotonic(), 0)
        self._is_written = True

    def write(self) -> None:
        text = json.dumps({**self._air(), **self._edits()}, indent=2) + "\n"
        try:
            replace(self._path, text.encode())
            self._is_written = True
        except OSError as fault:
            if self._is_written:
                LOG.error("status.json is not written, %s", fault)
            self._is_written = False

    def _air(self) -> Dict[str, object]:
        head, sender = self._head, self._sender
        return {
            "at": moment_text(int(time.time())),
            "started": moment_text(self._started),
            "clock": moment_text(head.clock),
            "rate": self._rate,
            "rate_sent": round(self._rate_sent()),
            "packets": sender.packets,
            "null_packets": sender.nulls,
            "late_seconds": round(sender.latest(), 3),
            "given_up_seconds": round(sender.given_up, 3),
            "cycles": head.cycles,
            "cycle_packets": head.cycle_packets,
            "cycle_seconds": round(head.cycle_packets * BITS / self._rate, 3),
            "waiting_seconds": round(self._waiting.seconds, 3),
            "memory_kb": {"play": memory_of(head.process_id), "on_air": memory_of(os.getpid())},
        }

    def _edits(self) -> Dict[str, object]:
        head, inbox = self._head, self._inbox
        return {
            "edits": {"waiting": len(inbox.waiting()), "on_air": inbox.on_air, "refused": inbox.refused},
            "last_refused": inbox.last_refused,
            "checkpoint": head.checkpoint_number,
            "checkpoints_written": head.folds,
            "disk_is_full": head.disk_is_full,
            "fault": head.fault,
        }

    def _rate_sent(self) -> float:
        """Bits a second since it was asked last."""
        now, packets = time.monotonic(), self._sender.packets
        then, before = self._last
        self._last = (now, packets)
        return (packets - before) * BITS / (now - then) if now > then else 0.0
