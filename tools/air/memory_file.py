"""A file without a place on a disk, which another program can open by its path."""
from __future__ import annotations

import os
from pathlib import Path


class MemoryFile:
    """Holds these bytes as long as it lives."""

    def __init__(self, data: bytes) -> None:
        self.text = data
        self._number = os.memfd_create("checkpoint")
        self.path = Path(f"/proc/{os.getpid()}/fd/{self._number}")
        with open(self._number, "wb", closefd=False) as target:
            target.write(data)

    def __del__(self) -> None:
        os.close(self._number)
