"""Finds the packets of a recording: of 188 bytes, of 192 with four before each, or of 204 with sixteen after each.

What stands between packets is passed over and counted. A place is the start of a packet if sync bytes stand at it and where the next packets
begin (ISO/IEC 13818-1, 2.4.3.3).
"""
from __future__ import annotations

import mmap
from typing import Iterator, Optional, Tuple, Union

PACKET = 188
SYNC = 0x47
# The sizes, and how many bytes stand before a packet of that size.
BEFORE = {188: 0, 192: 4, 204: 0}
RUN = 5

Bytes = Union[bytes, mmap.mmap]


class NoPackets(ValueError):
    """The recording has no packets."""


def is_chain(data: Bytes, at: int, size: int) -> bool:
    """Whether packets of this size follow each other from here: five, or up to the end of the data two, or one that ends with it."""
    length = len(data)
    for step in range(RUN):
        place = at + step * size
        if place + PACKET > length:
            ends_here = length - (place - size) in (PACKET, size)
            return step >= 2 or (step == 1 and ends_here)
        if data[place] != SYNC:
            return False
    return True


class Packets:
    """The packets of a recording. `junk` counts the bytes that were passed over so far."""

    def __init__(self, data: Bytes) -> None:
        self.data = data
        self.junk = 0
        self.size, self.first = self._first_chain()

    def _first_chain(self) -> Tuple[int, int]:
        at = self._sync_from(0)
        while at is not None:
            for size in BEFORE:
                if is_chain(self.data, at, size):
                    return size, at
            at = self._sync_from(at + 1)
        raise NoPackets("it has no packets of 188, 192 or 204 bytes")

    def _sync_from(self, at: int) -> Optional[int]:
        found = self.data.find(b"\x47", at)
        return found if 0 <= found <= len(self.data) - PACKET else None

    def _chain_from(self, at: int) -> Optional[int]:
        found = self._sync_from(at)
        while found is not None and not is_chain(self.data, found, self.size):
            found = self._sync_from(found + 1)
        return found

    def starts(self) -> Iterator[int]:
        """The place of each packet's sync byte, in order."""
        data, size, length = self.data, self.size, len(self.data)
        at = self.first
        self.junk = max(at - BEFORE[size], 0)
        while True:
            follows = at + size
            is_last = follows + PACKET > length
            if not is_last and data[follows] == SYNC:
                yield at
                at = follows
                continue
            chain = None if is_last else self._chain_from(at + 1)
            if chain is None:
                yield at
                self.junk += max(length - (follows - BEFORE[size]), 0)
                return
            if chain < at + PACKET:
                self.junk += chain - at
            else:
                yield at
                self.junk += max(chain - follows, 0)
            at = chain
