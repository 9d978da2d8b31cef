"""Gathers the sections of one PID from its packets (ISO/IEC 13818-1, 2.4.3.3 and 2.4.4)."""
from __future__ import annotations

import zlib
from typing import Callable, List, NamedTuple, Optional, Tuple

TOT = 0x73
REVERSED = bytes(int(f"{byte:08b}"[::-1], 2) for byte in range(256))


class Section(NamedTuple):
    """A section: where its first byte and the byte after its last one stand in the stream, and what names it.

    `name` is what tells its sub-table from others (EN 300 468, 3.1); the number of a section of the short form is 0.
    """

    pid: int
    table_id: int
    extension: int
    name: Tuple[int, ...]
    version: int
    number: int
    start: int
    end: int


def crc_holds(section: bytes) -> bool:
    """Whether the CRC_32 of a section fits (ISO/IEC 13818-1, annex A): zlib's, with the bits of each byte turned round."""
    value = zlib.crc32(section[:-4].translate(REVERSED)) ^ 0xFFFFFFFF
    return int(f"{value:032b}"[::-1], 2) == int.from_bytes(section[-4:], "big")


def pair(section: bytes, at: int) -> int:
    return section[at] << 8 | section[at + 1]


def section_of(pid: int, data: bytes, start: int, end: int) -> Optional[Section]:
    """The section that these bytes are, None where it is damaged. Without the long form it has no more than its table_id.

    A TOT has the short form with a CRC (EN 300 468, 5.2.6); other sections of the short form have none.
    """
    table_id = data[0]
    if not data[1] & 0x80:
        return Section(pid, table_id, 0, (), 0, 0, start, end) if table_id != TOT or len(data) >= 7 and crc_holds(data) else None
    if len(data) < 12 or not crc_holds(data):
        return None
    extension = pair(data, 3)
    name: Tuple[int, ...] = (extension,)
    if 0x4E <= table_id <= 0x6F and len(data) >= 18:
        name += (pair(data, 8), pair(data, 10))
    elif table_id in (0x42, 0x46) and len(data) >= 15:
        name += (pair(data, 8),)
    return Section(pid, table_id, extension, name, data[5] >> 1 & 0x1F, data[6], start, end)


def is_current(data: bytes) -> bool:
    """Whether a section of the long form is in force (current_next_indicator); one of the short form is."""
    return not data[1] & 0x80 or len(data) < 6 or bool(data[5] & 1)


class Assembler:
    """Gathers the sections of a PID. Each whole one is handed on with its bytes, those that are damaged are counted."""

    def __init__(self, pid: int, sink: Callable[[Section, bytes], None]) -> None:
        self.pid = pid
        self.sink = sink
        self.damaged = 0
        self.breaks = 0
        self._counter: Optional[int] = None
        self._open: Optional[bytearray] = None
        self._start = 0

    def take(self, payload: bytes, at: int, begins: bool, counter: int) -> None:
        """Takes the payload of a packet up, which stands at this place of the stream."""
        if self._counter is not None and counter != (self._counter + 1) & 15:
            if counter == self._counter:
                return
            self.breaks += 1
            self._open = None
        self._counter = counter
        if not begins:
            if self._open is not None:
                self._go_on(payload, at)
            return
        first = 1 + payload[0]
        if first > len(payload):
            self.damaged += 1
            self._open = None
            return
        if self._open is not None and self._go_on(payload[1:first], at + 1) is None:
            self.damaged += 1
        self._begin(payload[first:], at + first)

    def _begin(self, data: bytes, at: int) -> None:
        """Takes up the sections that begin here, up to the stuffing."""
        self._open = None
        while data and data[0] != 0xFF:
            self._open, self._start = bytearray(), at
            used = self._go_on(data, at)
            if used is None:
                return
            data, at = data[used:], at + used

    def _go_on(self, data: bytes, at: int) -> Optional[int]:
        """Adds to the open section. Returns how many bytes it took where it is whole now."""
        section = self._open
        assert section is not None
        had = len(section)
        section += data
        size = 3 + ((section[1] & 0x0F) << 8 | section[2]) if len(section) >= 3 else len(section) + 1
        if len(section) < size:
            return None
        self._open = None
        self._hand_on(bytes(section[:size]), at + size - had)
        return size - had

    def _hand_on(self, data: bytes, end: int) -> None:
        section = section_of(self.pid, data, self._start, end)
        if section is None:
            self.damaged += 1
        elif is_current(data):
            self.sink(section, data)


def programmes_of(pat: bytes) -> List[Tuple[int, int]]:
    """The programme numbers of a PAT and the PIDs of their PMTs (ISO/IEC 13818-1, 2.4.4.3), without that of the NIT."""
    entries = [(pair(pat, at), pair(pat, at + 2) & 0x1FFF) for at in range(8, len(pat) - 7, 4)]
    return [(program, pid) for program, pid in entries if program]
