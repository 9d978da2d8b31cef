"""Transport stream packets of ISO/IEC 13818-1, 2.4.3: their size, PIDs and counters, and null packets."""
from __future__ import annotations

from typing import BinaryIO, Dict, Iterator

SIZE = 188
BITS = SIZE * 8
SYNC = b"\x47"
NULL_PID = 0x1FFF
NULL = SYNC + b"\x1f\xff\x10" + b"\xff" * (SIZE - 4)
IN_A_DATAGRAM = 7


def pid_of(packet: bytes) -> int:
    return (packet[1] & 0x1F) << 8 | packet[2]


def has_payload(packet: bytes) -> bool:
    """Whether the packet has a payload, and so counts in its PID's continuity_counter."""
    return bool(packet[3] & 0x10)


def counter_of(packet: bytes) -> int:
    return packet[3] & 0x0F


def split(data: bytes) -> Iterator[bytes]:
    """The whole packets of these bytes, in order. What is left at the end is no packet."""
    return (data[at:at + SIZE] for at in range(0, len(data) - SIZE + 1, SIZE))


def packets_in(stream: BinaryIO) -> Iterator[bytes]:
    """The packets of a stream that begins with one, as they come."""
    rest = b""
    while True:
        data = some_bytes(stream)
        if not data:
            return
        rest += data
        yield from split(rest)
        rest = rest[len(rest) // SIZE * SIZE:]


def some_bytes(stream: BinaryIO, most: int = 1 << 16) -> bytes:
    """The bytes that have come, up to `most`; none at the end. Waits only where nothing has come."""
    read = getattr(stream, "read1", stream.read)
    return bytes(read(most))


class Counters:
    """Gives packets continuity_counters that go on, PID by PID."""

    def __init__(self) -> None:
        self._last: Dict[int, int] = {}

    def renumber(self, packet: bytes) -> bytes:
        pid = pid_of(packet)
        if pid == NULL_PID:
            return packet
        counter = (self._last.get(pid, -1) + has_payload(packet)) & 0x0F
        self._last[pid] = counter
        return packet[:3] + bytes([packet[3] & 0xF0 | counter]) + packet[4:]
