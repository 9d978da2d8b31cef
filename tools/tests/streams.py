"""Makes transport streams by hand: sections, packets with their places, PCRs, and other packet sizes."""
from __future__ import annotations

from typing import Dict, List

NULL = 0x1FFF


def crc(data: bytes) -> bytes:
    """CRC_32 bit by bit (ISO/IEC 13818-1, annex A)."""
    value = 0xFFFFFFFF
    for byte in data:
        value ^= byte << 24
        for _ in range(8):
            value = (value << 1 ^ (0x04C11DB7 if value & 0x80000000 else 0)) & 0xFFFFFFFF
    return value.to_bytes(4, "big")


def section(table: int, extension: int, body: bytes = b"", version: int = 0, number: int = 0, last: int = 0, current: int = 1) -> bytes:
    """A section of the long form."""
    tail = bytes([extension >> 8, extension & 255, 0xC0 | version << 1 | current, number, last]) + body
    length = len(tail) + 4
    data = bytes([table, 0xB0 | length >> 8, length & 255]) + tail
    return data + crc(data)


def short_section(table: int, body: bytes) -> bytes:
    return bytes([table, 0x70 | len(body) >> 8, len(body) & 255]) + body


def tot(moment: bytes, offsets: bytes) -> bytes:
    """A TOT of a moment of five bytes, with one local_time_offset_descriptor."""
    loop = bytes([0x58, len(offsets)]) + offsets
    front = short_section(0x73, moment + bytes([0xF0, len(loop)]) + loop + bytes(4))[:-4]
    return front + crc(front)


def pat(programs: Dict[int, int], stream: int = 1) -> bytes:
    body = b"".join(bytes([number >> 8, number & 255, 0xE0 | pid >> 8, pid & 255]) for number, pid in programs.items())
    return section(0, stream, body)


def eit(table: int, service: int, number: int = 0, last: int = 0, version: int = 0, size: int = 0) -> bytes:
    """Event information of stream 1 of network 1, with so many bytes of a descriptor of no event."""
    return section(table, service, bytes([0, 1, 0, 1, last, table]) + bytes(size), version, number, last)


class Stream:
    """Packets of 188 bytes, one after the other."""

    def __init__(self) -> None:
        self.packets: List[bytes] = []
        self.counters: Dict[int, int] = {}

    def counter(self, pid: int) -> int:
        self.counters[pid] = (self.counters.get(pid, -1) + 1) & 15
        return self.counters[pid]

    def put(self, pid: int, *sections: bytes) -> None:
        """Puts sections into packets of their own, one after the other. All of them begin in the first packet."""
        assert len(b"".join(sections[:-1])) < 183
        data = b"".join(sections)
        begins = True
        while data or begins:
            payload = (b"\0" if begins else b"") + data
            head = bytes([0x47, (0x40 if begins else 0) | pid >> 8, pid & 255, 0x10 | self.counter(pid)])
            # A packet in which no section begins has no pointer_field.
            self.packets.append((head + payload).ljust(188, b"\xff")[:188])
            data, begins = payload[184:], False

    def until(self, number: int) -> None:
        """Puts null packets up to the packet with this number."""
        assert len(self.packets) <= number, (len(self.packets), number)
        while len(self.packets) < number:
            self.packets.append(bytes([0x47, NULL >> 8, NULL & 255, 0x10]).ljust(188, b"\xff"))

    def pcr(self, pid: int, ticks: int, is_new: bool = False) -> None:
        """Puts a packet without a payload that has a PCR."""
        base, rest = divmod(ticks % ((1 << 33) * 300), 300)
        field = (base << 15 | 0x3F << 9 | rest).to_bytes(6, "big")
        head = bytes([0x47, pid >> 8, pid & 255, 0x20, 183, 0x90 if is_new else 0x10])
        self.packets.append((head + field).ljust(188, b"\xff"))

    @property
    def data(self) -> bytes:
        return b"".join(self.packets)

    def dressed(self, before: bytes, after: bytes) -> bytes:
        """The stream with bytes before and after each packet."""
        return b"".join(before + packet + after for packet in self.packets)
