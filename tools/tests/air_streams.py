"""Packets for the tests of tools/air, and what is looked at in those that a tool wrote or sent."""
from __future__ import annotations

import random
from typing import Dict, List

from loading import load

load("air/ts_sync")  # so that the modules of tools/air are found

import transport_packets as ts  # noqa: E402


def packet(pid: int, counter: int, fill: int = 0xFF) -> bytes:
    """A packet with a payload of 184 equal bytes."""
    return bytes([0x47, pid >> 8, pid & 0xFF, 0x10 | counter & 0x0F]) + bytes([fill]) * 184


def with_clock(pid: int, counter: int, clock: int) -> bytes:
    """A packet with a PCR (ISO/IEC 13818-1, 2.4.3.5), of which `clock` is the base, and 176 bytes of payload."""
    field = bytes([7, 0x10]) + (clock << 15 | 0x7E00).to_bytes(6, "big")
    return bytes([0x47, pid >> 8, pid & 0xFF, 0x30 | counter & 0x0F]) + field + b"\xaa" * 176


def noise(size: int, seed: int) -> bytes:
    """Bytes that are no packets: none of them is a sync_byte."""
    draw = random.Random(seed)
    return bytes(draw.choice([byte for byte in range(256) if byte != 0x47]) for _ in range(size))


def breaks(stream: bytes) -> List[int]:
    """The numbers of the packets whose continuity_counter does not go on from the last one of their PID."""
    last: Dict[int, int] = {}
    found = []
    for number, one in enumerate(ts.split(stream)):
        pid = ts.pid_of(one)
        if pid == ts.NULL_PID or not ts.has_payload(one):
            continue
        if pid in last and ts.counter_of(one) != (last[pid] + 1) & 0x0F:
            found.append(number)
        last[pid] = ts.counter_of(one)
    return found
