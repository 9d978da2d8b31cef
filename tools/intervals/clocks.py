"""The time at each place of a stream: by its PCRs (ISO/IEC 13818-1, 2.4.2.2 and 2.4.3.5), or by a bit rate.

A place counts the bytes of packets of 188 from the start of the recording, so a bit rate is that of such packets, null packets too.
"""
from __future__ import annotations

from bisect import bisect_right
from typing import Dict, List, NamedTuple, Optional, Protocol

FREQUENCY = 27_000_000
MODULUS = (1 << 33) * 300
# PCRs of a PID come every 100 ms or more often; a step of this or more, or back, is a new clock.
LEAP = 10 * FREQUENCY


class Pcr(NamedTuple):
    """A program_clock_reference in units of 27 MHz, the place of the byte that it is of, and whether a new clock begins with it."""

    place: int
    value: int
    is_new: bool


class Clock(Protocol):
    how: str

    def seconds(self, place: int) -> float:
        """The time at a place, from the start of the recording."""


class SteadyClock:
    """The time of a stream with one bit rate."""

    def __init__(self, bits_per_second: float, how: str) -> None:
        self.rate = bits_per_second
        self.how = how

    def seconds(self, place: int) -> float:
        return place * 8 / self.rate


class PcrClock:
    """The time between the PCRs of one PID; before the first and after the last one at the mean rate."""

    def __init__(self, pid: int, places: List[int], times: List[float], rate: float) -> None:
        self.how = f"by {len(places):,} PCRs of PID {pid}"
        self._places, self._times, self._rate = places, times, rate
        self._offset = places[0] * 8 / rate

    def seconds(self, place: int) -> float:
        at = bisect_right(self._places, place) - 1
        if at < 0:
            return place * 8 / self._rate
        start, time = self._places[at], self._offset + self._times[at]
        if at + 1 == len(self._places):
            return time + (place - start) * 8 / self._rate
        return time + (self._times[at + 1] - self._times[at]) * (place - start) / (self._places[at + 1] - start)


def pcr_clock(pcrs: Dict[int, List[Pcr]]) -> Optional[PcrClock]:
    """The clock of the PID with the most PCRs; None where no two of them tell a time."""
    best = max(pcrs, key=lambda pid: len(pcrs[pid]), default=None)
    if best is None:
        return None
    found = pcrs[best]
    steps = [step_of(one, other) for one, other in zip(found, found[1:])]
    ticks = sum(step for step in steps if step)
    bits = sum((other.place - one.place) * 8 for one, other, step in zip(found, found[1:], steps) if step)
    if not ticks:
        return None
    rate = bits * FREQUENCY / ticks
    times = [0.0]
    for one, other, step in zip(found, found[1:], steps):
        times.append(times[-1] + (step / FREQUENCY if step else (other.place - one.place) * 8 / rate))
    return PcrClock(best, [pcr.place for pcr in found], times, rate)


def step_of(one: Pcr, other: Pcr) -> Optional[int]:
    """The ticks from a PCR to the next one, None where that begins a new clock."""
    step = (other.value - one.value) % MODULUS
    return step if 0 < step < LEAP and not other.is_new else None
