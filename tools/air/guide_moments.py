"""The moments at which what is on now and next may change: an event begins or ends, or a day (UTC)."""
from __future__ import annotations

import bisect
import datetime
from typing import Iterator, List

DAY = 86_400
PUT = b"0,feed,"
TICK = b"0,tick,"


def moment_text(seconds: int) -> str:
    """A moment as the script has it, from seconds since 1970."""
    return datetime.datetime.fromtimestamp(seconds, datetime.timezone.utc).strftime("%Y-%m-%dT%H:%M:%SZ")


def seconds_of(moment: str) -> int:
    return int(datetime.datetime.fromisoformat(moment.replace("Z", "+00:00")).timestamp())


def length_of(duration: str) -> int:
    hours, minutes, seconds = map(int, duration.split(":"))
    return 3600 * hours + 60 * minutes + seconds


def ends_in(checkpoint: bytes) -> Iterator[int]:
    """The starts and ends of all events that a checkpoint has."""
    for line in checkpoint.split(b"\n"):
        if line.startswith(PUT):
            fields = line.split(b",", 8)
            if fields[3] == b"put":
                start = seconds_of(fields[6].decode())
                yield start
                yield start + length_of(fields[7].decode())


def clock_of(checkpoint: bytes) -> int:
    """The moment of the desk that a checkpoint is of."""
    text = checkpoint.rpartition(b"\n" + TICK)[2].partition(b"\n")[0]
    return seconds_of(text.decode())


class GuideMoments:
    def __init__(self, checkpoint: bytes = b"") -> None:
        self._moments: List[int] = sorted(set(ends_in(checkpoint)))

    def change_between(self, after: int, until: int) -> bool:
        """Whether what is on may change after one moment, and not after the other."""
        at = bisect.bisect_right(self._moments, after)
        return after // DAY != until // DAY or at < len(self._moments) and self._moments[at] <= until
