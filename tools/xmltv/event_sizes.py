"""The limits of an event, and the bytes that it takes, as docs/FORMATS.md counts them (sections 2 'Replies', 5 and 7)."""
from __future__ import annotations

from dataclasses import dataclass
from typing import Optional, Tuple

from categories import Levels
from dvb_text import coded_size, pieces
from ratings import Rating

NAME = 100
SHORT = 150
EXTENDED = 1000
DESCRIPTORS = 240
LONGEST = 86399
EVENTS = 2000
BLOCK = 10800
BLOCK_BYTES = 20000
INPUT_BYTES = 67108864

# The fields of an event in the body of event information, and the parts of each descriptor that have a fixed size.
EVENT_FIELDS = 12
SHORT_EVENT = 7
EXTENDED_EVENT = 8
CONTENT = 2
PARENTAL_RATING = 6


@dataclass(frozen=True)
class Event:
    """An event as an edit has it, but for its id. `extended` counts in bytes of UTF-8, the other texts in coded bytes. Descriptors are whole."""

    where: str
    start: int
    duration: int
    language: str
    name: str
    short: str
    extended: str
    genres: Tuple[Levels, ...] = ()
    rating: Optional[Rating] = None
    descriptors: Tuple[bytes, ...] = ()

    def __str__(self) -> str:
        return f"{self.where}: {self.name}"


def entry_size(event: Event) -> int:
    """The bytes of an event in a section."""
    size = EVENT_FIELDS + SHORT_EVENT + coded_size(event.name) + coded_size(event.short)
    size += sum(EXTENDED_EVENT + coded_size(piece) for piece in pieces(event.extended))
    if event.genres:
        size += CONTENT + 2 * len(event.genres)
    return size + (PARENTAL_RATING if event.rating else 0) + sum(map(len, event.descriptors))
