"""Where the events of a guide stand on its page: rows of services, minutes from the left."""
from __future__ import annotations

import math
from dataclasses import dataclass
from datetime import datetime, timedelta, timezone, tzinfo
from typing import Iterator, List, NamedTuple, Optional, Tuple

from heard import Event, Heard, Service

# A schedule has at most 64 days (EN 300 468, 5.2.4), and its last event may end later.
MOST = timedelta(days=66)
EMPTY = timedelta(hours=6)
EPOCH = datetime(1970, 1, 1, tzinfo=timezone.utc)
HOUR = timedelta(hours=1)


class Window(NamedTuple):
    """The time that a page shows: from a full hour of the zone on, so many minutes."""

    start: datetime
    minutes: int
    zone: tzinfo

    @property
    def end(self) -> datetime:
        return self.start + timedelta(minutes=self.minutes)

    def minute(self, moment: datetime) -> float:
        """The minutes from the left to a moment."""
        return (moment - self.start).total_seconds() / 60

    def has(self, moment: datetime) -> bool:
        return self.start <= moment <= self.end

    def local(self, moment: datetime) -> datetime:
        return moment.astimezone(self.zone)


@dataclass(frozen=True)
class Placed:
    """An event on the page: its first minute and its length there, and whether it is the present or the following one."""

    event: Event
    first: float
    length: float
    is_present: bool
    is_following: bool


class Row(NamedTuple):
    service: Service
    placed: List[Placed]
    outside: int


def named(service: Service) -> List[Event]:
    """The present and the following event, where there are such."""
    return [event for event in (service.present, service.following) if event]


def is_same(event: Event, other: Optional[Event]) -> bool:
    return other is not None and (event.id, event.start) == (other.id, other.start)


def events_of(service: Service) -> List[Event]:
    """The events of a service by their starts. Present and following that stand in the schedule too are not named twice."""
    events = list(service.events)
    seen = {(event.id, event.start) for event in events}
    for event in named(service):
        if (event.id, event.start) not in seen:
            seen.add((event.id, event.start))
            events.append(event)
    return sorted(events, key=lambda event: event.start)


def window_of(heard: Heard, zone: tzinfo, days: Optional[int] = None) -> Window:
    """The time of the schedule; where that is empty, of present and following, or of the clock. With `days` so many from the clock on."""
    scheduled = [event for service in heard.services for event in service.events]
    events = scheduled or [event for service in heard.services for event in named(service)]
    first = min((event.start for event in events), default=heard.clock or EPOCH)
    last = max((event.end for event in events), default=first)
    clock = first if heard.clock is None else heard.clock
    if first - timedelta(days=1) <= clock < first:
        first = clock
    if days is not None:
        first = max(first, clock - HOUR)
        last = min(last, first + timedelta(days=days))
    start = hour_of(first, zone)
    end = max(min(last, start + MOST), start + EMPTY)
    return Window(start, math.ceil((end - start).total_seconds() / 60), zone)


def hour_of(moment: datetime, zone: tzinfo) -> datetime:
    """The full hour of the zone that is not after a moment, in UTC."""
    local = moment.astimezone(zone)
    return moment - timedelta(minutes=local.minute, seconds=local.second)


def row_of(service: Service, window: Window) -> Row:
    placed = []
    outside = 0
    for event in events_of(service):
        if event.start >= window.end or (event.end <= window.start and event.start < window.start):
            outside += 1
            continue
        first = max(window.minute(event.start), 0.0)
        length = min(window.minute(event.end), float(window.minutes)) - first
        placed.append(Placed(event, first, length, is_same(event, service.present), is_same(event, service.following)))
    return Row(service, placed, outside)


def hours_of(window: Window) -> Iterator[Tuple[float, datetime]]:
    """The full hours of a page: the minutes from the left, and the local time."""
    moment = window.start
    while moment < window.end:
        yield window.minute(moment), window.local(moment)
        moment += HOUR


def days_of(window: Window) -> List[Tuple[float, float, datetime]]:
    """The days of a page: the first minute, the length in minutes, and a local time in it."""
    starts: List[Tuple[float, datetime]] = []
    for minute, local in hours_of(window):
        if not starts or local.date() != starts[-1][1].date():
            starts.append((minute, local))
    ends = [minute for minute, _ in starts[1:]] + [float(window.minutes)]
    return [(minute, end - minute, local) for (minute, local), end in zip(starts, ends)]
