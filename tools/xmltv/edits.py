"""Edits of a desk in the lines of docs/FORMATS.md, section 2: for each service a clear, and then its events day by day."""
from __future__ import annotations

import csv
import io
from itertools import groupby
from typing import List, NamedTuple, Optional, Sequence, Tuple

from event_sizes import Event
from xmltv_times import DAY, write_day, write_duration, write_moment


class ServiceEvents(NamedTuple):
    """The events of a service in ascending order, with their ids."""

    service: int
    feed: int
    events: Sequence[Event]
    ids: Sequence[int]


class Edits(NamedTuple):
    """Lines of edits, and how many edits and items they are."""

    text: str
    edits: int
    items: int


def write_edits(services: Sequence[ServiceEvents], with_feed: bool) -> Edits:
    """The edits of these services. With `with_feed` each is a command of a script; else a line of the file of a feed."""
    out = io.StringIO()
    lines = csv.writer(out, lineterminator="\n")
    edits = 0
    for service in services:
        lead: List[object] = ["feed", service.feed] if with_feed else []
        lines.writerow([*lead, "clear", service.service])
        days = [(day, list(items)) for day, items in groupby(zip(service.events, service.ids), key=lambda item: item[0].start // DAY)]
        for day, items in days:
            lines.writerow([*lead, "day", service.service, write_day(day * DAY), len(items)])
            lines.writerows(item_fields(event, number) for event, number in items)
        edits += 1 + len(days)
    return Edits(out.getvalue(), edits, sum(len(service.events) for service in services))


def item_fields(event: Event, number: int) -> Tuple[object, ...]:
    country, rating = event.rating or ("", "")
    genres = " ".join(f"{levels.level_1}.{levels.level_2}.0" for levels in event.genres)
    descriptors = " ".join(descriptor.hex() for descriptor in event.descriptors)
    return (
        "item", number, write_moment(event.start), write_duration(event.duration), event.language, event.name, event.short, event.extended,
        country, rating, genres, *([descriptors] if descriptors else []),
    )


def write_publish(moment: Optional[int]) -> str:
    """A tick, a publish and a swap at a moment; nothing without one."""
    return f"tick,{write_moment(moment)}\npublish\nswap\n" if moment is not None else ""
