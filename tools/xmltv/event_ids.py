"""event_ids that stay from one day's listings to the next, by a file that keeps them.

An event keeps the id of the one with its start and title; else that of one with its title that starts within three hours, the nearest.
Any other has a new id, made of its day and minute. An id is not given to another event as long as the file keeps it: until its event is no
longer in the listings and began before the window. The file is JSON: for each service the ids, each with a moment and a title.
"""
from __future__ import annotations

import json
from pathlib import Path
from typing import Dict, List, NamedTuple, Sequence, Set

from event_sizes import Event
from xml_elements import ListingsError
from xmltv_times import DAY, read_moment, write_moment

IDS = 65536
MOVED = 3 * 3600


class Airing(NamedTuple):
    """What an id was given for."""

    start: int
    title: str


Known = Dict[int, Airing]


# ---- which id an event has


def numbered(events: Sequence[Event], known: Known) -> List[int]:
    """The ids of these events, which have different starts; no two have the same one."""
    ids = same_ids(events, known)
    moved_ids(events, known, ids)
    used = set(ids.values())
    kept = used | set(known)
    for event in events:
        if event.start not in ids:
            ids[event.start] = new_id(event.start, kept if len(kept) < IDS else used)
            used.add(ids[event.start])
            kept.add(ids[event.start])
    return [ids[event.start] for event in events]


def same_ids(events: Sequence[Event], known: Known) -> Dict[int, int]:
    """By their start, the ids of the events that were known with that start and title."""
    by_airing = {airing: number for number, airing in known.items()}
    found = {event.start: by_airing.get(Airing(event.start, event.name)) for event in events}
    return {start: number for start, number in found.items() if number is not None}


def moved_ids(events: Sequence[Event], known: Known, ids: Dict[int, int]) -> None:
    """Adds the ids of the events that were known with that title and a start near by."""
    used: Set[int] = set(ids.values())
    by_title: Dict[str, List[int]] = {}
    for number, airing in known.items():
        if number not in used:
            by_title.setdefault(airing.title, []).append(number)
    for event in events:
        left = by_title.get(event.name, []) if event.start not in ids else []
        nearest = min(left, key=lambda number: (abs(known[number].start - event.start), number), default=None)
        if nearest is not None and abs(known[nearest].start - event.start) <= MOVED:
            ids[event.start] = nearest
            left.remove(nearest)


def new_id(start: int, taken: Set[int]) -> int:
    """An id of the day, modulo 64, and of the minute in 1,024 steps; or the first after it that is not taken."""
    number = start // DAY % 64 * 1024 + start % DAY * 1024 // DAY
    while number in taken:
        number = (number + 1) % IDS
    return number


def known_after(events: Sequence[Event], ids: Sequence[int], known: Known, first: int) -> Known:
    """What is known after these events: they, and those before them that are not over since the day `first`."""
    later = {number: airing for number, airing in known.items() if airing.start >= first}
    return {**later, **{number: Airing(event.start, event.name) for number, event in zip(ids, events)}}


# ---- the file


def read_ids(path: Path) -> Dict[int, Known]:
    """What a file keeps, by service; nothing where there is no file."""
    if not path.exists():
        return {}
    try:
        services = json.loads(path.read_text(encoding="utf-8"))
        return {int(service): read_known(kept) for service, kept in services.items()}
    except (ValueError, TypeError, AttributeError):
        raise ListingsError(f"{path}: it is no file of event_ids that this tool wrote") from None


def read_known(kept: Dict[str, List[str]]) -> Known:
    known: Known = {}
    for number, (moment, title) in kept.items():
        start = read_moment(moment)
        if start is None or not 0 <= int(number) < IDS or not isinstance(title, str):
            raise ValueError(moment)
        known[int(number)] = Airing(start, title)
    return known


def write_ids(services: Dict[int, Known]) -> str:
    """The text of the file, with a line for each service."""
    lines = []
    for service, known in sorted(services.items()):
        kept = {str(number): (write_moment(airing.start), airing.title) for number, airing in sorted(known.items())}
        lines.append(f'"{service}": {json.dumps(kept, ensure_ascii=False)}')
    return "{\n" + ",\n".join(lines) + "\n}\n"
