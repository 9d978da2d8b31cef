"""The programmes of one service, placed so that a desk takes each of them: in order, apart, each shorter than a day, within a window."""
from __future__ import annotations

from dataclasses import dataclass, replace
from itertools import accumulate
from typing import Dict, Iterator, List, Optional

from dvb_text import coded_size, cut_to_coded, cut_to_utf8
from event_descriptors import fitted_descriptors
from event_sizes import BLOCK, BLOCK_BYTES, DESCRIPTORS, EVENTS, EXTENDED, LONGEST, NAME, SHORT, Event, entry_size
from listings import Programme
from tally import Tally
from xmltv_times import END_OF_TIME, write_moment

HOUR = 3600
# How long a programme without a stop lasts at most, and how long the parts of one are that lasts a day or more.
LONGEST_GUESS = 6 * HOUR
PART = 12 * HOUR


@dataclass(frozen=True)
class Window:
    """What of a listing is taken: programmes that end after `first` and start before `end`. `last` is how many seconds one lasts that has
    neither a stop nor a programme after it; `untitled` is the name of one without a title."""

    first: int
    end: int
    last: int = HOUR
    untitled: str = "-"


# ---- which programmes stand, and from when to when


def placed(programmes: List[Programme], window: Window, tally: Tally) -> List[Programme]:
    """The programmes that stand, in ascending order; none meets the next."""
    standing = one_for_each_start(with_a_slot(programmes, tally), tally)
    within = [programme for programme in with_stops(standing, tally, window.last) if is_within(programme, window, tally)]
    parts = [part for programme in within for part in in_parts(programme, window, tally)]
    return [part for part in parts if has_room(part, tally)]


def with_a_slot(programmes: List[Programme], tally: Tally) -> Iterator[Programme]:
    """Those with a length, and of several that share a slot (a clump) the first."""
    for programme in programmes:
        if programme.stop is not None and programme.stop <= programme.start:
            tally.left_out("it has no length", str(programme))
        elif programme.follows_in_clump:
            tally.left_out("it shares its slot with another (clumpidx)", str(programme))
        else:
            yield programme


def one_for_each_start(programmes: Iterator[Programme], tally: Tally) -> List[Programme]:
    """Of those with one start, the one that was read last; in ascending order."""
    latest: Dict[int, Programme] = {}
    for programme in programmes:
        if programme.start in latest:
            tally.left_out("one that stands later has the same start", str(latest[programme.start]))
        latest[programme.start] = programme
    return [latest[start] for start in sorted(latest)]


def with_stops(programmes: List[Programme], tally: Tally, last: int) -> Iterator[Programme]:
    """A missing stop is the next start, at most six hours on; a stop after the next start is that start. `last` is for the last one."""
    following: List[Optional[Programme]] = [*programmes[1:], None]
    for programme, after in zip(programmes, following):
        stop = programme.stop
        if stop is None:
            stop = min(after.start, programme.start + LONGEST_GUESS) if after else programme.start + last
            tally.changed("it has no stop, so one is assumed", str(programme))
        if after and stop > after.start:
            stop = after.start
            tally.changed("it is cut where the next one begins", str(programme))
        yield replace(programme, stop=stop)


def is_within(programme: Programme, window: Window, tally: Tally) -> bool:
    if stop_of(programme) <= window.first:
        tally.left_out("it ended before the window", str(programme))
    elif programme.start >= window.end:
        tally.left_out("it starts after the window", str(programme))
    else:
        return True
    return False


def in_parts(programme: Programme, window: Window, tally: Tally) -> Iterator[Programme]:
    """A programme of a day or longer in parts of twelve hours, counted from its start, but for the last, which may have up to a day. Only
    those that meet the window."""
    start, stop = programme.start, stop_of(programme)
    if stop - start <= LONGEST:
        yield programme
        return
    tally.changed("it lasts a day or longer, so it stands in parts of 12 hours", str(programme))
    before_the_last = -((LONGEST - (stop - start)) // PART)
    start += PART * min(before_the_last, max(0, (window.first - start) // PART))
    while start < min(stop, window.end):
        end = start + PART if stop - start > LONGEST else stop
        yield replace(programme, start=start, stop=end)
        start = end


def has_room(programme: Programme, tally: Tally) -> bool:
    if stop_of(programme) > END_OF_TIME:
        tally.left_out("it ends after the last day that DVB can write, 2038-04-22", str(programme))
        return False
    return True


def stop_of(programme: Programme) -> int:
    return programme.start if programme.stop is None else programme.stop


# ---- what they say


def events_of(programmes: List[Programme], window: Window, tally: Tally) -> List[Event]:
    """The events of a service: at most 2,000, none with a text that is too long, and no three hours with too many bytes."""
    for programme in programmes[EVENTS:]:
        tally.left_out(f"beyond {EVENTS:,} events of its service", str(programme))
    blocks: Dict[int, List[Event]] = {}
    for programme in programmes[:EVENTS]:
        blocks.setdefault(programme.start // BLOCK, []).append(event_of(programme, window, tally))
    return [event for block in blocks.values() for event in fitted(block, tally)]


def event_of(programme: Programme, window: Window, tally: Tally) -> Event:
    """A sub-title is the short text, and the description the extended one. Without a sub-title a short description is the short text."""
    name = cut_to_coded(programme.title, NAME) or window.untitled
    short, extended = programme.subtitle, programme.description
    if not short and coded_size(extended) <= SHORT:
        short, extended = extended, ""
    further = fitted_descriptors(programme.components, programme.links)
    event = Event(
        programme.where, programme.start, stop_of(programme) - programme.start, programme.language, name,
        cut_to_coded(short, SHORT), cut_to_utf8(extended, EXTENDED), programme.genres, programme.rating, further.descriptors,
    )
    if not programme.title:
        tally.changed("it has no title", f"{programme} at {write_moment(programme.start)}")
    elif event.name != programme.title:
        tally.changed(f"its title is cut to {NAME} bytes", str(programme))
    if event.short != short:
        tally.changed(f"its sub-title is cut to {SHORT} bytes", str(programme))
    if event.extended != extended:
        tally.changed(f"its description is cut to {EXTENDED:,} bytes", str(programme))
    if not further.is_all:
        tally.changed(f"some of its links and kinds are left out, since they have more than {DESCRIPTORS} bytes", str(programme))
    return event


# ---- the bytes of three hours


def is_too_big(block: List[Event]) -> bool:
    return sum(map(entry_size, block)) > BLOCK_BYTES


def fitted(block: List[Event], tally: Tally) -> List[Event]:
    """The events of three hours with at most 20,000 bytes: descriptions are cut to the greatest length with which they fit. Where none
    fits, the short texts go as well, then links and kinds, and then the last events."""
    if not is_too_big(block):
        return block
    shorter = with_extended(block, fitting_length(block))
    if is_too_big(shorter):
        shorter = [replace(event, short="") for event in shorter]
    if is_too_big(shorter):
        shorter = [replace(event, descriptors=()) for event in shorter]
    room = [total <= BLOCK_BYTES for total in accumulate(map(entry_size, shorter))].count(True)
    for event in shorter[room:]:
        tally.left_out(f"its three hours have more than {BLOCK_BYTES:,} bytes", str(event))
    shorter = shorter[:room]
    for before, event in zip(block, shorter):
        if replace(before, descriptors=event.descriptors) != event:
            tally.changed(f"its texts are cut, since its three hours have more than {BLOCK_BYTES:,} bytes", str(event))
        if before.descriptors != event.descriptors:
            tally.changed(f"its links and kinds are left out, since its three hours have more than {BLOCK_BYTES:,} bytes", str(event))
    return shorter


def with_extended(block: List[Event], limit: int) -> List[Event]:
    return [replace(event, extended=cut_to_utf8(event.extended, limit)) for event in block]


def fitting_length(block: List[Event]) -> int:
    """A length of descriptions with which the block fits, near the greatest one; 0 where none does."""
    fits, too_long = 0, EXTENDED
    while too_long - fits > 1:
        middle = (fits + too_long) // 2
        if is_too_big(with_extended(block, middle)):
            too_long = middle
        else:
            fits = middle
    return fits
