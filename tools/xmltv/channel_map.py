"""The map of channels: which channel of a listing is which service of the multiplex.

A line has a channel id of XMLTV, a service_id, the number of the feed that may edit the service, and, where the service shows the channel
later, by how many minutes: `bbc1.uk,106,1,60`. Lines that begin with `#` and empty ones are passed over. A channel may have several
services, and a service several channels.
"""
from __future__ import annotations

import csv
from pathlib import Path
from typing import Dict, Iterable, List, NamedTuple, Optional, Tuple

from xml_elements import ListingsError

LONGEST_SHIFT = 7 * 1440
ID_FIELD = {"service": 1, "remote": 3}


class Target(NamedTuple):
    """A service that shows a channel, `shift` minutes later."""

    service: int
    feed: int
    shift: int


ChannelMap = Dict[str, List[Target]]


def number_within(text: str, least: int, most: int) -> Optional[int]:
    """A number that a field has, in this range."""
    try:
        number = int(text)
    except ValueError:
        return None
    return number if least <= number <= most else None


def read_target(fields: List[str]) -> Optional[Target]:
    if not 3 <= len(fields) <= 4 or not fields[0]:
        return None
    service, feed = number_within(fields[1], 1, 65535), number_within(fields[2], 1, 16)
    shift = number_within(fields[3] if len(fields) == 4 and fields[3] else "0", -LONGEST_SHIFT, LONGEST_SHIFT)
    if service is None or feed is None or shift is None:
        return None
    return Target(service, feed, shift)


def numbered_records(path: Path) -> Iterable[Tuple[int, List[str]]]:
    """The records of a csv file without comments, each with its line. Spaces around a field are no part of it."""
    try:
        text = path.read_text(encoding="utf-8-sig")
    except UnicodeDecodeError:
        raise ListingsError(f"{path}: it is no UTF-8") from None
    for number, line in enumerate(text.split("\n"), 1):
        if line.strip() and not line.startswith("#"):
            try:
                yield number, [field.strip() for field in next(csv.reader([line]))]
            except csv.Error as error:
                raise ListingsError(f"{path}: line {number}: {error}") from None


def read_map(path: Path) -> ChannelMap:
    channels: ChannelMap = {}
    feeds: Dict[int, int] = {}
    for number, fields in numbered_records(path):
        target = read_target(fields)
        if target is None:
            raise ListingsError(f"{path}: line {number}: it is not CHANNEL,SERVICE,FEED[,SHIFT], with a feed from 1 to 16 and minutes")
        if feeds.setdefault(target.service, target.feed) != target.feed:
            raise ListingsError(f"{path}: line {number}: service {target.service} has feed {feeds[target.service]} in a line before")
        channels.setdefault(fields[0], []).append(target)
    return channels


def read_feeds(path: Path) -> Dict[int, int]:
    """The services of a description of a multiplex and those of other streams, each with its feed. Only these fields are looked at."""
    feeds: Dict[int, int] = {}
    for number, fields in numbered_records(path):
        if fields[0] == "end":
            break
        first = ID_FIELD.get(fields[0])
        if first:
            service, feed = (number_within(field, 0, 65535) for field in (fields + [""] * 4)[first:first + 2])
            if service is None or feed is None:
                raise ListingsError(f"{path}: line {number}: a service has an id and a feed")
            feeds[service] = feed
    return feeds


def check_feeds(channels: ChannelMap, feeds: Dict[int, int], path: Path) -> None:
    """Each service of the map stands in the description of the multiplex, with that feed."""
    for channel, targets in channels.items():
        for target in targets:
            if feeds.get(target.service) != target.feed:
                raise ListingsError(f"{path}: it has no service {target.service} of feed {target.feed}, which the map has for {channel}")
