"""Reads what `listen` prints: the tables that were completed, the guide, what it lacks, what was lost or passed over, and a fault.

docs/FORMATS.md has every line, under "Of `listen`". Lines with another first word are passed over and counted: those of other commands, and
those that a newer program prints. A line with a word of `listen` that does not have the fields of that word is an error that names the line.
"""
from __future__ import annotations

import re
from dataclasses import dataclass, field
from datetime import datetime, timedelta, timezone
from typing import Callable, Dict, Iterable, List, NamedTuple, Optional, Sequence, Tuple

MOMENT = re.compile(r"(\d{4})-(\d\d)-(\d\d)T(\d\d):(\d\d):(\d\d)Z", re.ASCII)
DURATION = re.compile(r"(\d\d):(\d\d):(\d\d)", re.ASCII)


class Genre(NamedTuple):
    """One entry of a content_descriptor (EN 300 468, 6.2.9)."""

    level_1: int
    level_2: int
    user: int


class Descriptor(NamedTuple):
    """A descriptor that `listen --details` printed: the word of the line that it belongs to, `program` for those of a programme, its tag and
    its body."""

    place: str
    tag: int
    body: bytes


@dataclass(frozen=True)
class Event:
    """An event of a service. Texts are as they were printed, `hex:` and digits where they could not be read. Its descriptors are those that
    stand after its line."""

    id: int
    start: datetime
    duration: timedelta
    language: str
    name: str
    short: str
    extended: str
    country: str
    rating: Optional[int]
    genres: Tuple[Genre, ...]
    descriptors: List[Descriptor] = field(default_factory=list, hash=False)

    @property
    def end(self) -> datetime:
        return self.start + self.duration

    @property
    def least_age(self) -> Optional[int]:
        """The age from which the event is fit, where the rating says one (EN 300 468, 6.2.28)."""
        return self.rating + 3 if self.rating is not None and 1 <= self.rating <= 15 else None


class Component(NamedTuple):
    stream_type: int
    pid: int
    language: str


@dataclass
class Remote:
    """A service of another stream; a type is None where no description of the service was heard. Its descriptors are those of the SDT."""

    id: int
    type: Optional[int]
    provider: str
    name: str
    present: Optional[Event] = None
    following: Optional[Event] = None
    events: List[Event] = field(default_factory=list)
    descriptors: List[Descriptor] = field(default_factory=list)


@dataclass
class Service(Remote):
    """A service of the stream; a PID is None where no programme gives it."""

    pmt_pid: Optional[int] = None
    pcr_pid: Optional[int] = None
    components: List[Component] = field(default_factory=list)


class Named(NamedTuple):
    """A network."""

    id: int
    name: str


class Stream(NamedTuple):
    """A stream; its network is None where neither its SDT nor an event told it."""

    id: int
    original_network_id: Optional[int]


class Cable(NamedTuple):
    """The cable delivery system, in the units of its descriptor (EN 300 468, 6.2.13.1)."""

    frequency: int
    modulation: int
    symbol_rate: int
    outer: int
    inner: int


@dataclass
class Other:
    """Another stream of the network; its cable is None where none was told."""

    id: int
    original_network_id: int
    cable: Optional[Cable]
    services: List[Remote] = field(default_factory=list)


class LocalTime(NamedTuple):
    """How far the clocks of a region are from UTC (EN 300 468, 6.2.20): by `minutes`, and by `next_minutes` from the change on.

    `time` is the moment of the clock on them, as it was printed: without a zone, and empty where the program shows none.
    """

    country: str
    region: int
    is_behind: bool
    minutes: int
    change: Optional[datetime]
    next_minutes: int
    time: str

    def offset_at(self, clock: Optional[datetime]) -> int:
        """The minutes that are added to UTC at a moment; those before the change where there is no moment."""
        has_changed = clock is not None and self.change is not None and self.change <= clock
        minutes = self.next_minutes if has_changed else self.minutes
        return -minutes if self.is_behind else minutes


class Completion(NamedTuple):
    """A version of a sub-table that was heard whole, and the packet in which its last section ended."""

    packet: int
    pid: int
    table_id: int
    extension: int
    stream: int
    original_network: int
    version: int


class Loss(NamedTuple):
    packet: int
    pid: int


class Junk(NamedTuple):
    """Bytes that `listen --resync` passed over before a packet, or at the end of the recording."""

    packet: int
    bytes: int


@dataclass
class Heard:
    """All that a run of `listen` printed. The descriptors are all of them, those of services and events too, in the order of their lines."""

    clock: Optional[datetime] = None
    local_times: List[LocalTime] = field(default_factory=list)
    network: Optional[Named] = None
    stream: Optional[Stream] = None
    cable: Optional[Cable] = None
    services: List[Service] = field(default_factory=list)
    others: List[Other] = field(default_factory=list)
    descriptors: List[Descriptor] = field(default_factory=list)
    wanting: List[Tuple[str, ...]] = field(default_factory=list)
    completions: List[Completion] = field(default_factory=list)
    losses: List[Loss] = field(default_factory=list)
    junk: List[Junk] = field(default_factory=list)
    fault: Optional[str] = None
    ended: bool = False
    passed_over: int = 0

    @property
    def is_whole(self) -> bool:
        """Whether the guide has all that was on air."""
        return self.ended and not self.wanting and self.fault is None


class HeardError(ValueError):
    """A line that `listen` does not print."""


def number_or_none(text: str) -> Optional[int]:
    return int(text) if text else None


def read_moment(text: str) -> datetime:
    found = MOMENT.fullmatch(text)
    if not found:
        raise ValueError(f"{text!r} is no moment")
    year, month, day, hour, minute, second = map(int, found.groups())
    return datetime(year, month, day, hour, minute, second, tzinfo=timezone.utc)


def read_duration(text: str) -> timedelta:
    found = DURATION.fullmatch(text)
    if not found:
        raise ValueError(f"{text!r} is no duration")
    hours, minutes, seconds = map(int, found.groups())
    return timedelta(hours=hours, minutes=minutes, seconds=seconds)


def write_moment(moment: datetime) -> str:
    return moment.strftime("%Y-%m-%dT%H:%M:%SZ")


def write_duration(duration: timedelta) -> str:
    seconds = int(duration.total_seconds())
    return f"{seconds // 3600:02}:{seconds // 60 % 60:02}:{seconds % 60:02}"


def read_genres(text: str) -> Tuple[Genre, ...]:
    genres = []
    for part in text.split():
        level_1, level_2, user = map(int, part.split("."))
        genres.append(Genre(level_1, level_2, user))
    return tuple(genres)


def read_event(fields: List[str], descriptors: List[Descriptor]) -> Event:
    number, start, duration, language, name, short, extended, country, rating, genres = fields
    return Event(int(number), read_moment(start), read_duration(duration), language, name, short, extended, country,
                 int(rating) if rating else None, read_genres(genres), descriptors)


def read_local_time(fields: List[str]) -> LocalTime:
    country, region, side, minutes, change, next_minutes, time = fields
    if side not in ("ahead", "behind"):
        raise ValueError(f"{side!r} is no side")
    if time:
        read_moment(f"{time}Z")
    return LocalTime(country, int(region), side == "behind", int(minutes), read_moment(change) if change else None, int(next_minutes), time)


def read_descriptor(place: str, fields: List[str]) -> Descriptor:
    (digits,) = fields
    whole = bytes.fromhex(digits)
    if len(whole) < 2 or len(whole) != 2 + whole[1]:
        raise ValueError(f"{digits!r} is no whole descriptor")
    return Descriptor(place, whole[0], whole[2:])


class Reader:
    """Takes the lines of a report one by one."""

    def __init__(self) -> None:
        self.heard = Heard()
        self._place = ""
        self._owned: List[Descriptor] = []
        self._words: Dict[str, Callable[[List[str]], None]] = {
            "done": self._done, "lost": self._lost, "junk": self._junk, "clock": self._clock, "local": self._local, "network": self._network,
            "stream": self._stream, "cable": self._cable, "service": self._service, "component": self._component, "other": self._other,
            "remote": self._remote, "now": self._now, "next": self._next, "event": self._event, "wanting": self._wanting, "end": self._end,
            "descriptor": self._descriptor, "program": self._program,
        }

    def take(self, line: str) -> None:
        """Takes a line up. What is not of the form that its word has is a ValueError."""
        word, *fields = line.split("\t")
        if line.startswith("fault: "):
            self.heard.fault = line[len("fault: "):]
        elif word in self._words:
            if word not in ("descriptor", "program"):
                self._place, self._owned = word, []
            self._words[word](fields)
        elif line:
            self.heard.passed_over += 1

    def _done(self, fields: List[str]) -> None:
        packet, pid, table, extension, stream, original, version = map(int, fields)
        self.heard.completions.append(Completion(packet, pid, table, extension, stream, original, version))

    def _lost(self, fields: List[str]) -> None:
        packet, pid = map(int, fields)
        self.heard.losses.append(Loss(packet, pid))

    def _junk(self, fields: List[str]) -> None:
        packet, count = map(int, fields)
        self.heard.junk.append(Junk(packet, count))

    def _clock(self, fields: List[str]) -> None:
        (moment,) = fields
        self.heard.clock = read_moment(moment)

    def _local(self, fields: List[str]) -> None:
        self.heard.local_times.append(read_local_time(fields))

    def _network(self, fields: List[str]) -> None:
        number, name = fields
        self.heard.network = Named(int(number), name)

    def _stream(self, fields: List[str]) -> None:
        number, original = fields
        self.heard.stream = Stream(int(number), number_or_none(original))

    def _cable(self, fields: List[str]) -> None:
        frequency, modulation, symbol_rate, outer, inner = map(int, fields)
        self.heard.cable = Cable(frequency, modulation, symbol_rate, outer, inner)

    def _service(self, fields: List[str]) -> None:
        number, kind, provider, name, pmt, pcr = fields
        self.heard.services.append(Service(int(number), number_or_none(kind), provider, name, descriptors=self._owned,
                                           pmt_pid=number_or_none(pmt), pcr_pid=number_or_none(pcr)))

    def _component(self, fields: List[str]) -> None:
        kind, pid, language = fields
        service = self._last_service()
        if not isinstance(service, Service):
            raise ValueError("a service of another stream has no components")
        service.components.append(Component(int(kind), int(pid), language))

    def _other(self, fields: List[str]) -> None:
        number, original, *cable = fields
        if len(cable) != len(Cable._fields):
            raise ValueError("it does not have five fields of a cable")
        self.heard.others.append(Other(int(number), int(original), Cable(*map(int, cable)) if any(cable) else None))

    def _remote(self, fields: List[str]) -> None:
        number, kind, provider, name = fields
        if not self.heard.others:
            raise ValueError("no other stream stands before it")
        self.heard.others[-1].services.append(Remote(int(number), int(kind), provider, name, descriptors=self._owned))

    def _now(self, fields: List[str]) -> None:
        self._last_service().present = read_event(fields, self._owned)

    def _next(self, fields: List[str]) -> None:
        self._last_service().following = read_event(fields, self._owned)

    def _event(self, fields: List[str]) -> None:
        self._last_service().events.append(read_event(fields, self._owned))

    def _descriptor(self, fields: List[str]) -> None:
        descriptor = read_descriptor(self._place, fields)
        self.heard.descriptors.append(descriptor)
        self._owned.append(descriptor)

    def _program(self, fields: List[str]) -> None:
        self.heard.descriptors.append(read_descriptor("program", fields))

    def _wanting(self, fields: List[str]) -> None:
        if not fields:
            raise ValueError("it does not say what is wanting")
        self.heard.wanting.append(tuple(fields))

    def _end(self, fields: List[str]) -> None:
        if fields:
            raise ValueError("it has fields")
        self.heard.ended = True

    def _last_service(self) -> Remote:
        """The service that stands last: of the last other stream, or of the stream where there is none."""
        services: Sequence[Remote] = self.heard.others[-1].services if self.heard.others else self.heard.services
        if not services:
            raise ValueError("no service stands before it")
        return services[-1]


def read_heard(lines: Iterable[str]) -> Heard:
    """What these lines of `listen` say."""
    reader = Reader()
    for number, line in enumerate(lines, 1):
        try:
            reader.take(line)
        except (ValueError, OverflowError) as error:
            word = line.split("\t")[0]
            raise HeardError(f"line {number} is no `{word}` line of `listen`: {error}") from None
    return reader.heard


def lines_of(data: bytes) -> List[str]:
    """The lines of a report. A text may have any line separator of Unicode, so that only the byte 0x0A ends a line."""
    return [line.rstrip("\r") for line in data.decode("utf-8", "replace").split("\n")]


# ---- JSON


def event_json(event: Event) -> Dict[str, object]:
    return {
        "event_id": event.id, "start": write_moment(event.start), "end": write_moment(event.end), "duration": write_duration(event.duration),
        "language": event.language, "name": event.name, "short": event.short, "extended": event.extended, "country": event.country,
        "rating": event.rating, "genres": [genre._asdict() for genre in event.genres],
    }


def remote_json(service: Remote) -> Dict[str, object]:
    return {
        "service_id": service.id, "service_type": service.type, "provider": service.provider, "name": service.name,
        "present": event_json(service.present) if service.present else None,
        "following": event_json(service.following) if service.following else None,
        "events": [event_json(event) for event in service.events],
    }


def service_json(service: Service) -> Dict[str, object]:
    return {**remote_json(service), "pmt_pid": service.pmt_pid, "pcr_pid": service.pcr_pid,
            "components": [part._asdict() for part in service.components]}


def other_json(other: Other) -> Dict[str, object]:
    return {"id": other.id, "original_network_id": other.original_network_id, "cable": other.cable._asdict() if other.cable else None,
            "services": [remote_json(service) for service in other.services]}


def local_time_json(local: LocalTime) -> Dict[str, object]:
    return {**local._asdict(), "change": write_moment(local.change) if local.change else None}


def heard_json(heard: Heard) -> Dict[str, object]:
    """What was heard, as values that `json` writes. Moments are in UTC, as `listen` prints them, but for the local times."""
    return {
        "whole": heard.is_whole, "fault": heard.fault, "wanting": [list(what) for what in heard.wanting],
        "clock": write_moment(heard.clock) if heard.clock else None,
        "local_times": [local_time_json(local) for local in heard.local_times],
        "network": heard.network._asdict() if heard.network else None,
        "stream": heard.stream._asdict() if heard.stream else None,
        "cable": heard.cable._asdict() if heard.cable else None,
        "services": [service_json(service) for service in heard.services],
        "others": [other_json(other) for other in heard.others],
        "descriptors": [{"place": desc.place, "tag": desc.tag, "body": desc.body.hex()} for desc in heard.descriptors],
        "completions": [done._asdict() for done in heard.completions],
        "losses": [loss._asdict() for loss in heard.losses],
        "junk": [junk._asdict() for junk in heard.junk],
    }
