"""Moments of XMLTV listings, and how edits write them. A moment is a number of seconds since 1970-01-01T00:00:00Z."""
from __future__ import annotations

import re
from datetime import date, datetime, timedelta, timezone, tzinfo
from functools import lru_cache
from typing import Optional

DAY = 86400
EPOCH = datetime(1970, 1, 1, tzinfo=timezone.utc)
# The first and the last day that the air has room for (docs/FORMATS.md, section 6), and the moments at which they begin and end.
FIRST_DAY = date(1858, 11, 17)
LAST_DAY = date(2038, 4, 22)
START_OF_TIME = int((datetime(1858, 11, 17, tzinfo=timezone.utc) - EPOCH).total_seconds())
END_OF_TIME = int((datetime(2038, 4, 23, tzinfo=timezone.utc) - EPOCH).total_seconds())

# Offsets of zone names in minutes. Some names stand for several zones: BST is British Summer Time, IST Irish Standard Time (+0100), and CST
# the one of North America.
ZONES = {
    "utc": 0, "gmt": 0, "z": 0, "ut": 0, "wet": 0, "west": 60, "bst": 60, "ist": 60, "cet": 60, "cest": 120, "met": 60, "mez": 60,
    "mest": 120, "mesz": 120, "eet": 120, "eest": 180, "msk": 180, "nst": -210, "ndt": -150, "ast": -240, "adt": -180, "est": -300,
    "edt": -240, "cst": -360, "cdt": -300, "mst": -420, "mdt": -360, "pst": -480, "pdt": -420, "akst": -540, "akdt": -480, "hst": -600,
    "jst": 540, "kst": 540, "awst": 480, "acst": 570, "acdt": 630, "aest": 600, "aedt": 660, "nzst": 720, "nzdt": 780,
}
TIME = re.compile(r"(\d{4})(\d\d)(\d\d)(\d\d)?(\d\d)?(\d\d)?(?:\.\d+)?(?:\s*(\S+))?", re.ASCII)
OFFSET = re.compile(r"([+-])(\d\d):?(\d\d)", re.ASCII)
MOMENT = re.compile(r"(\d{4})-(\d\d)-(\d\d)T(\d\d):(\d\d):(\d\d)Z", re.ASCII)


@lru_cache(maxsize=None)
def zone_of(name: str) -> Optional[tzinfo]:
    """The zone that an offset (+0100, +01:00), a name such as CEST, or a place such as Europe/Berlin names. None where it names none."""
    offset = OFFSET.fullmatch(name)
    if offset:
        minutes = int(offset[2]) * 60 + int(offset[3])
        return timezone(timedelta(minutes=minutes if offset[1] == "+" else -minutes)) if minutes < 1440 else None
    if name.lower() in ZONES:
        return timezone(timedelta(minutes=ZONES[name.lower()]))
    return place_of(name) if "/" in name else None


def place_of(name: str) -> Optional[tzinfo]:
    """The zone of a place, where this machine has its table of zones."""
    from zoneinfo import ZoneInfo

    try:
        return ZoneInfo(name)
    except (KeyError, ValueError, OSError):
        return None


def read_time(text: Optional[str], default: tzinfo) -> Optional[int]:
    """The moment of a `start` or `stop` attribute. Without a zone it is one of `default`. None where it has no day, or is none."""
    found = TIME.fullmatch((text or "").strip())
    if not found:
        return None
    zone = zone_of(found[7]) if found[7] else default
    year, month, day, hour, minute, second = (int(part or 0) for part in found.groups()[:6])
    if zone is None:
        return None
    try:
        return seconds_of(datetime(year, month, day, hour, minute, min(second, 59), tzinfo=zone))
    except (ValueError, OverflowError):
        return None


def seconds_of(moment: datetime) -> int:
    return (moment - EPOCH) // timedelta(seconds=1)


def midnight(day: date) -> int:
    return seconds_of(datetime(day.year, day.month, day.day, tzinfo=timezone.utc))


def read_moment(text: str) -> Optional[int]:
    """The moment of the form that edits and ticks have, in the window of docs/FORMATS.md, section 6."""
    found = MOMENT.fullmatch(text)
    if not found:
        return None
    year, month, day, hour, minute, second = map(int, found.groups())
    try:
        moment = seconds_of(datetime(year, month, day, hour, minute, second, tzinfo=timezone.utc))
    except ValueError:
        return None
    return moment if START_OF_TIME <= moment < END_OF_TIME else None


def write_moment(seconds: int) -> str:
    return (EPOCH + timedelta(seconds=seconds)).strftime("%Y-%m-%dT%H:%M:%SZ")


def write_day(seconds: int) -> str:
    return write_moment(seconds)[:10]


def write_duration(seconds: int) -> str:
    return f"{seconds // 3600:02}:{seconds // 60 % 60:02}:{seconds % 60:02}"
