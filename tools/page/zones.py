"""Time zones as a user names them."""
from __future__ import annotations

import re
from datetime import datetime, timedelta, timezone, tzinfo
from zoneinfo import ZoneInfo

OFFSET = re.compile(r"([+-])(\d\d):?(\d\d)", re.ASCII)


def zone_of(text: str) -> tzinfo:
    """The zone of `UTC`, of an offset such as `+0100` or `-03:30`, or of a name such as `Europe/Berlin`. Else a ValueError."""
    if text.upper() in ("UTC", "Z"):
        return timezone.utc
    found = OFFSET.fullmatch(text)
    if found:
        hours, minutes = int(found.group(2)), int(found.group(3))
        if hours > 14 or minutes > 59:
            raise ValueError(f"{text} is no offset: at most 14 hours and 59 minutes")
        offset = timedelta(hours=hours, minutes=minutes)
        return timezone(offset if found.group(1) == "+" else -offset)
    try:
        return ZoneInfo(text)
    except (KeyError, OSError, ValueError):
        raise ValueError(f"{text} is no zone that this machine knows: give UTC, an offset as +0100, or a name as Europe/Berlin") from None


def offset_of(moment: datetime) -> str:
    """The offset of a moment in its zone, as `UTC` or `+01:00`."""
    text = moment.strftime("%z")
    return "UTC" if text == "+0000" else f"{text[:3]}:{text[3:5]}"
