"""How often each table is to come, and how far apart its sections are to be: the one table of the standards' intervals.

Recommended are the intervals of TR 101 211, 4.4, and for PAT and PMT those of TS 101 154, 4.1.7. Tolerated are those of TR 101 290, 5.2, by
the number of its indicator: a longer one is shown as an error by a measuring device. Where TR 101 290 says `10 s or higher`, it is 10 s, and
on terrestrial networks, where TR 101 211 recommends more, what that recommends. All are in seconds.
"""
from __future__ import annotations

from dataclasses import dataclass, replace
from typing import Dict, List, Optional

NETWORKS = ("cable", "satellite", "terrestrial")

# The least time between the last byte of a section and the first of the next one with the same PID, table_id and table_id_extension, in a
# stream of up to 100 Mbit/s. It is asked of the tables of EN 300 468, not of PAT, PMT and CAT.
APART = 0.025
APART_BY = "EN 300 468, 5.1.4"


@dataclass(frozen=True)
class Limit:
    """What is asked of a table: None where nothing is."""

    table: str
    recommended: Optional[float] = None
    recommended_by: str = ""
    tolerated: Optional[float] = None
    tolerated_by: str = ""
    apart: Optional[float] = APART
    is_expected: bool = False


LIMITS: List[Limit] = [
    Limit("PAT", 0.1, "TS 101 154, 4.1.7", 0.5, "TR 101 290, 1.3", None, True),
    Limit("PMT", 0.1, "TS 101 154, 4.1.7", 0.5, "TR 101 290, 1.5", None, True),
    Limit("CAT", apart=None),
    Limit("NIT", 10, "TR 101 211, 4.4.1", 10, "TR 101 290, 3.1.a", is_expected=True),
    Limit("NIT other", 10, "TR 101 211, 4.4.1", 10, "TR 101 290, 3.1.b"),
    Limit("BAT", 10, "TR 101 211, 4.4.1"),
    Limit("SDT", 2, "TR 101 211, 4.4.1", 2, "TR 101 290, 3.5.a", is_expected=True),
    Limit("SDT other", 10, "TR 101 211, 4.4.1", 10, "TR 101 290, 3.5.b"),
    Limit("EIT p/f", 2, "TR 101 211, 4.4.1", 2, "TR 101 290, 3.6.a", is_expected=True),
    Limit("EIT p/f other", 10, "TR 101 211, 4.4.1", 10, "TR 101 290, 3.6.b"),
    Limit("EIT schedule, days 1 to 8", 10, "TR 101 211, 4.4.1"),
    Limit("EIT schedule, later days", 30, "TR 101 211, 4.4.1"),
    Limit("EIT schedule other, days 1 to 8", 10, "TR 101 211, 4.4.1"),
    Limit("EIT schedule other, later days", 30, "TR 101 211, 4.4.1"),
    Limit("RST"),
    Limit("TDT", 30, "TR 101 211, 4.4.1", 30, "TR 101 290, 3.8", is_expected=True),
    Limit("TOT", 30, "TR 101 211, 4.4.1"),
    Limit("other", apart=None),
]

# What is otherwise on terrestrial networks: the recommended intervals.
TERRESTRIAL: Dict[str, float] = {
    "EIT p/f other": 20, "EIT schedule other, days 1 to 8": 60, "EIT schedule other, later days": 300,
}


def limits_of(network: str) -> List[Limit]:
    """What is asked of each table on a kind of network, in the order in which they are shown."""
    return [terrestrial(limit) for limit in LIMITS] if network == "terrestrial" else LIMITS


def terrestrial(limit: Limit) -> Limit:
    by = limit.recommended_by.replace("4.4.1", "4.4.2")
    longer = TERRESTRIAL.get(limit.table)
    if longer is None:
        return replace(limit, recommended_by=by)
    return replace(limit, recommended=longer, recommended_by=by, tolerated=longer if limit.tolerated else None)


def table_of(pid: int, table_id: int) -> str:
    """The table that a section is of, by its PID and table_id (EN 300 468, 5.1.3); `other` where it is none of these."""
    if table_id == 0x02 and pid >= 0x20:
        return "PMT"
    if pid == 0x12:
        return event_table(table_id)
    fixed = {(0x00, 0x00): "PAT", (0x01, 0x01): "CAT", (0x10, 0x40): "NIT", (0x10, 0x41): "NIT other", (0x11, 0x42): "SDT",
             (0x11, 0x46): "SDT other", (0x11, 0x4A): "BAT", (0x13, 0x71): "RST", (0x14, 0x70): "TDT", (0x14, 0x73): "TOT"}
    return fixed.get((pid, table_id), "other")


def event_table(table_id: int) -> str:
    """The table of event information; those of a schedule have four days each (EN 300 468, 5.2.4)."""
    if table_id in (0x4E, 0x4F):
        return "EIT p/f" if table_id == 0x4E else "EIT p/f other"
    if not 0x50 <= table_id <= 0x6F:
        return "other"
    return f"EIT schedule{' other' if table_id >= 0x60 else ''}, {'days 1 to 8' if table_id & 0x0F < 2 else 'later days'}"
