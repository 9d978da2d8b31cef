"""Measures how often the tables of a recording come, and holds that against what is asked of them."""
from __future__ import annotations

import math
from collections import defaultdict
from dataclasses import dataclass, field
from typing import Dict, List, Optional, Sequence, Set, Tuple

from intervals.clocks import Clock
from intervals.limits import APART, APART_BY, Limit, table_of
from intervals.sections import Section

# The waits of a row are counted in steps of 24 to a factor of ten.
STEPS = 24

Key = Tuple[int, ...]


@dataclass(frozen=True)
class Extreme:
    """A wait or a gap in seconds, when it began, and the section that it is of."""

    seconds: float
    at: float
    section: Section


@dataclass
class Row:
    """What was measured of a table.

    A wait is the time from the start of a section to the next start of the section with the same number of its sub-table. `silence` is the
    longest time from the last start of a section that is still in force to the end of the recording: a wait that is longer than that.
    """

    limit: Limit
    sub_tables: Set[Key] = field(default_factory=set)
    sections: int = 0
    bytes: int = 0
    waits: int = 0
    total: float = 0.0
    least: Optional[float] = None
    most: Optional[Extreme] = None
    silence: Optional[Extreme] = None
    gap: Optional[Extreme] = None
    steps: Dict[int, int] = field(default_factory=lambda: defaultdict(int))

    @property
    def mean(self) -> Optional[float]:
        return self.total / self.waits if self.waits else None

    @property
    def longest(self) -> float:
        """The longest wait that is known of, whether it came to an end or not."""
        return max(found.seconds if found else 0.0 for found in (self.most, self.silence))

    @property
    def wait_state(self) -> str:
        """`error` where a wait is longer than tolerated, `late` where it is only longer than recommended, else `good`."""
        limit = self.limit
        if limit.tolerated is not None and self.longest > limit.tolerated:
            return "error"
        return "late" if limit.recommended is not None and self.longest > limit.recommended else "good"

    @property
    def gap_state(self) -> str:
        """`error` where sections are closer than is asked, else `good`."""
        asked_for = self.limit.apart
        return "error" if asked_for is not None and self.gap is not None and self.gap.seconds < asked_for else "good"

    @property
    def errors(self) -> List[str]:
        """What of it is beyond what is tolerated, in words."""
        limit, found = self.limit, []
        if self.wait_state == "error" and limit.tolerated is not None:
            found.append(f"{limit.table} comes after {shown(self.longest)}, tolerated are {asked(limit.tolerated)} ({limit.tolerated_by})")
        if self.gap_state == "error" and self.gap is not None:
            found.append(f"{limit.table} has sections {shown(self.gap.seconds)} apart, at least {asked(APART)} is asked ({APART_BY})")
        return found

    @property
    def state(self) -> str:
        """`absent`, the worse of both states, or `once` where nothing came twice."""
        if not self.sections:
            return "absent"
        if "error" in (self.wait_state, self.gap_state):
            return "error"
        return self.wait_state if self.waits or self.wait_state == "late" else "once"

    def add_wait(self, wait: Extreme) -> None:
        self.waits += 1
        self.total += wait.seconds
        self.least = wait.seconds if self.least is None else min(self.least, wait.seconds)
        self.most = longer(self.most, wait)
        self.steps[step_of(wait.seconds)] += 1

    def add_gap(self, gap: Extreme) -> None:
        if self.gap is None or gap.seconds < self.gap.seconds:
            self.gap = gap


def longer(one: Optional[Extreme], other: Extreme) -> Extreme:
    return one if one is not None and one.seconds >= other.seconds else other


def step_of(seconds: float) -> int:
    """The step of a logarithmic scale that a wait falls in; all below a tenth of a millisecond in the same one."""
    return round(math.log10(max(seconds, 0.0001)) * STEPS)


def shown(seconds: float) -> str:
    """A time as a reader sees it: down to 0.1 ms below 10 ms."""
    if seconds < 1:
        return f"{seconds * 1000:.1f} ms" if 0 < seconds < 0.01 else f"{seconds * 1000:.0f} ms"
    return f"{seconds:.2f} s" if seconds < 10 else f"{seconds:.1f} s"


def asked(seconds: float) -> str:
    """An interval of a standard."""
    return f"{seconds * 1000:g} ms" if seconds < 1 else f"{seconds:g} s"


def sub_table_of(section: Section) -> Key:
    return (section.pid, section.table_id, *section.name)


class Measure:
    """Takes the sections of a recording in order."""

    def __init__(self, limits: Sequence[Limit], clock: Clock) -> None:
        self.rows = {limit.table: Row(limit) for limit in limits}
        self.clock = clock
        self._last: Dict[Tuple[Key, int], Section] = {}
        self._latest: Dict[Key, int] = {}
        self._ends: Dict[Key, int] = {}

    def take(self, section: Section) -> None:
        row = self.rows[table_of(section.pid, section.table_id)]
        sub_table, seconds = sub_table_of(section), self.clock.seconds
        start = seconds(section.start)
        row.sub_tables.add(sub_table)
        row.sections += 1
        row.bytes += section.end - section.start
        before = self._last.get((sub_table, section.number))
        if before is not None:
            row.add_wait(Extreme(start - seconds(before.start), seconds(before.start), section))
        near = (section.pid, section.table_id, section.extension)
        if near in self._ends:
            row.add_gap(Extreme(max(start - seconds(self._ends[near]), 0.0), seconds(self._ends[near]), section))
        self._last[sub_table, section.number] = section
        self._latest[sub_table] = section.version
        self._ends[near] = section.end

    def end(self, place: int) -> None:
        """Ends the recording here: what is in force and did not come again was silent up to here."""
        for (sub_table, _), section in self._last.items():
            if section.version == self._latest[sub_table]:
                row = self.rows[table_of(section.pid, section.table_id)]
                start = self.clock.seconds(section.start)
                row.silence = longer(row.silence, Extreme(self.clock.seconds(place) - start, start, section))


def measured(sections: Sequence[Section], limits: Sequence[Limit], clock: Clock, end: int) -> List[Row]:
    """A row for each table that was heard, or that is expected and was not. The sections are taken in the order of their starts."""
    measure = Measure(limits, clock)
    for section in sorted(sections, key=lambda section: section.start):
        measure.take(section)
    measure.end(end)
    return [row for row in measure.rows.values() if row.sections or row.limit.is_expected]
