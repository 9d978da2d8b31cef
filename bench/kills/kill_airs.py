"""What is looked at in the reports and airs of killed runs."""
from __future__ import annotations

import sys
from pathlib import Path
from typing import Dict, Iterable, List, NamedTuple, Set, Tuple

TOOLS = Path(__file__).resolve().parent.parent.parent / "tools"
sys.path[:0] = [str(TOOLS / "air"), str(TOOLS / "intervals")]

from journal import whole_entries  # noqa: E402
from sections import Assembler, Section  # noqa: E402
from transport_packets import NULL_PID, SIZE, counter_of, has_payload, pid_of, split  # noqa: E402

NUMBERED = b"# line "
Contents = Dict[Tuple[object, ...], Set[bytes]]


class Report(NamedTuple):
    """The report of a killed run: its whole entries, each with its comments taken away, and what comes after them."""

    text: bytes
    entries: List[bytes]
    rest: bytes


def entries_of(text: bytes) -> List[bytes]:
    """The entries of a text that ends with an outcome line."""
    found: List[bytes] = []
    lines: List[bytes] = []
    for line in text.splitlines(keepends=True):
        if not line.startswith(b"#"):
            lines.append(line)
        if line.startswith(b"="):
            found.append(b"".join(lines))
            lines = []
    return found


def without_comments(text: bytes) -> bytes:
    """What is left without the lines of comments at the front. A last line that may become one is none of an entry."""
    while text.startswith(NUMBERED[:1]):
        text = text.partition(b"\n")[2]
    return text


def report_of(text: bytes) -> Report:
    whole = whole_entries(text)
    return Report(whole, entries_of(whole), without_comments(text[len(whole):]))


def is_swap(entry: bytes) -> bool:
    """Whether an entry is that of a swap."""
    return entry.partition(b"\n")[0].endswith(b",swap")


def payload_at(packet: bytes) -> int:
    """Where the payload of a packet begins (ISO/IEC 13818-1, 2.4.3.4)."""
    return 5 + packet[4] if packet[3] & 0x20 else 4


class Heard:
    """The contents of all sections of an air, by what they are and by version_number; and where counters do not go on."""

    def __init__(self) -> None:
        self.contents: Contents = {}
        self.breaks: List[Tuple[int, int]] = []
        self.packets = 0
        self._last: Dict[int, int] = {}
        self._open: Dict[int, Assembler] = {}

    def take(self, air: bytes) -> None:
        """Hears the whole packets of a run. What is left at the end, of a packet or a section that a kill has cut, is passed over."""
        self._open = {}
        for packet in split(air):
            pid = pid_of(packet)
            if has_payload(packet) and pid != NULL_PID:
                self._count(pid, counter_of(packet))
                at = payload_at(packet)
                assembler = self._open.setdefault(pid, Assembler(pid, self._keep))
                assembler.take(packet[at:], self.packets * SIZE + at, bool(packet[1] & 0x40), counter_of(packet))
            self.packets += 1

    def doubled(self) -> List[Tuple[object, ...]]:
        """The sections that had two contents with one version_number."""
        return [key for key, contents in self.contents.items() if len(contents) > 1]

    def _count(self, pid: int, counter: int) -> None:
        if pid in self._last and counter != (self._last[pid] + 1) & 15:
            self.breaks.append((self.packets, pid))
        self._last[pid] = counter

    def _keep(self, section: Section, data: bytes) -> None:
        if data[1] & 0x80:
            key = (section.pid, section.table_id, section.name, section.number, section.version)
            self.contents.setdefault(key, set()).add(data)


def breaks_elsewhere(breaks: Iterable[Tuple[int, int]], joints: List[int]) -> List[Tuple[int, int]]:
    """The breaks that are not the first of their PID after a joint; joints are numbers of packets, ascending."""
    seen: Set[Tuple[int, int]] = set()
    found = []
    for number, pid in breaks:
        after = sum(joint <= number for joint in joints)
        if after == 0 or (after, pid) in seen:
            found.append((number, pid))
        seen.add((after, pid))
    return found


def guide_of(report: str) -> List[str]:
    """The guide in a report of `listen`: without the lines of completions and of what was passed over."""
    return [line for line in report.splitlines() if line.split("\t")[0] not in ("done", "junk", "lost")]
