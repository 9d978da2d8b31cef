"""Reads a recording: the packets of each PID, the PCRs, and the sections of PSI and SI with their places."""
from __future__ import annotations

from collections import defaultdict
from typing import Dict, List

from intervals.clocks import Pcr
from intervals.packets import PACKET, Bytes, Packets
from intervals.sections import Assembler, Section, programmes_of

# The PIDs of PAT, CAT, NIT, SDT and BAT, EIT, RST, TDT and TOT (EN 300 468, 5.1.3). Those of PMTs come from the PAT.
FIXED = {0x00: "PAT", 0x01: "CAT", 0x10: "NIT", 0x11: "SDT, BAT", 0x12: "EIT", 0x13: "RST", 0x14: "TDT, TOT"}
NULL = 0x1FFF


class Recording:
    """What a recording has. A place counts the bytes of its packets, 188 each, from the first packet on."""

    def __init__(self, data: Bytes) -> None:
        self.counts: Dict[int, int] = defaultdict(int)
        self.pcrs: Dict[int, List[Pcr]] = defaultdict(list)
        self.sections: List[Section] = []
        self.programmes: Dict[int, List[int]] = {}
        self.packets = 0
        self._assemblers = {pid: Assembler(pid, self._section) for pid in FIXED}
        self._read(data)

    def _read(self, data: Bytes) -> None:
        packets = Packets(data)
        self.size = packets.size
        counts, assemblers = self.counts, self._assemblers
        for at in packets.starts():
            place = self.packets * PACKET
            self.packets += 1
            pid = (data[at + 1] & 0x1F) << 8 | data[at + 2]
            counts[pid] += 1
            control = data[at + 3]
            if control & 0x20 and data[at + 4] >= 7 and data[at + 5] & 0x10:
                self._pcr(pid, data[at:at + 12], place)
            if pid in assemblers and control & 0x10:
                self._payload(assemblers[pid], bytes(data[at:at + PACKET]), place)
        self.junk = packets.junk

    def _pcr(self, pid: int, front: Bytes, place: int) -> None:
        base = int.from_bytes(front[6:10], "big") << 1 | front[10] >> 7
        self.pcrs[pid].append(Pcr(place + 10, base * 300 + ((front[10] & 1) << 8 | front[11]), bool(front[5] & 0x80)))

    @staticmethod
    def _payload(assembler: Assembler, packet: bytes, place: int) -> None:
        """Hands on the payload of a packet that is neither damaged nor scrambled."""
        if packet[1] & 0x80 or packet[3] & 0xC0:
            return
        first = 5 + packet[4] if packet[3] & 0x20 else 4
        if first < PACKET:
            assembler.take(packet[first:], place + first, bool(packet[1] & 0x40), packet[3] & 0x0F)

    def _section(self, section: Section, data: bytes) -> None:
        self.sections.append(section)
        if section.pid == 0 and section.table_id == 0:
            for program, pid in programmes_of(data):
                self.programmes.setdefault(pid, [])
                if program not in self.programmes[pid]:
                    self.programmes[pid].append(program)
                self._assemblers.setdefault(pid, Assembler(pid, self._section))

    @property
    def damaged(self) -> int:
        """How many sections were damaged or broken off."""
        return sum(assembler.damaged for assembler in self._assemblers.values())

    @property
    def breaks(self) -> int:
        """How often the continuity_counter of a PID with sections broke off."""
        return sum(assembler.breaks for assembler in self._assemblers.values())

    def pid_name(self, pid: int) -> str:
        """What a PID carries, as far as it is known."""
        if pid in self.programmes:
            return f"PMT of {', '.join(map(str, self.programmes[pid]))}"
        name = "null packets" if pid == NULL else FIXED.get(pid, "")
        return f"{name}{', ' if name and pid in self.pcrs else ''}{'PCR' if pid in self.pcrs else ''}"
