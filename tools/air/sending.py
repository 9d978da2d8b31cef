"""Sending packets at a rate, to UDP, a file or standard output."""
from __future__ import annotations

import logging
import sys
import time
from collections import deque
from pathlib import Path
from typing import BinaryIO, Callable, Deque, List, Optional

from addresses import is_udp, read_address, sending_socket
from transport_packets import BITS, IN_A_DATAGRAM, NULL, SIZE, split

LOG = logging.getLogger("on_air")
# A sender that is later than this gives the time up.
MOST_LATE = 1.0

Put = Callable[[bytes], None]


class Datagrams:
    """Sends to one host or a group. Where the network takes nothing, it says so once and goes on."""

    def __init__(self, output: str, ttl: int, source: Optional[str]) -> None:
        self._address = read_address(output)
        self._socket = sending_socket(ttl, source)
        self._is_down = False

    def put(self, data: bytes) -> None:
        try:
            self._socket.sendto(data, self._address)
        except OSError as fault:
            if not self._is_down:
                LOG.error("output: %s; packets are lost until it is mended", fault)
            self._is_down = True
            return
        if self._is_down:
            LOG.info("output: packets are sent again")
        self._is_down = False


class Stream:
    """Writes to a file, after what it has, or to standard output."""

    def __init__(self, output: str) -> None:
        self._target: BinaryIO = sys.stdout.buffer if output == "-" else open(Path(output), "ab")

    def put(self, data: bytes) -> None:
        self._target.write(data)
        self._target.flush()


def output_to(output: str, ttl: int, source: Optional[str]) -> Put:
    return Datagrams(output, ttl, source).put if is_udp(output) else Stream(output).put


class Waiting:
    """The packets that wait to be sent."""

    def __init__(self, rate: float) -> None:
        self._packets: Deque[bytes] = deque()
        self._rate = rate

    def __len__(self) -> int:
        return len(self._packets)

    @property
    def seconds(self) -> float:
        """How long they take."""
        return len(self._packets) * BITS / self._rate

    def add(self, data: bytes) -> int:
        """Adds packets at the end. How many."""
        self._packets.extend(split(data))
        return len(data) // SIZE

    def take(self, most: int) -> List[bytes]:
        return [self._packets.popleft() for _ in range(min(most, len(self._packets)))]


class Sender:
    """Sends seven packets each time they are due, null packets where none wait."""

    def __init__(self, put: Put, waiting: Waiting, rate: float,
                 clock: Callable[[], float] = time.monotonic, sleep: Callable[[float], None] = time.sleep) -> None:
        self.packets = self.nulls = 0
        self.late = 0.0
        self.given_up = 0.0
        self._put = put
        self._waiting = waiting
        self._gap = IN_A_DATAGRAM * BITS / rate
        self._clock = clock
        self._sleep = sleep

    def run(self, has_ended: Callable[[], bool]) -> None:
        """Sends until it has ended and no packet waits."""
        due = self._clock()
        while not has_ended() or self._waiting:
            self._send()
            due += self._gap
            due = self._wait_until(due)

    def latest(self) -> float:
        """By how many seconds a datagram was late since this was asked last."""
        late, self.late = self.late, 0.0
        return late

    def _send(self) -> None:
        packets = self._waiting.take(IN_A_DATAGRAM)
        empty = IN_A_DATAGRAM - len(packets)
        self._put(b"".join(packets) + NULL * empty)
        self.packets += IN_A_DATAGRAM
        self.nulls += empty

    def _wait_until(self, due: float) -> float:
        """Waits for the moment, where it is still to come. The moment, or now where it is long past."""
        wait = due - self._clock()
        if wait > 0:
            self._sleep(wait)
            return due
        self.late = max(self.late, -wait)
        if wait >= -MOST_LATE:
            return due
        LOG.warning("sending is %.1f s late; they are given up", -wait)
        self.given_up -= wait
        return due - wait
