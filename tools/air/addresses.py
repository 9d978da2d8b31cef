"""Where packets are sent to and heard from over UDP: `udp://HOST:PORT`, IPv4, one host or a multicast group."""
from __future__ import annotations

import argparse
import ipaddress
import socket
from typing import NamedTuple, Optional

from transport_packets import IN_A_DATAGRAM, SIZE

BUFFER = 1 << 21


class Address(NamedTuple):
    host: str
    port: int

    @property
    def is_multicast(self) -> bool:
        return ipaddress.IPv4Address(self.host).is_multicast


def is_udp(text: str) -> bool:
    return text.startswith("udp://")


def read_address(text: str) -> Address:
    """The address that `udp://HOST:PORT` names; a host by its name is looked up once."""
    host, _, port = text[len("udp://"):].rpartition(":")
    if not port.isdigit() or not 0 < int(port) < 65536:
        raise argparse.ArgumentTypeError(f"{text} is not udp://HOST:PORT")
    try:
        return Address(socket.gethostbyname(host.lstrip("@")), int(port))
    except OSError as fault:
        raise argparse.ArgumentTypeError(f"{text}: {fault}") from fault


def sending_socket(ttl: int, source: Optional[str]) -> socket.socket:
    """A socket that sends to one host or a group. `source` is the address of this machine to send from."""
    made = socket.socket(socket.AF_INET, socket.SOCK_DGRAM)
    made.setsockopt(socket.IPPROTO_IP, socket.IP_TTL, ttl)
    made.setsockopt(socket.IPPROTO_IP, socket.IP_MULTICAST_TTL, ttl)
    if source is not None:
        made.setsockopt(socket.IPPROTO_IP, socket.IP_MULTICAST_IF, socket.inet_aton(source))
        made.bind((source, 0))
    return made


def hearing_socket(address: Address, interface: str = "0.0.0.0") -> socket.socket:
    """A socket that hears what is sent to an address; of a group, on the interface with this address."""
    made = socket.socket(socket.AF_INET, socket.SOCK_DGRAM)
    made.setsockopt(socket.SOL_SOCKET, socket.SO_REUSEADDR, 1)
    made.setsockopt(socket.SOL_SOCKET, socket.SO_RCVBUF, BUFFER)
    made.bind((address.host, address.port))
    if address.is_multicast:
        group = socket.inet_aton(address.host) + socket.inet_aton(interface)
        made.setsockopt(socket.IPPROTO_IP, socket.IP_ADD_MEMBERSHIP, group)
    return made


DATAGRAM = IN_A_DATAGRAM * SIZE
