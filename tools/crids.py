"""Content references (CRIDs): how descriptors have them (TS 102 323, clause 12), and how listings do.

A CRID is `crid://AUTHORITY/DATA` (RFC 4078). A content_identifier_descriptor leaves out `crid://`, and the authority too where a
default_authority_descriptor has it: then the identifier begins with `/`. An XMLTV listing has CRIDs as numbers of episodes, each under the
system of what it is of.
"""
from __future__ import annotations

import re
from typing import Iterable, List, NamedTuple, Optional, Sequence

from descriptor_fields import Body, Field, Hexadecimal, Names, NoDescriptor, packed

TYPE = Names({0: "untyped", 1: "item", 2: "series", 3: "recommendation"})
FIRST = (Field("type", 6, TYPE), Field("location", 2))
LENGTH = Field("length of the identifier", 8)

# What a CRID may be of, by its system in a listing: the type that is written, of the private ones of TS 102 323, and that of the standard.
SYSTEMS = {"programme_crid": (0x31, 0x01), "series_crid": (0x32, 0x02)}
CRID = re.compile("(?:crid://(?!/))?([!-.0-9;-~]*)(/[!-~]+)", re.IGNORECASE)
AUTHORITY = re.compile("(?:crid://)?([!-.0-9;-~]+)/?", re.IGNORECASE)


# ---- descriptors


class Reference(NamedTuple):
    """An entry of a content_identifier_descriptor: a type, and an identifier, or the number that stands for it in another table."""

    type: int
    identifier: str
    number: Optional[int] = None


def read_references(body: bytes) -> List[Reference]:
    """The entries of the body of a content_identifier_descriptor."""
    found: List[Reference] = []
    while body:
        kind, location, rest = body[0] >> 2, body[0] & 3, body[1:]
        size = 2 if location else 1 + (rest[0] if rest else 0)
        if location > 1 or len(rest) < size:
            raise NoDescriptor("an entry does not end in it, or is in a place that is reserved")
        number = int.from_bytes(rest[:2], "big") if location else None
        found.append(Reference(kind, "" if location else rest[1:size].decode("latin-1"), number))
        body = rest[size:]
    return found


def write_reference(reference: Reference) -> bytes:
    """The bytes of an entry."""
    by_number = reference.number is not None
    first = packed(FIRST, {"type": reference.type, "location": int(by_number)})
    if reference.number is not None:
        return first + packed([Field("reference", 16)], {"reference": reference.number})
    coded = reference.identifier.encode("latin-1", "replace")
    return first + packed([LENGTH], {LENGTH.name: len(coded)}) + coded


class Crids(Body):
    """The words of such a body: for each entry its type, and then the identifier, or the number."""

    def words(self, body: bytes) -> List[str]:
        return [self._word(reference) for reference in read_references(body)]

    def _word(self, reference: Reference) -> str:
        named = reference.identifier if reference.number is None else f"0x{reference.number:04X}"
        return f"{TYPE.word(reference.type)}:{named}"

    def body(self, words: Sequence[str]) -> bytes:
        return b"".join(write_reference(self._reference(word)) for word in words)

    def _reference(self, word: str) -> Reference:
        kind, _, named = word.partition(":")
        number = Hexadecimal(4).value(named) if named.startswith("0x") else None
        return Reference(TYPE.value(kind), "" if number is not None else named, number)


def reference_size(reference: Reference) -> int:
    """The bytes of an entry with an identifier."""
    return 2 + len(reference.identifier)


def read_authority(body: bytes) -> Optional[str]:
    """The authority in the body of a default_authority_descriptor; None where there is none."""
    found = AUTHORITY.fullmatch(body.decode("latin-1"))
    return found[1] if found else None


# ---- listings


class Crid(NamedTuple):
    """A CRID: its authority, empty where the default one is meant, and its data from the `/` on."""

    authority: str
    data: str

    def listed(self, default: str) -> str:
        """The CRID whole. Without any authority it stands as it is."""
        authority = self.authority or default
        return f"crid://{authority}{self.data}" if authority else self.data

    @property
    def identifier(self) -> str:
        """The CRID as a descriptor has it."""
        return self.authority + self.data


class Link(NamedTuple):
    """A number of an episode: its system, and a CRID."""

    system: str
    crid: str


def read_crid(text: str) -> Optional[Crid]:
    """A CRID with or without `crid://` and authority; None where it is none. It has no space, and printable characters of ASCII only."""
    found = CRID.fullmatch(text)
    return Crid(found[1], found[2]) if found else None


def links_of(references: Iterable[Reference], authority: str) -> List[Link]:
    """The links of programmes and series with this default authority, each once. Those that have another type, a number or no CRID are passed
    over."""
    systems = {kind: system for system, kinds in SYSTEMS.items() for kind in kinds}
    found: List[Link] = []
    for reference in references:
        system, crid = systems.get(reference.type), read_crid(reference.identifier)
        link = Link(system, crid.listed(authority)) if system and crid else None
        if link and link not in found:
            found.append(link)
    return found


def reference_of(link: Link) -> Optional[Reference]:
    """The entry of a link, with the private type of its system; None where the text is no CRID."""
    crid = read_crid(link.crid)
    return Reference(SYSTEMS[link.system][0], crid.identifier) if crid else None
