"""The descriptors that the tools know: one table, by which they are read and written.

The clauses are of EN 300 468 where no other standard is named. Descriptors that `listen` shows whole by other lines are left out, but for
those that may also come a second time.
"""
from __future__ import annotations

from shlex import quote
from typing import Iterable, List, NamedTuple, Optional, Sequence, Tuple

from crids import Crids, Link, Reference, links_of, read_authority, read_references, write_reference
from descriptor_fields import (
    Body, Digits, Field, Flagged, Hexadecimal, Layout, Letters, Names, NoDescriptor, Scaled, TeletextPage, ones, packed,
)

LANGUAGE = Letters(3)
CODE_RATES = Names({0: "1/2", 1: "2/3", 2: "3/4", 3: "5/6", 4: "7/8"})
INNER_RATES = Names({1: "1/2", 2: "2/3", 3: "3/4", 4: "5/6", 5: "7/8", 6: "8/9", 7: "3/5", 8: "4/5", 9: "9/10", 15: "none"})
QAM = {1: "16-QAM", 2: "32-QAM", 3: "64-QAM", 4: "128-QAM", 5: "256-QAM"}
USE = Names({0: "used", 1: "unused"})

CA = (Field("system", 16, Hexadecimal(4)), ones(3), Field("pid", 13))
SPOKEN = (
    Field("language", 24, LANGUAGE),
    Field("audio_type", 8, Names({0: "undefined", 1: "clean_effects", 2: "hearing_impaired", 3: "audio_description"}), 0),
)
SATELLITE = (
    Field("frequency", 32, Digits(5)), Field("orbital_position", 16, Digits(1)), Field("side", 1, Names({0: "west", 1: "east"}), 1),
    Field("polarization", 2, Names({0: "horizontal", 1: "vertical", 2: "left", 3: "right"})),
    Field("roll_off", 2, Names({0: "0.35", 1: "0.25", 2: "0.20"}), 0), Field("system", 1, Names({0: "DVB-S", 1: "DVB-S2"}), 0),
    Field("modulation", 2, Names({0: "auto", 1: "QPSK", 2: "8PSK", 3: "16-QAM"})), Field("symbol_rate", 28, Digits(4)),
    Field("inner", 4, INNER_RATES),
)
CABLE = (
    Field("frequency", 32, Digits(4)), ones(12), Field("outer", 4, Names({0: "undefined", 1: "none", 2: "RS"}), 2),
    Field("modulation", 8, Names(QAM)), Field("symbol_rate", 28, Digits(4)), Field("inner", 4, INNER_RATES),
)
TERRESTRIAL = (
    Field("frequency", 32, Scaled(5)), Field("bandwidth", 3, Names({0: "8MHz", 1: "7MHz", 2: "6MHz", 3: "5MHz"}), 0),
    Field("priority", 1, Names({0: "low", 1: "high"}), 1), Field("time_slicing", 1, USE, 1), Field("mpe_fec", 1, USE, 1), ones(2),
    Field("constellation", 2, Names({0: "QPSK", 1: "16-QAM", 2: "64-QAM"})), Field("hierarchy", 3, usual=0),
    Field("code_rate", 3, CODE_RATES), Field("low_code_rate", 3, CODE_RATES, 0),
    Field("guard", 2, Names({0: "1/32", 1: "1/16", 2: "1/8", 3: "1/4"})), Field("mode", 2, Names({0: "2k", 1: "8k", 2: "4k"})),
    Field("other_frequency", 1, usual=0), ones(32),
)
LINKS = {
    1: "information", 2: "EPG", 3: "CA_replacement", 4: "network_or_bouquet", 5: "service_replacement", 6: "data_broadcast", 7: "RCS_map",
    8: "mobile_hand-over", 9: "software_update", 10: "stream_with_software_update", 11: "IP/MAC_notification", 13: "event",
}
LINKAGE = (Field("stream", 16), Field("original", 16), Field("service", 16), Field("type", 8, Names(LINKS)))
COMPONENT = (
    Field("content_ext", 4, Hexadecimal(1), 15), Field("content", 4, Hexadecimal(1)), Field("type", 8, Hexadecimal(2)),
    Field("tag", 8, usual=0), Field("language", 24, LANGUAGE),
)
COMPONENT_LAYOUT = Layout(COMPONENT, rest="text")
TELETEXT = (
    Field("language", 24, LANGUAGE),
    Field("type", 5, Names({1: "initial", 2: "subtitles", 3: "additional", 4: "schedule", 5: "hearing_impaired"})),
    Field("page", 11, TeletextPage()),
)
SUBTITLING = (Field("language", 24, LANGUAGE), Field("type", 8, Hexadecimal(2)), Field("composition_page", 16), Field("ancillary_page", 16))
CHANNEL = (Field("service", 16), Field("visible", 1, Names({0: "hidden", 1: "visible"}), 1), ones(5), Field("channel", 10))
AC3 = ("component_type", "bsid", "mainid", "asvc")
ENHANCED_AC3 = (*AC3, "mixinfoexists", "substream1", "substream2", "substream3")


class Kind(NamedTuple):
    """A descriptor: its name in the standard without `_descriptor`, its tag, its clause, and its body.

    `extension` is the tag_extension of one that stands under tag 0x7F (6.2.16).
    """

    name: str
    tag: int
    clause: str
    layout: Body
    extension: Optional[int] = None


KINDS = (
    Kind("registration", 0x05, "ISO/IEC 13818-1, 2.6.8", Layout((Field("format", 32, Letters(4)),), rest="bytes")),
    Kind("CA", 0x09, "ISO/IEC 13818-1, 2.6.16", Layout(CA, rest="bytes")),
    Kind("ISO_639_language", 0x0A, "ISO/IEC 13818-1, 2.6.18", Layout(entries=SPOKEN)),
    Kind("network_name", 0x40, "6.2.27", Layout(rest="text")),
    Kind("service_list", 0x41, "6.2.35", Layout(entries=(Field("service", 16), Field("type", 8, Hexadecimal(2))))),
    Kind("satellite_delivery_system", 0x43, "6.2.13.2", Layout(SATELLITE)),
    Kind("cable_delivery_system", 0x44, "6.2.13.1", Layout(CABLE)),
    Kind("linkage", 0x4A, "6.2.19", Layout(LINKAGE, rest="bytes")),
    Kind("component", 0x50, "6.2.8", COMPONENT_LAYOUT),
    Kind("stream_identifier", 0x52, "6.2.39", Layout((Field("component_tag", 8),))),
    Kind("parental_rating", 0x55, "6.2.28", Layout(entries=(Field("country", 24, LANGUAGE), Field("rating", 8)))),
    Kind("teletext", 0x56, "6.2.43", Layout(entries=TELETEXT)),
    Kind("subtitling", 0x59, "6.2.41", Layout(entries=SUBTITLING)),
    Kind("terrestrial_delivery_system", 0x5A, "6.2.13.4", Layout(TERRESTRIAL)),
    Kind("private_data_specifier", 0x5F, "6.2.31", Layout((Field("specifier", 32, Hexadecimal(8)),))),
    Kind("data_broadcast_id", 0x66, "6.2.12", Layout((Field("id", 16, Hexadecimal(4)),), rest="bytes")),
    Kind("AC-3", 0x6A, "D.3", Flagged(AC3)),
    Kind("default_authority", 0x73, "TS 102 323, 12.2", Layout(rest="text")),
    Kind("content_identifier", 0x76, "TS 102 323, 12.1", Crids()),
    Kind("enhanced_AC-3", 0x7A, "D.5", Flagged(ENHANCED_AC3, without_byte=("mixinfoexists",))),
    Kind("T2_delivery_system", 0x7F, "6.4.6.3", Layout((Field("plp", 8), Field("system", 16)), rest="bytes"), extension=0x04),
    # private, of EACEM and of others that have the same form; private_data_specifier 0x00000028 stands before it
    Kind("logical_channel", 0x83, "private", Layout(entries=CHANNEL)),
)
NAMED = {kind.name: kind for kind in KINDS}


def kind_of(tag: int, body: bytes) -> Optional[Kind]:
    """The kind of a descriptor; None where the table does not have it."""
    extension = body[0] if tag == 0x7F and body else None
    return next((kind for kind in KINDS if kind.tag == tag and kind.extension == extension), None)


def explained(tag: int, body: bytes) -> str:
    """What a descriptor says: its name and its words, each as a shell takes it."""
    kind = kind_of(tag, body)
    if kind is None:
        return f"tag 0x{tag:02X}"
    try:
        words = kind.layout.words(body if kind.extension is None else body[1:])
    except NoDescriptor as fault:
        return f"{kind.name}: not of its form, since {fault}"
    return " ".join([kind.name, *(quote(word) for word in words)])


def written(name: str, words: Sequence[str]) -> bytes:
    """A whole descriptor: tag, length and body."""
    if name not in NAMED:
        raise NoDescriptor(f"'{name}' is none of {', '.join(NAMED)}")
    kind = NAMED[name]
    front = b"" if kind.extension is None else bytes([kind.extension])
    body = front + kind.layout.body(words)
    return whole(kind, body)


def whole(kind: Kind, body: bytes) -> bytes:
    """A descriptor with this body."""
    if len(body) > 255:
        raise NoDescriptor(f"its body has {len(body)} bytes, and at most 255 can be said")
    return bytes([kind.tag, len(body)]) + body


# ---- descriptors of other tools

TagAndBody = Tuple[int, bytes]


class Component(NamedTuple):
    """What a component_descriptor says, but for its text: stream_content, component_type, component_tag, and a language."""

    content: int
    type: int
    tag: int
    language: str


def bodies_of(name: str, descriptors: Iterable[TagAndBody]) -> List[bytes]:
    """The bodies of the descriptors of a kind."""
    return [body for tag, body in descriptors if tag == NAMED[name].tag]


def components_of(descriptors: Iterable[TagAndBody]) -> List[Component]:
    """The components of component_descriptors, with a stream_content up to 8 and the one stream_content_ext that those have. The others are
    passed over, and so is what is not of its form."""
    found = []
    for body in bodies_of("component", descriptors):
        try:
            values = {it.name: value for it, value in COMPONENT_LAYOUT.values(body)}
        except NoDescriptor:
            continue
        if values["content"] <= 8 and values["content_ext"] == 15:
            found.append(Component(values["content"], values["type"], values["tag"], LANGUAGE.word(values["language"])))
    return found


def write_component(component: Component) -> bytes:
    """A component_descriptor without a text."""
    values = {"content": component.content, "type": component.type, "tag": component.tag, "language": LANGUAGE.value(component.language)}
    return whole(NAMED["component"], packed(COMPONENT, values))


def write_references(references: Iterable[Reference]) -> bytes:
    """A content_identifier_descriptor."""
    return whole(NAMED["content_identifier"], b"".join(map(write_reference, references)))


def crid_links(descriptors: Iterable[TagAndBody], authority: str) -> List[Link]:
    """The links of programmes and series, with this default authority. A descriptor that is not of its form has none."""
    references: List[Reference] = []
    for body in bodies_of("content_identifier", descriptors):
        try:
            references += read_references(body)
        except NoDescriptor:
            continue
    return links_of(references, authority)


def default_authority(descriptors: Iterable[TagAndBody]) -> Optional[str]:
    """The first default authority."""
    found = map(read_authority, bodies_of("default_authority", descriptors))
    return next((authority for authority in found if authority), None)
