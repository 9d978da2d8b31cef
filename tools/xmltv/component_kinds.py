"""Kinds of components: what component_descriptors say (EN 300 468, 6.2.8, table 26 and annex D), and how a listing says it.

A listing has one picture and one sound, and any number of subtitles. Of 25 and 30 Hz, of pan vectors and of the coding it says nothing: what
is written has 25 Hz, and is AVC in high definition, and else MPEG-2.
"""
from __future__ import annotations

import re
from typing import Dict, Iterable, List, NamedTuple, Optional, Tuple

from dvb_descriptors import Component

# stream_content and component_type.
Code = Tuple[int, int]

HIGH = "HDTV"
WIDER = "2.21:1"
TELETEXT, SIGNED = "teletext", "deaf-signed"


class Video(NamedTuple):
    """A picture: its aspect, and its quality where that is high definition."""

    aspect: str
    quality: str


class Subtitles(NamedTuple):
    """Subtitles of a type of a listing, in a language of three letters."""

    type: str
    language: str


class Kinds(NamedTuple):
    """What a listing says of components."""

    video: Optional[Video]
    stereo: str
    subtitles: Tuple[Subtitles, ...]


def mpeg_video() -> Dict[Code, Video]:
    """Those of MPEG-2: four aspects each, the second with pan vectors, at 25 and 30 Hz, and the same in high definition."""
    aspects = ("4:3", "16:9", "16:9", WIDER)
    return {(1, 1 + n): Video(aspects[n % 4], HIGH if n >= 8 else "") for n in range(16)}


VIDEO = mpeg_video()
# AVC has the same codes but for pan vectors and for 4:3 in high definition; and those of two pictures in one frame.
VIDEO.update({(5, kind): VIDEO[1, kind] for kind in (1, 3, 4, 5, 7, 8, 0x0B, 0x0C, 0x0F, 0x10)})
VIDEO.update({(5, kind): Video("16:9", HIGH) for kind in range(0x80, 0x84)})
# The words of `stereo`, the one that says most last: of several components the best counts.
STEREO = ("mono", "bilingual", "stereo", "dolby", "surround", "dolby digital")
AUDIO: Dict[Code, str] = {
    (2, 0x01): "mono", (2, 0x02): "bilingual", (2, 0x03): "stereo", (2, 0x05): "surround",
    (6, 0x01): "mono", (6, 0x03): "stereo", (6, 0x05): "surround", (6, 0x43): "stereo",
}
# AC-3 and, from 0x80 on, enhanced AC-3: a full service (0x40) that is a complete main one, by its number of channels.
AC3 = ("mono", "bilingual", "stereo", "dolby", "dolby digital", "dolby digital")
AUDIO.update({(4, first + channels): word for first in (0x40, 0xC0) for channels, word in enumerate(AC3)})
# `teletext` is all that is sent beside the picture and shown on request: teletext, and DVB subtitles with those for the hard of hearing.
SUBTITLES: Dict[Code, str] = {(3, kind): TELETEXT for kind in (0x01, *range(0x10, 0x17), *range(0x20, 0x27))}
SUBTITLES.update({(3, 0x30): SIGNED, (3, 0x31): SIGNED})


def kinds_of(components: Iterable[Component]) -> Kinds:
    """What components say: the first picture, the best sound, and the subtitles, each once."""
    listed = list(components)
    codes = [(component.content, component.type) for component in listed]
    sounds = [AUDIO[code] for code in codes if code in AUDIO]
    subtitles: List[Subtitles] = []
    for code, component in zip(codes, listed):
        found = Subtitles(SUBTITLES.get(code, ""), component.language.lower())
        if found.type and found not in subtitles:
            subtitles.append(found)
    return Kinds(next((VIDEO[code] for code in codes if code in VIDEO), None), max(sounds, key=STEREO.index, default=""), tuple(subtitles))


# ---- words of listings

VIDEO_CODES: Dict[Video, Code] = {
    Video("4:3", ""): (1, 1), Video("16:9", ""): (1, 3), Video(WIDER, ""): (1, 4), Video("4:3", HIGH): (1, 9), Video("16:9", HIGH): (5, 0x0B),
    Video(WIDER, HIGH): (5, 0x0C),
}
AUDIO_CODES: Dict[str, Code] = {
    "mono": (2, 1), "bilingual": (2, 2), "stereo": (2, 3), "surround": (2, 5), "dolby": (4, 0x43), "dolby digital": (4, 0x44),
}
# Subtitles without a type are DVB subtitles. `onscreen` is a part of the picture, and no component.
SUBTITLES_CODES: Dict[str, Code] = {TELETEXT: (3, 1), "": (3, 0x10), SIGNED: (3, 0x30)}
RATIO = re.compile(r"(\d{1,4}(?:\.\d{1,4})?)\s*[:x/]\s*(\d{1,4}(?:\.\d{1,4})?)", re.ASCII)
LINES = re.compile(r"(?:\d{1,5}\s*x\s*)?(\d{3,4})", re.ASCII)
# The tags of components: the same one has the same tag in each event.
VIDEO_TAG, AUDIO_TAG, FIRST_SUBTITLES_TAG = 1, 2, 3


def is_high(quality: str) -> bool:
    """Whether a quality is high definition: by its name, or by 720 lines or more."""
    lines = LINES.search(quality)
    return re.search("hd|4k|8k", quality.lower()) is not None or lines is not None and int(lines[1]) >= 720


def aspect_of(text: str) -> Optional[str]:
    """The aspect that a ratio is, as `16:9` or `2.35:1`; None for one that the descriptor has not."""
    found = RATIO.fullmatch(text)
    ratio = float(found[1]) / float(found[2]) if found and float(found[2]) else 0
    for aspect, value in (("4:3", 4 / 3), ("16:9", 16 / 9)):
        if abs(ratio - value) < 0.02:
            return aspect
    return WIDER if ratio > 16 / 9 else None


def video_code(aspect: str, quality: str) -> Optional[Code]:
    """The code of a picture. One of high definition without an aspect has 16:9."""
    found = aspect_of(aspect) if aspect else "16:9" if is_high(quality) else None
    return VIDEO_CODES[Video(found, HIGH if is_high(quality) else "")] if found else None


def audio_code(stereo: str) -> Optional[Code]:
    return AUDIO_CODES.get(stereo.lower())


def subtitles_code(kind: str) -> Optional[Code]:
    return SUBTITLES_CODES.get(kind.lower())
