"""Texts of EN 300 468, annex A: what can be put on air, how many bytes it takes, and what coded bytes say.

docs/FORMATS.md, section 5, has how a text is coded and how coded bytes are shown: sizes are counted here as they are there. All tables of
characters are read but the private ones (0x1F) and those that are reserved.
"""
from __future__ import annotations

import re
import unicodedata
from typing import Dict, Iterator, Optional

PLAIN = re.compile(r"[A-Za-z0-9 .,:;!?'\"()\-/&%+*]*")
ELLIPSIS = "…"
PIECE = 249

# What a text on air may not have: the control codes of annex A, and what is no character of XML.
CONTROLS = re.compile("[\x00-\x1f\x7f-\x9f\ue080-\ue09f]")
HEARD_CONTROLS = re.compile("[\x00-\x09\x0b-\x1f\x7f-\x9f\ue080-\ue09f]")
NO_CHARACTERS = re.compile("[\ud800-\udfff\ufffe\uffff]")


# ---- texts that are put on air


def clean(text: Optional[str]) -> str:
    """A text in one line: composed (NFC), without control codes, and with one space where there was any white space."""
    composed = unicodedata.normalize("NFC", text or "")
    return " ".join(CONTROLS.sub(" ", NO_CHARACTERS.sub("", composed)).split())


def utf8_size(text: str) -> int:
    return len(text.encode("utf-8"))


def is_plain(text: str) -> bool:
    """Whether all characters are of the plain set."""
    return PLAIN.fullmatch(text) is not None


def coded_size(text: str) -> int:
    """The bytes of a coded text: those of the plain set stand as they are, all others are UTF-8 after the byte 0x15."""
    if is_plain(text):
        return len(text)
    return 1 + utf8_size(text)


def pieces(text: str) -> Iterator[str]:
    """The pieces of a long text: each is the longest front whose coded form has at most 249 bytes (EN 300 468, 6.2.15)."""
    while text:
        end = PIECE
        if not is_plain(text[:PIECE]):
            end = len(text[:PIECE].encode("utf-8")[: PIECE - 1].decode("utf-8", "ignore"))
        yield text[:end]
        text = text[end:]


def cut_to_utf8(text: str, limit: int) -> str:
    """The text, or a front of whole words and an ellipsis that together have at most `limit` bytes of UTF-8."""
    if utf8_size(text) <= limit:
        return text
    room = limit - utf8_size(ELLIPSIS)
    if room <= 0:
        return ""
    front = text.encode("utf-8")[:room].decode("utf-8", "ignore")
    if not text[len(front)].isspace() and " " in front[len(front) * 2 // 3 :]:
        front = front[: front.rindex(" ")]
    front = front.rstrip(" ,;:-–")
    return front + ELLIPSIS if front else ""


def cut_to_coded(text: str, limit: int) -> str:
    """The text, or a front as above whose coded form has at most `limit` bytes. An ellipsis is not of the plain set."""
    return text if coded_size(text) <= limit else cut_to_utf8(text, limit - 1)


# ---- texts that were heard

# The first byte of a text names its table (EN 300 468, annex A.2, tables A.3 and A.4); from 0x20 on there is none, and it is ISO/IEC 6937.
TABLES: Dict[int, str] = {
    0x01: "iso8859-5", 0x02: "iso8859-6", 0x03: "iso8859-7", 0x04: "iso8859-8", 0x05: "iso8859-9", 0x06: "iso8859-10", 0x07: "iso8859-11",
    0x09: "iso8859-13", 0x0A: "iso8859-14", 0x0B: "iso8859-15", 0x11: "utf-16-be", 0x12: "euc-kr", 0x13: "gb2312", 0x14: "utf-16-be",
    0x15: "utf-8",
}
# ISO/IEC 6937: a byte from 0xC1 to 0xCF is a mark on the character after it.
MARKS: Dict[int, str] = {
    0xC1: "\u0300", 0xC2: "\u0301", 0xC3: "\u0302", 0xC4: "\u0303", 0xC5: "\u0304", 0xC6: "\u0306", 0xC7: "\u0307", 0xC8: "\u0308",
    0xCA: "\u030a", 0xCB: "\u0327", 0xCD: "\u030b", 0xCE: "\u0328", 0xCF: "\u030c",
}
# The other bytes above 0x7E in order; a space stands for one that has no character. 0xA4 is the euro sign, as annex A says, and 0xE2 is the
# capital both of đ and of ð.
UPPER: Dict[int, str] = {
    byte: character
    for first, row in (
        (0xA1, "¡¢£€¥ §¤‘“«←↑→↓"),
        (0xB0, "°±²³×µ¶·÷’”»¼½¾¿"),
        (0xD0, "―¹®©™♪¬¦    ⅛⅜⅝⅞"),
        (0xE0, "ΩÆĐªĦ ĲĿŁØŒºÞŦŊŉ"),
        (0xF0, "ĸæđðħıĳŀłøœßþŧŋ\u00ad"),
    )
    for byte, character in enumerate(row, first)
    if character != " "
}
UPPER[0xA0] = "\u00a0"


def read_iso_6937(coded: bytes) -> str:
    """A text of the default table. A mark on a space stands for itself; bytes without a character are left out."""
    text = ""
    mark = ""
    for byte in coded:
        if byte in MARKS:
            mark = MARKS[byte]
            continue
        text += (chr(byte) if byte < 0xA0 else UPPER.get(byte, "")) + mark
        mark = ""
    return unicodedata.normalize("NFC", text)


def table_of(coded: bytes) -> Optional[str]:
    """The codec of a text that begins with the number of a table; None where there is none."""
    if coded[0] != 0x10:
        return TABLES.get(coded[0])
    part = int.from_bytes(coded[1:3], "big")
    return f"iso8859-{part}" if len(coded) >= 3 and 1 <= part <= 15 and part != 12 else None


def read_coded(coded: bytes) -> Optional[str]:
    """What coded bytes say, a line end for its control code and without the others; None where the table of characters is not known."""
    if not coded:
        return ""
    if coded[0] >= 0x20:
        text = read_iso_6937(coded)
    else:
        table = table_of(coded)
        if table is None:
            return None
        text = coded[3 if coded[0] == 0x10 else 1 :].decode(table, "replace")
    return NO_CHARACTERS.sub("", HEARD_CONTROLS.sub("", re.sub("[\x8a\ue08a]", "\n", text)))


def would_be_shown(coded: bytes) -> bool:
    """Whether `listen` shows these bytes as text, and not as `hex:`."""
    try:
        text = coded[1:].decode("utf-8") if coded[:1] == b"\x15" else coded.decode("ascii")
    except UnicodeDecodeError:
        return False
    return not CONTROLS.search(text) if coded[:1] == b"\x15" else is_plain(text)


def heard_text(field: str, joined: bool = False) -> str:
    """A text that `listen` printed. One that it shows as `hex:` is read by annex A where that can be done, and stays as it is where not.

    A name that itself begins with `hex:` stays as well: its digits are of bytes that would be shown. Not so in a text that is joined of
    several pieces, of which only one may be unreadable."""
    if not field.startswith("hex:"):
        return field
    try:
        coded = bytes.fromhex(field[len("hex:") :])
    except ValueError:
        return field
    if not joined and would_be_shown(coded):
        return field
    text = read_coded(coded)
    return field if text is None else text
