"""The bodies of descriptors as words: how fields, entries and what follows them are read and written.

A body has fields that stand once, as `orbital_position=19.2`, and entries that repeat, as `deu:initial:100`, with the parts of an entry
between colons. A field with a usual value is written only where it has another one. Numbers are decimal, those after `0x` in hexadecimal
digits. Reserved bits are written with their usual value, and are passed over where they are read. Clauses are of EN 300 468.
"""
from __future__ import annotations

import re
from dataclasses import dataclass
from decimal import Decimal
from typing import Dict, Iterable, Iterator, List, NamedTuple, Optional, Sequence, Tuple

from dvb_text import is_plain, read_coded


class NoDescriptor(Exception):
    """Why words are no descriptor, or bytes do not have the form of theirs."""


# ---- values


class Code:
    """How a number of so many bits is written: here as a decimal number."""

    def word(self, value: int) -> str:
        return str(value)

    def value(self, word: str) -> int:
        if not re.fullmatch("[0-9]+", word):
            raise NoDescriptor(f"'{word}' is no decimal number")
        return int(word)


class Hexadecimal(Code):
    """After `0x`, with all digits."""

    def __init__(self, digits: int) -> None:
        self.digits = digits

    def word(self, value: int) -> str:
        return f"0x{value:0{self.digits}X}"

    def value(self, word: str) -> int:
        if not re.fullmatch("0[xX][0-9A-Fa-f]+", word):
            raise NoDescriptor(f"'{word}' is no number after 0x")
        return int(word, 16)


class Letters(Code):
    """Characters of ISO/IEC 8859-1, a byte each, such as a language or a country; after `0x` where one of them is no letter or digit."""

    def __init__(self, count: int) -> None:
        self.count = count

    def word(self, value: int) -> str:
        text = value.to_bytes(self.count, "big").decode("latin-1")
        return text if re.fullmatch("[A-Za-z0-9]+", text) else f"0x{value:0{2 * self.count}X}"

    def value(self, word: str) -> int:
        if re.fullmatch(f"0x[0-9A-Fa-f]{{{2 * self.count}}}", word):
            return int(word, 16)
        if not re.fullmatch(f"[A-Za-z0-9]{{{self.count}}}", word):
            raise NoDescriptor(f"'{word}' is not {self.count} letters or digits")
        return int.from_bytes(word.encode("latin-1"), "big")


class Names(Code):
    """The name of a value; of one that has no name, the number after `0x`."""

    def __init__(self, names: Dict[int, str]) -> None:
        self.names = names
        self.values = {name: value for value, name in names.items()}

    def word(self, value: int) -> str:
        return self.names.get(value, f"0x{value:02X}")

    def value(self, word: str) -> int:
        if word in self.values:
            return self.values[word]
        if not re.fullmatch("0[xX][0-9A-Fa-f]+", word):
            raise NoDescriptor(f"'{word}' is none of {', '.join(self.values)}, and no number after 0x")
        return int(word, 16)


class Scaled(Code):
    """A number with so many decimals, of which the last zeros are left out."""

    def __init__(self, decimals: int) -> None:
        self.decimals = decimals

    def word(self, value: int) -> str:
        text = str(Decimal(value).scaleb(-self.decimals).quantize(Decimal(1).scaleb(-self.decimals)))
        return text.rstrip("0").rstrip(".") if "." in text else text

    def value(self, word: str) -> int:
        if not re.fullmatch(f"[0-9]{{1,20}}([.][0-9]{{0,{self.decimals}}})?", word):
            raise NoDescriptor(f"'{word}' is no number with at most {self.decimals} decimals")
        return int(Decimal(word).scaleb(self.decimals))


class Digits(Scaled):
    """The same in decimal digits of four bits each (annex C)."""

    def word(self, value: int) -> str:
        text = f"{value:X}"
        if not text.isdigit():
            raise NoDescriptor(f"0x{text} has a digit above 9")
        return super().word(int(text))

    def value(self, word: str) -> int:
        return int(str(super().value(word)), 16)


class TeletextPage(Code):
    """A page as 100 or 8FF: the magazine, in which 8 is coded as 0, and the page in hexadecimal digits (6.2.43)."""

    def word(self, value: int) -> str:
        return f"{value >> 8 or 8}{value & 0xFF:02X}"

    def value(self, word: str) -> int:
        if not re.fullmatch("[1-8][0-9A-Fa-f]{2}", word):
            raise NoDescriptor(f"'{word}' is no page from 100 to 8FF")
        return int(word[0]) % 8 << 8 | int(word[1:], 16)


DECIMAL = Code()
LANGUAGE = Letters(3)


# ---- layouts


class Field(NamedTuple):
    """A field of so many bits; reserved bits have no name, and `usual` is the value that they are written with."""

    name: str
    bits: int
    code: Code = DECIMAL
    usual: Optional[int] = None


def ones(bits: int) -> Field:
    """Reserved bits."""
    return Field("", bits, usual=(1 << bits) - 1)


def bits_of(fields: Sequence[Field]) -> int:
    return sum(it.bits for it in fields)


def unpacked(fields: Sequence[Field], taken: bytes) -> List[Tuple[Field, int]]:
    """The values of fields, but for reserved bits."""
    number, left = int.from_bytes(taken, "big"), 8 * len(taken)
    found = []
    for it in fields:
        left -= it.bits
        if it.name:
            found.append((it, number >> left & (1 << it.bits) - 1))
    return found


def packed(fields: Sequence[Field], values: Dict[str, int]) -> bytes:
    """The bytes of fields with these values, and the usual ones of the others."""
    number = 0
    for it in fields:
        value = values.get(it.name, it.usual) if it.name else it.usual
        if value is None:
            raise NoDescriptor(f"{it.name} is missing")
        if value >= 1 << it.bits:
            raise NoDescriptor(f"{it.code.word(value)} is too much for {it.name}")
        number = number << it.bits | value
    return number.to_bytes(bits_of(fields) // 8, "big")


class Body:
    """A body of a descriptor: its words, and the bytes of words."""

    def words(self, body: bytes) -> List[str]:
        raise NotImplementedError

    def body(self, words: Sequence[str]) -> bytes:
        raise NotImplementedError


@dataclass(frozen=True)
class Layout(Body):
    """Fields, and then entries or what `rest` says, `text` or `bytes`."""

    fields: Sequence[Field] = ()
    entries: Sequence[Field] = ()
    rest: str = ""

    def words(self, body: bytes) -> List[str]:
        """The words of a body."""
        fields = [f"{it.name}={it.code.word(value)}" for it, value in self.values(body) if value != it.usual]
        return [*fields, *self._entry_words(body[bits_of(self.fields) // 8 :])]

    def values(self, body: bytes) -> List[Tuple[Field, int]]:
        """The values of the fields of a body, but for reserved bits."""
        front = bits_of(self.fields) // 8
        if len(body) < front:
            raise NoDescriptor(f"its body has {len(body)} bytes, and its fields {front}")
        return unpacked(self.fields, body[:front])

    def _entry_words(self, rest: bytes) -> Iterator[str]:
        size = bits_of(self.entries) // 8
        if not self.entries:
            yield from self._rest_words(rest)
            return
        if len(rest) % size:
            raise NoDescriptor(f"its entries have {len(rest)} bytes, which is no multiple of {size}")
        for at in range(0, len(rest), size):
            yield entry_word(unpacked(self.entries, rest[at : at + size]))

    def _rest_words(self, rest: bytes) -> Iterator[str]:
        if not rest:
            return
        text = read_coded(rest) if self.rest == "text" else None
        if text is not None and coded_text(text) == rest:
            yield f"text={text}"
        elif self.rest:
            yield f"bytes=0x{rest.hex().upper()}"
        else:
            raise NoDescriptor(f"its body has {len(rest)} bytes more than its fields")

    def body(self, words: Sequence[str]) -> bytes:
        """The body of words."""
        named = named_words(word for word in words if "=" in word)
        rest = self._rest_body(named)
        known = {it.name: it for it in self.fields if it.name}
        for name in named:
            if name not in known:
                raise NoDescriptor(f"there is no field {name}")
        front = packed(self.fields, {name: known[name].code.value(word) for name, word in named.items()})
        entries = [word for word in words if "=" not in word]
        if entries and not self.entries:
            raise NoDescriptor(f"'{entries[0]}' is no field")
        return front + b"".join(entry_bytes(self.entries, word) for word in entries) + rest

    def _rest_body(self, named: Dict[str, str]) -> bytes:
        """Takes what follows the fields out of the words with names."""
        if self.rest and "bytes" in named:
            return bytes_of(named.pop("bytes"))
        if self.rest == "text" and "text" in named:
            return coded_text(named.pop("text"))
        return b""


def coded_text(text: str) -> bytes:
    """A text as it is put on air: one of the plain set as it stands, another in UTF-8 after 0x15 (annex A.2)."""
    return text.encode() if is_plain(text) else b"\x15" + text.encode()


def named_words(words: Iterable[str]) -> Dict[str, str]:
    """The values of words `NAME=VALUE`."""
    named: Dict[str, str] = {}
    for word in words:
        name, found, value = word.partition("=")
        if not found:
            raise NoDescriptor(f"'{word}' is no field")
        if name in named:
            raise NoDescriptor(f"there are two fields {name}")
        named[name] = value
    return named


def bytes_of(word: str) -> bytes:
    if not re.fullmatch("0[xX]([0-9A-Fa-f]{2})+", word):
        raise NoDescriptor(f"'{word}' is not pairs of digits after 0x")
    return bytes.fromhex(word[2:])


def in_order(fields: Sequence[Field]) -> List[Field]:
    """The fields of an entry in the order of its word: those that are always written, and then the others."""
    named = [it for it in fields if it.name]
    return [it for it in named if it.usual is None] + [it for it in named if it.usual is not None]


def entry_word(values: List[Tuple[Field, int]]) -> str:
    """The word of an entry, without the last fields that have their usual values."""
    found = {it.name: value for it, value in values}
    parts = in_order([it for it, _ in values])
    while parts and parts[-1].usual is not None and found[parts[-1].name] == parts[-1].usual:
        parts.pop()
    return ":".join(it.code.word(found[it.name]) for it in parts)


def entry_bytes(fields: Sequence[Field], word: str) -> bytes:
    """The bytes of an entry."""
    parts, words = in_order(fields), word.split(":")
    if len(words) > len(parts):
        raise NoDescriptor(f"'{word}' has {len(words)} parts, and an entry at most {len(parts)}")
    return packed(fields, {it.name: it.code.value(part) for it, part in zip(parts, words)})


@dataclass(frozen=True)
class Flagged(Body):
    """A byte of flags, and then a byte for each of them that is set, but for those without one; and what follows, as bytes."""

    flags: Sequence[str]
    without_byte: Sequence[str] = ()

    def words(self, body: bytes) -> List[str]:
        if not body:
            raise NoDescriptor("its body is empty")
        found, at = [], 1
        for place, name in enumerate(self.flags):
            if not body[0] & 0x80 >> place:
                continue
            if name in self.without_byte:
                found.append(f"{name}=1")
                continue
            if at == len(body):
                raise NoDescriptor(f"its body has {len(body)} bytes, and no one for {name}")
            found.append(f"{name}=0x{body[at]:02X}")
            at += 1
        return found + ([f"bytes=0x{body[at:].hex().upper()}"] if body[at:] else [])

    def body(self, words: Sequence[str]) -> bytes:
        named = named_words(words)
        rest = bytes_of(named.pop("bytes")) if "bytes" in named else b""
        unknown = [name for name in named if name not in self.flags]
        if unknown:
            raise NoDescriptor(f"there is no field {unknown[0]}")
        first = sum(0x80 >> place for place, name in enumerate(self.flags) if name in named)
        valued = [name for name in self.flags if name in named and name not in self.without_byte]
        values = [packed([Field(name, 8)], {name: Hexadecimal(2).value(named[name])}) for name in valued]
        return bytes([first]) + b"".join(values) + rest
