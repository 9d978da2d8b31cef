"""Reads a listing of XMLTV piece by piece: each element below its root, with its line. Plain or gzip.

What is no such listing is an error that names the line: broken XML, a root that is not `tv`, gzip data that are cut or damaged. A document
that declares an entity is refused, since a few of them can stand for gigabytes of text; no listing needs them. Nothing is loaded from
elsewhere, no DTD either.
"""
from __future__ import annotations

import gzip
import zlib
from typing import BinaryIO, Callable, Dict, Iterator, List, NamedTuple, Optional
from xml.etree.ElementTree import Element, TreeBuilder
from xml.parsers import expat

CHUNK = 1 << 16
GZIP = b"\x1f\x8b"


class ListingsError(Exception):
    """A file that can't be read as what it should be; the message names the file, and the line where there is one."""


class Numbered(NamedTuple):
    """An element, and the line in which it begins, from 1."""

    line: int
    element: Element


class Refused(Exception):
    """What is XML, and yet no listing."""


class ElementParser:
    """Takes bytes of a document, and keeps the elements below the root that have ended."""

    def __init__(self) -> None:
        self.ended: List[Numbered] = []
        self._parser = expat.ParserCreate()
        self._parser.buffer_text = True
        self._parser.StartElementHandler = self._start
        self._parser.EndElementHandler = self._end
        self._parser.CharacterDataHandler = self._data
        self._parser.EntityDeclHandler = self._declares
        self._parser.SkippedEntityHandler = self._skipped
        self._depth = 0
        self._line = 0
        self._builder: Optional[TreeBuilder] = None

    @property
    def line(self) -> int:
        return self._parser.CurrentLineNumber

    def feed(self, data: bytes) -> None:
        """Takes further bytes; no bytes are the end of the document."""
        self._parser.Parse(data, not data)

    def _start(self, tag: str, attributes: Dict[str, str]) -> None:
        if self._depth == 0 and tag != "tv":
            raise Refused(f"the root element is '{tag}', and not 'tv'")
        if self._depth == 1:
            self._builder = TreeBuilder()
            self._line = self.line
        if self._builder is not None:
            self._builder.start(tag, attributes)
        self._depth += 1

    def _end(self, tag: str) -> None:
        self._depth -= 1
        if self._builder is None:
            return
        self._builder.end(tag)
        if self._depth == 1:
            self.ended.append(Numbered(self._line, self._builder.close()))
            self._builder = None

    def _data(self, text: str) -> None:
        if self._builder is not None:
            self._builder.data(text)

    def _declares(self, name: str, *_: object) -> None:
        raise Refused(f"declares the entity '{name}': a listing with entities of its own is refused")

    def _skipped(self, name: str, is_parameter: bool) -> None:
        if not is_parameter:
            raise Refused(f"undefined entity '&{name};'")


def read_elements(source: BinaryIO, name: str, took: Callable[[int], None]) -> Iterator[Numbered]:
    """The elements below the root of a document. `took` is called with the number of bytes that were read further."""
    parser = ElementParser()
    while True:
        chunk = read_chunk(source, name, parser)
        try:
            parser.feed(chunk)
        except expat.ExpatError as error:
            raise ListingsError(f"{name}: line {error.lineno}: {expat.ErrorString(error.code)}") from None
        except (Refused, ValueError, LookupError) as error:
            raise ListingsError(f"{name}: line {parser.line}: {error}") from None
        took(len(chunk))
        yield from parser.ended
        parser.ended.clear()
        if not chunk:
            return


def read_chunk(source: BinaryIO, name: str, parser: ElementParser) -> bytes:
    try:
        return source.read(CHUNK)
    except EOFError:
        raise ListingsError(f"{name}: line {parser.line}: the gzip data end too early") from None
    except (gzip.BadGzipFile, zlib.error) as error:
        raise ListingsError(f"{name}: line {parser.line}: damaged gzip data: {error}") from None
    except OSError as error:
        raise ListingsError(f"{name}: line {parser.line}: {error.strerror or error}") from None


def unpacked(source: BinaryIO) -> BinaryIO:
    """A source, unpacked where it begins as gzip data do."""
    peek = getattr(source, "peek", None)
    if peek is not None and peek(len(GZIP))[: len(GZIP)] == GZIP:
        return gzip.GzipFile(fileobj=source)  # type: ignore[return-value]
    return source
