"""What the tools know of this repository: where it is, its crates and rooms, and the blocks of its documents."""
from __future__ import annotations

import re
from pathlib import Path
from typing import Dict, Iterable, Iterator, List, NamedTuple, Set

TOP = Path(__file__).resolve().parent.parent
ROOM = re.compile(r"# ---- (\w+): (.+)")

Crates = Dict[str, List[str]]


class Crate(NamedTuple):
    """A crate of crates.txt: its name, its room, and what it may stand on."""

    name: str
    room: str
    below: List[str]


class Listing(NamedTuple):
    """What crates.txt says: what each room is, in order, and the crates in order."""

    rooms: Dict[str, str]
    crates: List[Crate]


class Block(NamedTuple):
    """A fenced block of a document: the line of its fence (from 1), the word after the fence, and its lines."""

    line: int
    language: str
    lines: List[str]


def read_listing(text: str) -> Listing:
    """The rooms and crates of the text of a crates.txt. A crate before the first room has the room ''."""
    listing, room = Listing({}, []), ""
    for line in text.splitlines():
        found = ROOM.fullmatch(line.strip())
        if found:
            room = found.group(1)
            listing.rooms[room] = found.group(2)
        head, colon, below = line.split("#")[0].partition(":")
        if colon and head.split():
            listing.crates.append(Crate(head.split()[0], room, below.split()))
    return listing


def read_crates(top: Path = TOP) -> Crates:
    """The crates of crates.txt in order, each with the crates that it may stand on."""
    listing = read_listing((top / "crates.txt").read_text(encoding="utf-8"))
    return {crate.name: crate.below for crate in listing.crates}


def crates_below(names: Iterable[str], crates: Crates) -> Set[str]:
    """These names, and all that they stand on, whether crates.txt has a line for it or not."""
    found: Set[str] = set()
    todo = list(names)
    while todo:
        name = todo.pop()
        if name not in found:
            found.add(name)
            todo += crates.get(name, [])
    return found


def blocks_of(text: str) -> Iterator[Block]:
    """The fenced blocks of a document, in order."""
    block = None
    for number, line in enumerate(text.splitlines(), 1):
        if block is None:
            if line.startswith("```"):
                block = Block(number, line[3:].strip(), [])
        elif line.startswith("```"):
            yield block
            block = None
        else:
            block.lines.append(line)
