"""Categories of listings, and the genres of the content_descriptor (EN 300 468, 6.2.9): two levels of 0 to 15."""
from __future__ import annotations

import csv
import re
from functools import lru_cache
from pathlib import Path
from typing import Dict, List, NamedTuple, Optional

import genres

TABLE = Path(__file__).resolve().parent / "categories.csv"
LEVELS = re.compile(r"(?:genre |dvb:)?(\d{1,2})\.(\d{1,2})", re.ASCII)
# A word may have one of these endings, as `Krimiserie` and `Quizshow` have.
ENDINGS = r"(?:s|e|en|er|n|es|film|filme|serie|series|show|magazin|sendung|programme|program)?"


class Levels(NamedTuple):
    level_1: int
    level_2: int


def plain_words(text: str) -> str:
    """A category in small letters, with a space for each hyphen."""
    return " ".join(re.sub(r"[-_]", " ", text.lower()).split())


@lru_cache(maxsize=None)
def words() -> Dict[str, Levels]:
    """The words of all languages of the table. The first line that has a word counts."""
    found: Dict[str, Levels] = {}
    with open(TABLE, encoding="utf-8", newline="") as table:
        for row in csv.DictReader(line for line in table if not line.startswith("#")):
            level_1, level_2 = map(int, (row.pop("genre") or "").split("."))
            for cell in row.values():
                for word in cell.split(";"):
                    if word.strip():
                        found.setdefault(plain_words(word), Levels(level_1, level_2))
    return found


@lru_cache(maxsize=None)
def names() -> Dict[str, Levels]:
    """The names that DVB gives to genres, as `to_xmltv` writes them."""
    return {name.lower(): Levels(level_1, level_2) for level_1, group in genres.NAMES.items() for level_2, name in enumerate(group)}


@lru_cache(maxsize=None)
def patterns() -> List["tuple[re.Pattern[str], Levels]"]:
    """The words as they are looked for within a category: the longest first."""
    ordered = sorted(words().items(), key=lambda item: (-len(item[0]), item[0]))
    return [(re.compile(rf"(?<!\w){re.escape(word)}{ENDINGS}(?!\w)"), levels) for word, levels in ordered]


@lru_cache(maxsize=4096)
def genre_of(category: str) -> Optional[Levels]:
    """The genre of a category: two levels as `4.3`, a name of DVB, a word of the table, or the longest word that stands in it."""
    levels = LEVELS.fullmatch(category.strip().lower())
    if levels:
        return Levels(int(levels[1]), int(levels[2])) if max(int(levels[1]), int(levels[2])) < 16 else None
    name = " ".join(category.lower().split())
    if name in names():
        return names()[name]
    plain = plain_words(category)
    if plain in words():
        return words()[plain]
    return next((levels for pattern, levels in patterns() if pattern.search(plain)), None)
