"""Parental ratings: the ages of listings, and the parental_rating_descriptor (EN 300 468, 6.2.28) with a country and an age less 3."""
from __future__ import annotations

import re
from typing import NamedTuple, Optional

# Words of rating systems, and the country that a rating of each is for. EN 300 468 takes the codes of ISO 3166.
COUNTRIES = {
    "fsk": "DEU", "bbfc": "GBR", "ofcom": "GBR", "csa": "FRA", "arcom": "FRA", "cnc": "FRA", "mpaa": "USA", "vchip": "USA", "tvpg": "USA",
    "kijkwijzer": "NLD", "nicam": "NLD", "icaa": "ESP", "jmk": "AUT", "ifco": "IRL", "kavi": "FIN", "acb": "AUS", "chvrs": "CAN",
    "medietilsynet": "NOR", "medieraadet": "DNK", "statensmedieråd": "SWE", "mda": "SGP",
}
# What is no number, and the least age that it stands for.
AGES = {
    "g": 0, "u": 0, "uc": 0, "al": 0, "tp": 0, "tv-g": 0, "tv-y": 0, "btl": 0, "a": 0, "tv-y7": 7, "tv-y7-fv": 7, "pg": 8, "tv-pg": 8,
    "12a": 12, "pg-13": 13, "tv-14": 14, "m": 15, "ma": 17, "ma15+": 15, "r": 17, "nc-17": 18, "tv-ma": 17, "x": 18, "r18": 18, "r18+": 18,
}
OLDEST = 21


class Rating(NamedTuple):
    """A country of three letters, and a value from 1 to 15: the least age is 3 more."""

    country: str
    value: int


def age_of(value: str) -> Optional[int]:
    """The least age that a rating says, as 'FSK 12', '16+', 'TV-14' or 'PG'; None where it says none."""
    word = " ".join(value.split()).lower()
    if word in AGES:
        return AGES[word]
    numbers = re.findall(r"\d+", word, re.ASCII)
    return int(numbers[0]) if numbers and len(numbers[0]) < 3 and int(numbers[0]) <= OLDEST else None


def country_of(system: str, default: Optional[str]) -> Optional[str]:
    """The country of a rating system: of a name known here, or one that is itself a code of three capitals; else `default`."""
    words = re.findall(r"[^\W\d_]+", system.lower())
    for word in words + ["".join(words)]:
        if word in COUNTRIES:
            return COUNTRIES[word]
    return system if re.fullmatch("[A-Z]{3}", system) else default


def rating_of(country: str, age: int) -> Optional[Rating]:
    """The rating for an age. None from 3 years down, which the descriptor has no value for; above 18 it is 18."""
    return Rating(country, min(age - 3, 15)) if age > 3 else None
