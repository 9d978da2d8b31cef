"""Codes of languages: ISO 639-1, with two letters, which XMLTV uses most, and ISO 639-2, with three, which DVB uses."""
from __future__ import annotations

import re
from typing import Optional

# ISO 639-1 and ISO 639-2/B.
PAIRS = (
    "af afr ar ara az aze be bel bg bul bs bos ca cat cs cze cy wel da dan de ger el gre en eng es spa et est eu baq fa per fi fin fo fao "
    "fr fre ga gle gd gla gl glg he heb hi hin hr hrv hu hun hy arm id ind is ice it ita ja jpn ka geo kk kaz ko kor ku kur lb ltz lt lit "
    "lv lav mk mac mt mlt nb nob nl dut nn nno no nor oc oci pl pol pt por rm roh ro rum ru rus se sme sk slo sl slv sq alb sr srp sv swe "
    "ta tam th tha tr tur uk ukr ur urd vi vie yi yid zh chi"
).split()
THREE = dict(zip(PAIRS[::2], PAIRS[1::2]))
# The codes of ISO 639-2/T that differ.
TERMINOLOGY = {
    "deu": "ger", "fra": "fre", "nld": "dut", "ces": "cze", "ell": "gre", "slk": "slo", "ron": "rum", "zho": "chi", "isl": "ice",
    "mkd": "mac", "cym": "wel", "eus": "baq", "fas": "per", "kat": "geo", "hye": "arm", "sqi": "alb",
}
TWO = {three: two for two, three in THREE.items()}


def three_letters(code: Optional[str]) -> Optional[str]:
    """The code of three letters of `de`, `de-AT`, `deu` or `ger`: the last two stay as they are. None where it is no code known here."""
    word = (code or "").strip().lower().replace("_", "-").split("-")[0]
    return word if re.fullmatch("[a-z]{3}", word) else THREE.get(word)


def same_language(one: Optional[str], other: Optional[str]) -> bool:
    """Whether two codes of three letters are of one language: `ger` and `deu` are."""
    return one is not None and other is not None and TERMINOLOGY.get(one, one) == TERMINOLOGY.get(other, other)


def listing_code(code: str) -> Optional[str]:
    """The code for a listing, with two letters where there is one; None for `und`, and for what is no code."""
    word = code.lower()
    if not re.fullmatch("[a-z]{3}", word) or word == "und":
        return None
    return TWO.get(TERMINOLOGY.get(word, word), word)
