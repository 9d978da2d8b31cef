"""What was done with which programme: counts by kind, and a line for each one where that is asked for."""
from __future__ import annotations

import sys
from collections import Counter
from typing import Dict, Iterator, Optional, TextIO, Tuple

CHANGED = "changed"
LEFT_OUT = "left out"
# What words are called that were not understood.
CATEGORIES, RATINGS = "categories without a genre", "ratings without an age or a country"
KINDS, LINKS = "kinds of components without a code", "links that are no CRIDs"


class Tally:
    """Counts what was changed and left out. With `explain` each one is printed as it comes."""

    def __init__(self, explain: bool = False, out: Optional[TextIO] = None) -> None:
        self._explain = explain
        self._out = out or sys.stderr
        self._counts: "Counter[Tuple[str, str]]" = Counter()
        self._words: Dict[str, "Counter[str]"] = {title: Counter() for title in (CATEGORIES, RATINGS, KINDS, LINKS)}

    def changed(self, how: str, what: str) -> None:
        self._count(CHANGED, how, what)

    def left_out(self, why: str, what: str) -> None:
        self._count(LEFT_OUT, why, what)

    def no_genre(self, category: str, where: str) -> None:
        self._not_understood(CATEGORIES, category, f"{where}: {CHANGED}: no genre for the category '{category}'")

    def no_rating(self, rating: str, where: str) -> None:
        self._not_understood(RATINGS, rating, f"{where}: {CHANGED}: no age or no country in the rating '{rating}'")

    def no_kind(self, kind: str, where: str) -> None:
        self._not_understood(KINDS, kind, f"{where}: {CHANGED}: no code for '{kind}'")

    def no_link(self, link: str, where: str) -> None:
        self._not_understood(LINKS, link, f"{where}: {CHANGED}: no CRID in '{link}'")

    def count(self, kind: str, how: str) -> int:
        """How often something was changed or left out in this way."""
        return self._counts[kind, how]

    def _not_understood(self, title: str, word: str, line: str) -> None:
        self._words[title][word] += 1
        self._name(line)

    def _count(self, kind: str, how: str, what: str) -> None:
        self._counts[kind, how] += 1
        self._name(f"{what}: {kind}: {how}")

    def _name(self, line: str) -> None:
        if self._explain:
            print(f"# {line}", file=self._out)

    def lines(self) -> Iterator[str]:
        """The counts, and the words that were not understood, the most frequent first."""
        for (kind, how), count in sorted(self._counts.items()):
            yield f"{count} {kind}: {how}"
        for name, counter in self._words.items():
            if counter:
                shown = ", ".join(f"{word} ({count})" for word, count in counter.most_common(12))
                more = f", and {len(counter) - 12} more" if len(counter) > 12 else ""
                yield f"{name}: {shown}{more}"
