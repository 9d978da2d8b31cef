"""Programmes as a listing of XMLTV says them."""
from __future__ import annotations

import re
from dataclasses import dataclass
from datetime import timezone, tzinfo
from typing import BinaryIO, Callable, Iterable, Iterator, List, Optional, Tuple
from xml.etree.ElementTree import Element

from categories import Levels, genre_of
from component_kinds import AUDIO_TAG, FIRST_SUBTITLES_TAG, VIDEO_TAG, audio_code, subtitles_code, video_code
from crids import SYSTEMS, Link, Reference, reference_of
from dvb_descriptors import Component
from dvb_text import clean
from languages import same_language, three_letters
from ratings import Rating, age_of, country_of, rating_of
from tally import Tally
from xml_elements import read_elements
from xmltv_times import read_time

MOST_GENRES = 8
MOST_PEOPLE = 6
PEOPLE = (("director", "Director"), ("actor", "With"), ("presenter", "Presenter"))


@dataclass(frozen=True)
class Programme:
    """A programme: moments, texts in one line, a language of three letters, and where it stands. Its title may be empty. Links and components
    are for its descriptors."""

    where: str
    channel: str
    start: int
    stop: Optional[int]
    title: str
    subtitle: str
    description: str
    language: str
    genres: Tuple[Levels, ...] = ()
    rating: Optional[Rating] = None
    follows_in_clump: bool = False
    links: Tuple[Reference, ...] = ()
    components: Tuple[Component, ...] = ()

    def __str__(self) -> str:
        return f"{self.where}: {self.title or 'without a title'}"


@dataclass(frozen=True)
class Choices:
    """How a listing is read: languages of three letters in order of preference, and what counts where it says nothing."""

    languages: Tuple[str, ...] = ()
    zone: tzinfo = timezone.utc
    country: Optional[str] = None
    with_credits: bool = False
    with_descriptors: bool = False


def read_programmes(
    source: BinaryIO, name: str, choices: Choices, tally: Tally, took: Callable[[int], None] = lambda size: None
) -> Iterator[Programme]:
    """The programmes of a listing, in its order. Those without a start that can be read are counted as left out."""
    for line, element in read_elements(source, name, took):
        if element.tag != "programme":
            continue
        where = f"{name} line {line}"
        start = read_time(element.get("start"), choices.zone)
        if start is None:
            tally.left_out("its start can't be read", f"{where}: {clean(element.get('start'))}")
        else:
            yield read_programme(element, where, start, choices, tally)


def read_programme(element: Element, where: str, start: int, choices: Choices, tally: Tally) -> Programme:
    title = in_language(element.findall("title"), choices.languages)
    spoken = three_letters(title.get("lang")) if title is not None else None
    wanted = ([spoken] if spoken else []) + list(choices.languages)
    described = [text_in(element, "desc", wanted)] + (credits_of(element) if choices.with_credits else [])
    stop, language = read_time(element.get("stop"), choices.zone), spoken or (choices.languages or ("und",))[0]
    programme = Programme(
        where, element.get("channel") or "", start, stop, text_of(title), numbered_subtitle(element, wanted),
        " ".join(text for text in described if text), language, genres_of(element, where, tally),
        rating_in(element, where, choices.country, tally), not (element.get("clumpidx") or "0/1").strip().startswith("0/"),
        links_of(element, where, tally) if choices.with_descriptors else (),
        tuple(components_of(element, language, where, tally)) if choices.with_descriptors else (),
    )
    if stop is None and element.get("stop"):
        tally.changed("its stop can't be read, so it counts as missing", str(programme))
    return programme


# ---- texts


def text_of(element: Optional[Element]) -> str:
    return clean("".join(element.itertext())) if element is not None else ""


def in_language(elements: Iterable[Element], wanted: Iterable[Optional[str]]) -> Optional[Element]:
    """Of the elements that have a text, the one in the first language that there is one in; else the first of all."""
    filled = [element for element in elements if text_of(element)]
    for language in wanted:
        for element in filled:
            if same_language(three_letters(element.get("lang")), language):
                return element
    return filled[0] if filled else None


def text_in(element: Element, tag: str, wanted: Iterable[Optional[str]]) -> str:
    return text_of(in_language(element.findall(tag), wanted))


def numbered_subtitle(element: Element, wanted: Iterable[Optional[str]]) -> str:
    """The sub-title, after the season and the episode where there are such numbers: `S1 E2: Pilot`."""
    parts = [episode_mark(element), text_in(element, "sub-title", wanted)]
    return ": ".join(part for part in parts if part)


def episode_mark(element: Element) -> str:
    """`S1 E2` of an episode-num of the system xmltv_ns, which counts season and episode from 0, and may give how many there are."""
    for number in element.findall("episode-num"):
        if (number.get("system") or "").strip() == "xmltv_ns":
            places = [re.sub(r"\s+", "", place).split("/")[0] for place in (number.text or "").split(".")]
            marks = [
                f"{letter}{int(place) + 1}" for letter, place in zip("SE", places) if re.fullmatch("[0-9]{1,5}", place)
            ]
            if marks:
                return " ".join(marks)
    return ""


def credits_of(element: Element) -> List[str]:
    """Sentences of who takes part, at most six of a kind, and of the year."""
    credits = element.find("credits")
    sentences = []
    for tag, word in PEOPLE if credits is not None else ():
        people = [person for person in (text_of(found) for found in credits.findall(tag)) if person]  # type: ignore[union-attr]
        if people:
            sentences.append(f"{word}: {', '.join(people[:MOST_PEOPLE])}.")
    year = re.match(r"[0-9]{4}", text_of(element.find("date")))
    return sentences + ([f"{year[0]}."] if year else [])


# ---- genres and ratings


def genres_of(element: Element, where: str, tally: Tally) -> Tuple[Levels, ...]:
    """The genres of the categories, each once, at most eight."""
    found: List[Levels] = []
    for category in map(text_of, element.findall("category")):
        levels = genre_of(category) if category else None
        if levels is not None and levels not in found:
            found.append(levels)
        elif category and levels is None:
            tally.no_genre(category, where)
    return tuple(found[:MOST_GENRES])


def rating_in(element: Element, where: str, wanted: Optional[str], tally: Tally) -> Optional[Rating]:
    """The rating for the country that is wanted, or else the first that has a country and an age above 3."""
    found = []
    for rating in element.findall("rating"):
        system, value = clean(rating.get("system")), text_of(rating.find("value"))
        age, country = age_of(value), country_of(system, wanted)
        if age is None or country is None:
            tally.no_rating(f"{system} {value}".strip() or "empty", where)
        else:
            found.append(rating_of(country, age))
    fit = [rating for rating in found if rating is not None]
    return next((rating for rating in fit if rating.country == wanted), fit[0] if fit else None)


# ---- links and components


def links_of(element: Element, where: str, tally: Tally) -> Tuple[Reference, ...]:
    """The links of a programme and of its series, each once."""
    found: List[Reference] = []
    for number in element.findall("episode-num"):
        system, text = (number.get("system") or "").strip(), text_of(number)
        reference = reference_of(Link(system, text)) if system in SYSTEMS else None
        if reference is not None and reference not in found:
            found.append(reference)
        elif reference is None and system in SYSTEMS:
            tally.no_link(text or "empty", where)
    return tuple(found)


def components_of(element: Element, language: str, where: str, tally: Tally) -> Iterator[Component]:
    """The picture, the sound and the subtitles. The first two are in the language that is spoken, where the programme has its code, else in
    that of its title."""
    spoken = three_letters(text_of(element.find("language"))) or language
    aspect, quality, stereo = (part_of(element, *names) for names in (("video", "aspect"), ("video", "quality"), ("audio", "stereo")))
    said = [("video", f"{aspect} {quality}".strip(), video_code(aspect, quality), VIDEO_TAG, spoken)] if aspect or quality else []
    said += [("audio", stereo, audio_code(stereo), AUDIO_TAG, spoken)] if stereo else []
    for tag, (kind, code) in enumerate(subtitles_of(element), FIRST_SUBTITLES_TAG):
        said.append(("subtitles", kind, subtitles_code(kind), tag, code))
    for name, words, found, tag, code in said:
        if found:
            yield Component(*found, tag, code)
        else:
            tally.no_kind(f"{name} {words}", where)


def part_of(element: Element, name: str, part: str) -> str:
    """A part of the picture or the sound; empty where the programme has neither, or says that it is not present."""
    found = element.find(name)
    return text_of(found.find(part)) if found is not None and text_of(found.find("present")).lower() != "no" else ""


def subtitles_of(element: Element) -> List[Tuple[str, str]]:
    """The type and the language of subtitles, each once; `und` without a code."""
    found = ((each.get("type") or "", three_letters(text_of(each.find("language"))) or "und") for each in element.findall("subtitles"))
    return list(dict.fromkeys(found))
