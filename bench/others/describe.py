#!/usr/bin/env python3
"""Prints a script of `play`: a multiplex with 15 other streams, 64 services on them and 8 of its own, events of all, a publish and a swap.
Each stream has its delivery and a list of channels; half of the services and a third of the events have further descriptors.
usage: describe.py [NUMBER]    another number gives other names, events and places"""
import csv
import datetime
import random
import sys

START = datetime.datetime(2026, 11, 30, 12, 10)
MIDNIGHT = datetime.datetime(2026, 11, 30)
WORDS = ("Harbour", "Fjord", "Evening", "News", "Ferry", "Night", "Übersee", "Café", "Ship", "Hour", "Weather", "Film", "Zwölf", "Naïve", "Quay")
LANGUAGES = ("eng", "deu", "fra", "nor")
# kinds of picture, sound and subtitles (EN 300 468, 6.2.8); content references with and without an authority (TS 102 323, 12.1)
COMPONENTS = ("5006f50b01646575", "5006f44402656e67", "5006f30103676572", "5010f2030273776553746572656f206d6978")
REFERENCES = ("760ac4032f4537c8032f5332", "7618c4164c6f6e672e6578616d706c652e636f6d2f456e747279")
RATINGS = "55084445550941555409"
# an authority of content references (TS 102 323, 6.3.1); the delivery of a stream that is on no cable: terrestrial, by T2, or by satellite
AUTHORITY = "730b6578616d706c652e636f6d"
DELIVERIES = ("5a0b0371f5401f8102ffffffff", "7f0404000001", "430b0114937501928602200002")


def moment(at):
    return at.strftime("%Y-%m-%dT%H:%M:%SZ")


def words(chance, most):
    return " ".join(chance.choice(WORDS) for _ in range(chance.randint(1, most)))


def description(chance):
    """The lines of the multiplex, and the id and the feed of each service."""
    lines = [["network", 40, "Harbour Cable"], ["stream", 1, 1], ["cable", 3460000, 3, 69000, 2, 15], ["start", moment(START)]]
    services = [(101 + i, 1 + i % 2) for i in range(8)]
    for i, (service, feed) in enumerate(services):
        lines.append(["service", service, feed, chance.choice((1, 2, 25)), 256 + i, 512 + i, "Harbour", words(chance, 3)])
        if i % 2:
            lines.append(["descriptor", "service", service, AUTHORITY])
    lines.append(["descriptor", "stream", channels([service for service, _ in services])])
    streams = [(2 + i, chance.choice((1, 8))) for i in range(15)]
    chance.shuffle(streams)
    for i, pair in enumerate(streams):
        cable = [] if i % 4 == 3 else [3140000 + 80000 * i, 3 + i % 3, 68750 + i, 2, 15]
        lines.append(["other", *pair, *cable])
    carried = {pair: [] for pair in streams}
    # the last stream stays without a service
    for service in chance.sample(range(201, 65536), 64):
        feed, pair = chance.randint(1, 16), chance.choice(streams[:-1])
        services.append((service, feed))
        carried[pair].append(service)
        lines.append(["remote", *pair, service, feed, chance.choice((1, 2, 22, 25)), words(chance, 2), words(chance, 4)])
        if service % 2:
            lines.append(["descriptor", "service", service, AUTHORITY])
    for i, pair in enumerate(streams):
        lines.append(["descriptor", "other", *pair, further_of_stream(chance, i, carried[pair])])
    return lines + [["end"]], services


def channels(services):
    """Logical channel numbers (IEC/CENELEC TS 62216)."""
    body = "".join(f"{service:04x}{0xFC00 + i:04x}" for i, service in enumerate(services, 1))
    return f"5f0400000028 83{len(body) // 2:02x}{body}"


def further_of_stream(chance, i, services):
    """A delivery where the stream is on no cable, or else its other frequencies (EN 300 468, 6.2.17); then its channels."""
    frequencies = "".join(f"0{chance.randint(100, 900)}0000" for _ in range(chance.randint(3, 8)))
    where = DELIVERIES[i // 4] if i % 4 == 3 else f"62{1 + len(frequencies) // 2:02x}fe{frequencies}"
    return " ".join([where, *([channels(services)] if services else [])])


def private(chance):
    """A private_data_specifier, and a descriptor of a kind that is nobody's."""
    body = bytes(chance.randint(0, 255) for _ in range(chance.choice((0, 1, 20, 90))))
    return ["5f0400000028", bytes([chance.randint(0x84, 0xFE), len(body)]).hex() + body.hex()]


def further_of_event(chance, is_rated):
    """Further descriptors of an event, in groups of digits; of two events in three there is none."""
    if chance.random() < 0.67:
        return ""
    found = chance.sample(COMPONENTS, chance.randint(0, 3)) + chance.sample(REFERENCES, chance.randint(0, 1))
    found += [] if is_rated or chance.random() < 0.5 else [RATINGS]
    found += private(chance) if chance.random() < 0.3 else []
    return " ".join(chance.choice((str.upper, str.lower))(group) for group in found)


def event(chance, service, feed, number, at, minutes):
    genres = " ".join(f"{chance.randint(1, 11)}.{chance.randint(0, 15)}.{chance.randint(0, 255)}" for _ in range(chance.randint(0, 3)))
    rating = ["GBR", chance.randint(1, 15)] if chance.random() < 0.4 else ["", ""]
    extended = words(chance, 120) if chance.random() < 0.3 else ""
    short = words(chance, 8) if chance.random() < 0.6 else ""
    return ["feed", feed, "put", service, number, moment(at), f"{minutes // 60:02}:{minutes % 60:02}:00", chance.choice(LANGUAGES),
            words(chance, 5), short, extended, *rating, genres, *filter(None, [further_of_event(chance, rating[0])])]


def events(chance, service, feed):
    """One that runs over midnight; some that begin an hour before the start; more on later days. Of one service in ten there is none."""
    out = []
    if chance.random() < 0.1:
        return out

    def put(at, minutes):
        out.append(event(chance, service, feed, len(out) + 1, at, minutes))
        return at + datetime.timedelta(minutes=minutes + chance.choice((0, 0, 0, 45, 240)))

    put(MIDNIGHT - datetime.timedelta(minutes=30), 90)
    at = START - datetime.timedelta(minutes=chance.randint(0, 60))
    for day in (0, 1, 3, 4, 7, 8, 20, 63):
        for _ in range(chance.randint(0 if day else 2, 6)):
            at = put(at, chance.choice((15, 30, 60, 90, 180)))
        at = max(at, MIDNIGHT + datetime.timedelta(days=day + 1, hours=chance.randint(0, 12)))
    return out


def main():
    chance = random.Random(int(sys.argv[1]) if len(sys.argv) > 1 else 1)
    lines, services = description(chance)
    for service, feed in services:
        lines += events(chance, service, feed)
    csv.writer(sys.stdout, lineterminator="\n").writerows(lines + [["publish"], ["swap"]])


if __name__ == "__main__":
    main()
