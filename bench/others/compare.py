#!/usr/bin/env python3
"""Compares what another decoder shows of an air with the script that was played.
usage: compare.py SCRIPT tshark FILE.pdml    the output of tshark -T pdml
       compare.py SCRIPT libdvbpsi FILE.txt  the output of psi_others
       compare.py SCRIPT listen FILE.txt     the report of listen --details
Standard output has for each kind how many things the script asks for and how many of them are shown as asked; then, of things that are
missing or shown otherwise, the first ten. The status is 1 where there is such a thing."""
from __future__ import annotations

import csv
import datetime
import sys
import xml.etree.ElementTree as Tree
from collections import defaultdict
from itertools import takewhile

EPOCH = datetime.datetime(1858, 11, 17)
DAY = 86400
KINDS = ("stream", "service", "now", "next", "event")


def seconds(text):
    return int((datetime.datetime.strptime(text, "%Y-%m-%dT%H:%M:%SZ") - EPOCH).total_seconds())


def duration(text):
    hours, minutes, rest = (int(part) for part in text.split(":"))
    return 3600 * hours + 60 * minutes + rest


# ---- what the script asks for

def wanted(path):
    streams, services, events, further, at = {}, {}, defaultdict(dict), defaultdict(tuple), 0
    own = cable = None
    for line in csv.reader(open(path, encoding="utf-8")):
        word = line[0]
        if word == "stream":
            own = (int(line[1]), int(line[2]))
        elif word == "cable":
            cable = tuple(int(field) for field in line[1:])
        elif word == "start":
            at = seconds(line[1])
        elif word == "service":
            services[int(line[1])] = (None, int(line[3]), line[6], line[7])
        elif word == "other":
            streams[(int(line[1]), int(line[2]))] = tuple(int(field) for field in line[3:]) or None
        elif word == "remote":
            services[int(line[3])] = ((int(line[1]), int(line[2])), int(line[5]), line[6], line[7])
        elif word == "descriptor":
            further[described(line, own)] += groups(line[-1])
        elif word == "feed" and line[2] == "put":
            events[int(line[3])][int(line[4])] = event_of(line[4:])
    streams[own] = cable
    return things(own, streams, services, events, further, at)


def described(line, own):
    """What a descriptor line names: a stream by its two ids, or a service by its one."""
    return own if line[1] == "stream" else (int(line[2]), int(line[3])) if line[1] == "other" else int(line[2])


def groups(field):
    """Whole descriptors in digits, as a list."""
    return tuple(field.lower().split(" ")) if field else ()


def event_of(fields):
    """An event, whose last field has its further descriptors. A rating of several countries is one of these, and no rating."""
    further = groups(fields[10]) if len(fields) > 10 else ()
    rating = (fields[7], int(fields[8])) if fields[7] and not any(group.startswith("55") for group in further) else None
    genres = tuple(tuple(int(n) for n in genre.split(".")) for genre in fields[9].split(" ")) if fields[9] else ()
    return (int(fields[0]), seconds(fields[1]), duration(fields[2]), fields[3], fields[4], fields[5], fields[6], rating, genres, further)


def things(own, streams, services, events, further, at):
    out = {kind: set() for kind in KINDS}
    of_stream = defaultdict(list)
    for service, (pair, kind, provider, name) in services.items():
        pair = pair or own
        of_stream[pair].append((service, kind))
        out["service"].add((*pair, service, kind, provider, name, further[service]))
        put_events(out, (*pair, service), sorted(events[service].values(), key=lambda event: event[1]), at)
    for pair, cable in streams.items():
        out["stream"].add((*pair, cable, tuple(sorted(of_stream[pair])), further[pair]))
    return out


def put_events(out, service, events, at):
    day = at // DAY * DAY
    present = [event for event in events if event[1] <= at < event[1] + event[2]]
    following = [event for event in events if event[1] > at]
    out["now"] |= {(*service, event) for event in present[:1]}
    out["next"] |= {(*service, event) for event in following[:1]}
    out["event"] |= {(*service, event) for event in events if day <= event[1] < day + 64 * DAY}


# ---- what tshark shows

def number(field):
    return int(field.get("value"), 16)


def find(node, name):
    return node.find(f".//field[@name='{name}']")


def parts(node, front):
    """The fields below a node whose text begins so, such as descriptors and events."""
    return [field for field in node.findall("field") if field.get("show", "").startswith(front)]


def text(node, name):
    field = find(node, name)
    return field.get("show") if field is not None else ""


def tag(node):
    return number(find(node, "mpeg_descr.tag"))


def further_in(node, made):
    """The descriptors below a node that have none of these tags; a rating of several countries is one of them."""
    raw = (descriptor.get("value").lower() for descriptor in parts(node, "Descriptor"))
    return tuple(each for each in raw if int(each[:2], 16) not in made or each[:2] == "55" and each[2:4] != "04")


def tshark(path):
    out = {kind: set() for kind in KINDS}
    for _, node in Tree.iterparse(path):
        if node.tag == "proto" and node.get("name") in ("dvb_nit", "dvb_sdt", "dvb_eit"):
            # tshark looks at no CRC of an SDT without services
            if text(node, "mpeg_sect.crc.status") not in ("1", ""):
                sys.exit("compare.py: tshark found a wrong CRC")
            {"dvb_nit": put_nit, "dvb_sdt": put_sdt, "dvb_eit": put_eit}[node.get("name")](out, node)
        elif node.tag == "packet":
            node.clear()
    return out


def put_nit(out, node):
    for stream in parts(node, "Stream ID"):
        pair = (number(find(stream, "dvb_nit.ts.id")), number(find(stream, "dvb_nit.ts.original_network_id")))
        cable, services = None, ()
        for descriptor in parts(stream, "Descriptor"):
            if tag(descriptor) == 0x44:
                raw = bytes.fromhex(descriptor.get("value"))[2:]
                cable = (int(raw[:4].hex()), raw[6], int(raw[7:11].hex()[:7]), raw[5] & 15, raw[10] & 15)
            elif tag(descriptor) == 0x41:
                services = tuple((number(find(one, "mpeg_descr.svc_list.id")), number(find(one, "mpeg_descr.svc_list.type")))
                                 for one in parts(descriptor, "Service"))
        out["stream"].add((*pair, cable, services, further_in(stream, (0x41, 0x44))))


def put_sdt(out, node):
    pair = (number(find(node, "dvb_sdt.tsid")), number(find(node, "dvb_sdt.original_nid")))
    for service in parts(node, "Service"):
        out["service"].add((*pair, number(find(service, "dvb_sdt.svc.id")), number(find(service, "mpeg_descr.svc.type")),
                            text(service, "mpeg_descr.svc.provider_name"), text(service, "mpeg_descr.svc.svc_name"),
                            further_in(service, (0x48,))))


def put_eit(out, node):
    table = number(find(node, "mpeg_sect.tid"))
    service = (number(find(node, "dvb_eit.tsid")), number(find(node, "dvb_eit.original_nid")), number(find(node, "dvb_eit.sid")))
    kind = "event" if table >= 0x50 else ("now", "next")[number(find(node, "dvb_eit.sect_num"))]
    for event in parts(node, "Event "):
        out[kind].add((*service, event_shown(event)))


def event_shown(event):
    raw = bytes.fromhex(find(event, "dvb_eit.evt.start_time").get("value"))
    start = (raw[0] << 8 | raw[1]) * DAY + duration(f"{raw[2]:02x}:{raw[3]:02x}:{raw[4]:02x}")
    raw = bytes.fromhex(find(event, "dvb_eit.evt.duration").get("value"))
    names, extended, genres, rating = ("und", "", ""), "", (), None
    for descriptor in parts(event, "Descriptor"):
        if tag(descriptor) == 0x4D:
            names = tuple(text(descriptor, f"mpeg_descr.short_evt.{field}") for field in ("lang_code", "name", "txt"))
        elif tag(descriptor) == 0x4E:
            extended += text(descriptor, "mpeg_descr.ext_evt.txt")
        elif tag(descriptor) == 0x54:
            raw_genres = bytes.fromhex(descriptor.get("value"))[2:]
            genres = tuple((raw_genres[i] >> 4, raw_genres[i] & 15, raw_genres[i + 1]) for i in range(0, len(raw_genres), 2))
        elif tag(descriptor) == 0x55 and descriptor.get("value")[2:4] == "04":
            rating = (text(descriptor, "mpeg_descr.parental_rating.country_code"), number(find(descriptor, "mpeg_descr.parental_rating.rating")))
    lasts, further = duration(f"{raw[0]:02x}:{raw[1]:02x}:{raw[2]:02x}"), further_in(event, (0x4D, 0x4E, 0x54, 0x55))
    return (number(find(event, "dvb_eit.evt.id")), start, lasts, *names, extended, rating, genres, further)


# ---- what psi_others prints

def libdvbpsi(path):
    out = {kind: set() for kind in KINDS}
    for line in open(path, encoding="utf-8"):
        fields = line.rstrip("\n").split("\t")
        word, pair = fields[0], tuple(int(field) for field in fields[1:3])
        if word == "stream":
            cable = tuple(int(field) for field in fields[3:8]) if fields[3] else None
            services = tuple(tuple(int(n) for n in one.split(":")) for one in fields[8].split(" ")) if fields[8] else ()
            out[word].add((*pair, cable, services, groups(fields[9])))
        elif word == "service":
            out[word].add((*pair, int(fields[3]), int(fields[4]), fields[5], fields[6], groups(fields[7])))
        else:
            out[word].add((*pair, int(fields[3]), event_of(fields[4:])))
    return out


# ---- what the product's own receiver prints, whose guide has no list of services of its own

def listen(path):
    lines = [line.rstrip("\n").split("\t") for line in open(path, encoding="utf-8")]
    out = {kind: set() for kind in KINDS}
    pair, cable, of_stream, service, further = (0, 0), {}, defaultdict(list), 0, {}
    for place, (word, *fields) in enumerate(lines):
        if word in ("stream", "other"):
            pair = (int(fields[0]), int(fields[1]))
            cable[pair] = tuple(int(field) for field in fields[2:]) if len(fields) > 2 and fields[2] else None
            further[pair] = details(lines, place)
        elif word == "cable":
            cable[pair], further[pair] = tuple(int(field) for field in fields), details(lines, place)
        elif word in ("service", "remote"):
            service = int(fields[0])
            of_stream[pair].append((service, int(fields[1])))
            out["service"].add((*pair, service, int(fields[1]), fields[2], fields[3], groups(details(lines, place))))
        elif word in ("now", "next", "event"):
            out[word].add((*pair, service, event_of(fields + [details(lines, place)])))
    out["stream"] = {(*pair, cable[pair], tuple(of_stream[pair]), groups(further[pair])) for pair in cable}
    return out


def details(lines, place):
    """The descriptors that stand in lines of their own after a line."""
    rest = takewhile(lambda line: line[0] == "descriptor", lines[place + 1:place + 200])
    return " ".join(line[1] for line in rest)


READERS = {"tshark": tshark, "libdvbpsi": libdvbpsi, "listen": listen}


def main():
    asked, shown = wanted(sys.argv[1]), READERS[sys.argv[2]](sys.argv[3])
    wrong = 0
    for kind in KINDS:
        same, others = asked[kind] & shown[kind], shown[kind] - asked[kind]
        print(f"{sys.argv[2]}: {kind}: {len(asked[kind])} asked for, {len(same)} shown so, {len(others)} shown otherwise")
        for sign, rest in (("missing", asked[kind] - same), ("otherwise", others)):
            wrong += len(rest)
            for thing in sorted(rest, key=str)[:10]:
                print(f"  {sign}: {thing}")
    remote = sum(len([thing for thing in asked[kind] & shown[kind] if thing[0] != 1]) for kind in KINDS)
    print(f"{sys.argv[2]}: {remote} of these are of other streams")
    sys.exit(1 if wrong else 0)


if __name__ == "__main__":
    main()
