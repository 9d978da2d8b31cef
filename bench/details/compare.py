#!/usr/bin/env python3
"""Compares the descriptors that tshark lists with those that `listen --details` prints.
usage: compare.py FILE.pdml REPORT

FILE.pdml is the output of `tshark -r RECORDING -T pdml`, REPORT that of `listen --details < RECORDING`. Of each loop of NIT, SDT, PMT and
EIT that tshark shows, the descriptors are taken away that a guide shows whole in its other lines (docs/FORMATS.md, "Of `listen`"). Standard
output has for each table how many descriptors tshark lists, how many of them a guide shows whole, and how many are left; then how many lines
`descriptor` and `program` the report has, and those that only one of the two has. The status is 1 where there is such a one."""
from __future__ import annotations

import sys
import xml.etree.ElementTree as Tree
from collections import Counter
from typing import Dict, List, Tuple

TABLES = {"mpeg_pmt": "PMT", "dvb_nit": "NIT", "dvb_sdt": "SDT", "dvb_eit": "EIT"}
PLAIN = set(range(0x20, 0x7F)) - {0x23, 0x24, 0x5B, 0x5C, 0x5D, 0x5E, 0x60, 0x7B, 0x7C, 0x7D, 0x7E}


def loops(node: Tree.Element) -> List[List[bytes]]:
    """The loops of descriptors of a section: its own first, and then those of its entries."""
    found = []
    for part in [node, *node.findall("field")]:
        descriptors = [bytes.fromhex(field.get("value", "")) for field in part.findall("field")
                       if field.get("show", "").startswith("Descriptor Tag=")]
        if descriptors:
            found.append(descriptors)
    return found


def fits(descriptor: bytes) -> bool:
    """Whether the body of a descriptor of these tags has whole entries, or texts that fill it."""
    tag, body = descriptor[0], descriptor[2:]
    if tag in (0x0A, 0x55):
        return len(body) % 4 == 0
    if tag in (0x41, 0x54):
        return len(body) % (3 if tag == 0x41 else 2) == 0
    if tag == 0x44:
        digits = body[:4].hex() + body[7:10].hex() + body[10:11].hex()[:1]
        return len(body) == 11 and digits.isdecimal()
    start = {0x48: 1, 0x4D: 3}.get(tag)
    return start is None or texts_fill(body, start)


def texts_fill(body: bytes, start: int) -> bool:
    """Whether two texts behind lengths of 8 bits fill a body from a place on."""
    if len(body) <= start:
        return False
    second = start + 1 + body[start]
    return second < len(body) and second + 1 + body[second] == len(body)


def without_first(descriptors: List[bytes], tag: int, length: int = -1) -> List[bytes]:
    """The list without the first descriptor of a tag that fits, if its body has this length; -1 is any."""
    for place, descriptor in enumerate(descriptors):
        if descriptor[0] == tag and fits(descriptor):
            whole = length in (-1, descriptor[1]) and (tag != 0x0A or descriptor[5] == 0)
            return descriptors[:place] + descriptors[place + 1:] if whole else descriptors
    return descriptors


def is_text(coded: bytes) -> bool:
    return set(coded) <= PLAIN or coded[:1] == b"\x15"


def without_pieces(descriptors: List[bytes]) -> List[bytes]:
    """The list without the pieces of the extended text that is shown: in the language of the first short_event, without items."""
    language = next((d[2:5] for d in descriptors if d[0] == 0x4D and fits(d)), b"und")
    pieces = [d for d in descriptors if d[0] == 0x4E and d[3:6] == language]
    if not all(is_text(d[8 + d[6]:]) for d in pieces):
        return descriptors
    return [d for d in descriptors if not (d in pieces and d[6] == 0)]


def left_of(table: str, descriptors: List[bytes], is_first: bool) -> List[bytes]:
    """What a guide does not show whole of a loop."""
    if table == "NIT" and is_first:
        return without_first(descriptors, 0x40)
    if table == "NIT":
        return without_first(without_first(descriptors, 0x41), 0x44)
    if table == "SDT":
        return without_first(descriptors, 0x48)
    if table == "PMT":
        return descriptors if is_first else without_first(descriptors, 0x0A, 4)
    left = without_pieces(descriptors)
    for tag, length in ((0x4D, -1), (0x54, -1), (0x55, 4)):
        left = without_first(left, tag, length)
    return left


def listed(path: str) -> Tuple[Dict[str, List[int]], Counter]:
    """Of each table how many descriptors there are and how many are left, each section once; and those that are left."""
    counts: Dict[str, List[int]] = {table: [0, 0] for table in TABLES.values()}
    left: Counter = Counter()
    seen = set()
    for _, node in Tree.iterparse(path):
        table = TABLES.get(node.get("name", "")) if node.tag == "proto" else None
        text = Tree.tostring(node) if table else b""
        if table is None or text in seen:
            continue
        seen.add(text)
        own = sum(field.get("show", "").startswith("Descriptor Tag=") for field in node.findall("field"))
        for place, descriptors in enumerate(loops(node)):
            rest = left_of(table, descriptors, own > 0 and place == 0)
            counts[table][0] += len(descriptors)
            counts[table][1] += len(rest)
            left.update(d.hex() for d in rest)
    return counts, left


def printed(path: str) -> Counter:
    with open(path, encoding="utf-8") as report:
        lines = [line.rstrip("\n").split("\t") for line in report]
    return Counter(fields[1] for fields in lines if fields[0] in ("descriptor", "program"))


def main() -> int:
    if len(sys.argv) != 3:
        print(__doc__)
        return 2
    counts, left = listed(sys.argv[1])
    found = printed(sys.argv[2])
    for table, (all_of_it, rest) in counts.items():
        print(f"{table}: {all_of_it} descriptors, {all_of_it - rest} shown whole by other lines, {rest} left")
    print(f"listen --details: {sum(found.values())} printed, of {sum(left.values())}")
    for name, only in (("tshark", left - found), ("listen", found - left)):
        for digits, count in sorted(only.items())[:10]:
            print(f"only {name}: {digits} {count} times")
    return 1 if left != found else 0


if __name__ == "__main__":
    sys.exit(main())
