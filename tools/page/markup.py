"""The page of a guide: one file of HTML that needs no other.

Every text of the guide is escaped: as text of HTML, or as JSON in a block that is no script. The page's policy lets only the one script
run that this module puts in, and nothing be fetched.
"""
from __future__ import annotations

import base64
import hashlib
import json
import re
from datetime import datetime
from html import escape
from pathlib import Path
from typing import Dict, Iterable, List, Optional, Sequence, Tuple

from dvb_text import heard_text
from genres import genre_name, group_name
from heard import Completion, Event, Heard, LocalTime, Service
from page.timeline import Placed, Row, Window, days_of, hours_of, row_of
from page.zones import offset_of

HERE = Path(__file__).resolve().parent
CONTROLS = re.compile("[\x00-\x08\x0b-\x1f\x7f-\x9f]")
TABLES = {0x00: "PAT", 0x02: "PMT", 0x40: "NIT", 0x42: "SDT", 0x46: "SDT other", 0x4E: "EIT present/following",
          0x4F: "EIT present/following other"}
# The service types that are pictures, and those that are sound (EN 300 468, 6.2.33).
TELEVISION = {0x01, 0x11, 0x16, 0x19, 0x1C, 0x1F, 0x20}
RADIO = {0x02, 0x07, 0x0A}
LONG = 180


def clean(value: str, is_joined: bool = False) -> str:
    """A text without control characters; one that is shown as `hex:` as annex A of EN 300 468 reads it, where that can be done."""
    return CONTROLS.sub("\N{REPLACEMENT CHARACTER}", heard_text(value, is_joined))


def text(value: object) -> str:
    """A text of the guide as text of HTML, or as a quoted attribute."""
    return escape(clean(str(value)))


def embedded_json(value: object) -> str:
    """JSON that no text in it can end, whatever it has."""
    written = json.dumps(value, ensure_ascii=False, separators=(",", ":"))
    for character in "<>&\u2028\u2029":
        written = written.replace(character, f"\\u{ord(character):04x}")
    return written


def number(value: float) -> str:
    """A number of minutes with at most one decimal place."""
    return f"{value:.1f}".rstrip("0").rstrip(".")


def plural(count: int, what: str) -> str:
    return f"{count:,} {what}{'' if count == 1 else 's'}"


def day_of(local: datetime) -> str:
    return f"{local:%a} {local.day} {local:%b}"


def table_name(table: int) -> str:
    if 0x50 <= table <= 0x6F:
        return f"EIT schedule {'other ' if 0x60 <= table else ''}0x{table:02X}"
    return TABLES.get(table, f"0x{table:02X}")


def kind_of(service: Service) -> str:
    if service.type in TELEVISION:
        return "TV"
    if service.type is None:
        return ""
    return "radio" if service.type in RADIO else f"type {service.type}"


# ---- events


def colour_of(event: Event) -> str:
    """The class of an event's colour, from the group of its first genre."""
    group = event.genres[0].level_1 if event.genres else 0
    return f" g{group}" if group_name(group) else ""


def when(event: Event, window: Window) -> str:
    start, end = window.local(event.start), window.local(event.end)
    last = f"{end:%H:%M}" if end.date() == start.date() else f"{day_of(end)} {end:%H:%M}"
    return f"{day_of(start)} {start:%H:%M} to {last}, {plural(round(event.duration.total_seconds() / 60), 'minute')}"


def particulars(placed: Placed) -> str:
    event = placed.event
    parts = [genre_name(genre.level_1, genre.level_2) for genre in event.genres]
    if event.least_age is not None:
        parts.append(f"from {event.least_age} ({event.country})" if event.country else f"from {event.least_age}")
    elif event.rating is not None:
        parts.append(f"rating {event.rating} ({event.country})")
    if placed.is_present:
        parts.append("now")
    if placed.is_following:
        parts.append("next")
    return " · ".join(parts + [part for part in (event.language,) if part] + [f"event {event.id}"])


def event_markup(placed: Placed, window: Window) -> str:
    event = placed.event
    marks = colour_of(event) + (" now" if placed.is_present else "") + (" long" if placed.length >= LONG else "")
    place = f"--a:{number(placed.first)};--d:{number(placed.length)}"
    small = f"{window.local(event.start):%H:%M} {text(event.short)}".rstrip()
    return (f'<button type="button" tabindex="-1" class="e{marks}" style="{place}">'
            f"<span><b>{text(event.name) or '&nbsp;'}</b><small>{small}</small></span></button>")


def event_texts(placed: Placed, window: Window) -> List[str]:
    """What the page shows of an event that is chosen."""
    event = placed.event
    return [clean(event.name), when(event, window), clean(event.short), clean(event.extended, True), clean(particulars(placed))]


# ---- the grid


def row_markup(row: Row, window: Window) -> str:
    service = row.service
    about = f"{service.id} · {kind_of(service)}" + ("" if row.placed else " · no event")
    title = f"{service.provider}, PMT on PID {service.pmt_pid}, PCR on PID {service.pcr_pid}"
    events = "".join(event_markup(placed, window) for placed in row.placed)
    return (f'<div class="row"><div class="name" title="{text(title)}"><b>{text(service.name) or "&nbsp;"}</b><small>{text(about)}</small></div>'
            f'<div class="lane">{events}</div></div>')


def ruler_markup(window: Window) -> str:
    days = "".join(f'<div class="day" style="--a:{number(first)};--d:{number(length)}"><b>{day_of(local)}</b></div>'
                   for first, length, local in days_of(window))
    hours = "".join(f'<div class="hour" style="--a:{number(minute)}">{local:%H:%M}</div>' for minute, local in hours_of(window))
    return f'<div class="row ruler"><div class="name"></div><div class="lane">{days}{hours}</div></div>'


def grid_markup(heard: Heard, rows: Sequence[Row], window: Window) -> str:
    """The rows of the services below the ruler; a sentence where there are none."""
    if not rows:
        return '<main id="grid"><p class="soft">No service was heard. The lists below have what was, and what is wanting.</p></main>'
    clock = ""
    if heard.clock and window.has(heard.clock):
        clock = f'<div id="clock" style="--a:{number(window.minute(heard.clock))}" title="the clock that was heard"></div>'
    body = "".join(row_markup(row, window) for row in rows)
    return (f'<main id="grid" style="--minutes:{window.minutes}"><div id="sheet">'
            f"{ruler_markup(window)}{body}{clock}</div></main>")


# ---- the head


def state_markup(heard: Heard) -> str:
    """Whether the guide is whole, or the first reason why not."""
    if heard.is_whole:
        return '<span class="state good">whole</span>'
    if heard.fault is not None:
        return f'<span class="state bad">{text(heard.fault)}</span>'
    return f'<span class="state bad">{f"{len(heard.wanting)} wanting" if heard.wanting else "cut off before its end"}</span>'


def minutes_text(minutes: int) -> str:
    """Minutes that are added to UTC, as `UTC+01:00`."""
    return f"UTC{'-' if minutes < 0 else '+'}{abs(minutes) // 60:02}:{abs(minutes) % 60:02}"


def region_of(local: LocalTime) -> str:
    return f"{local.country} {local.region}" if local.region else local.country


def facts(heard: Heard, rows: Sequence[Row], window: Window) -> List[str]:
    """What stands below the title, in a line."""
    found = []
    if heard.stream:
        network = heard.stream.original_network_id
        found.append(f"stream {heard.stream.id}" + (f" of network {network}" if network is not None else ""))
    found.append(plural(len(heard.services), "service"))
    found.append(plural(sum(len(row.placed) for row in rows), "event"))
    outside = sum(row.outside for row in rows)
    if outside:
        found.append(f"{plural(outside, 'event')} outside of these days")
    if heard.clock:
        clock = window.local(heard.clock)
        found.append(f"clock {day_of(clock)} {clock:%Y %H:%M:%S} {offset_of(clock)}")
    else:
        found.append("no clock")
    if len(heard.local_times) == 1:
        local = heard.local_times[0]
        found.append(f"local time of {region_of(local)} {minutes_text(local.offset_at(heard.clock))}")
    elif heard.local_times:
        found.append(f"local times of {len(heard.local_times)} regions")
    return found


def head_markup(heard: Heard, rows: Sequence[Row], window: Window, title: str) -> str:
    days = "".join(f'<option value="{number(first)}">{day_of(local)}</option>' for first, _, local in days_of(window))
    return (f'<header><div><h1>{text(title)}</h1>{state_markup(heard)}</div><p>{text(" · ".join(facts(heard, rows, window)))}</p>'
            f'<div class="tools"><select id="day" aria-label="day">{days}</select><button type="button" id="now">Now</button>'
            '<button type="button" id="narrow" aria-label="more hours">−</button><button type="button" id="wide" aria-label="fewer hours">+</button>'
            '<input id="find" type="search" placeholder="Search ( / )" aria-label="search"><output id="found"></output></div></header>')


# ---- the lists


def list_markup(name: str, head: Sequence[str], rows: Iterable[Sequence[object]], is_open: bool = False) -> str:
    """A list of the page that can be opened."""
    lines = ["".join(f"<td>{text(cell)}</td>" for cell in row) for row in rows]
    head_line = "".join(f"<th>{text(cell)}</th>" for cell in head)
    body = "".join(f"<tr>{line}</tr>" for line in lines) or f'<tr><td colspan="{len(head)}">none</td></tr>'
    return (f'<details{" open" if is_open else ""}><summary>{text(name)}: {len(lines)}</summary>'
            f'<div class="list"><table><thead><tr>{head_line}</tr></thead><tbody>{body}</tbody></table></div></details>')


def wanting_sentence(what: Sequence[str]) -> str:
    """What a `wanting` line names, in words."""
    fields = list(what)
    if len(fields) == 1:
        return {"pat": "PAT", "nit": "NIT", "sdt": "SDT", "clock": "TDT, the clock"}.get(fields[0], fields[0])
    if fields[0] == "pmt" and len(fields) == 3:
        return f"PMT of programme {fields[2]}, PID {fields[1]}"
    if fields[0] == "present" and len(fields) == 2:
        return f"present and following of service {fields[1]}"
    if fields[0] == "schedule" and len(fields) == 3 and fields[2].isdigit():
        return f"schedule of service {fields[1]}, table 0x{int(fields[2]):02X}"
    return " ".join(fields)


def wanting_markup(heard: Heard) -> str:
    return list_markup("Wanting", ["what was not heard whole"], [[wanting_sentence(what)] for what in heard.wanting], bool(heard.wanting))


def services_markup(heard: Heard) -> str:
    head = ["service", "name", "provider", "kind", "PMT", "PCR", "components: PID (stream_type, language)"]
    rows = [[service.id, service.name, service.provider, kind_of(service), service.pmt_pid, service.pcr_pid, parts_of(service)]
            for service in heard.services]
    return list_markup("Services and PIDs", head, rows)


def others_markup(heard: Heard, window: Window) -> str:
    """A line for each service of other streams; nothing where no other stream was heard."""
    if not heard.others:
        return ""
    head = ["stream", "service", "name", "provider", "now", "next", "events"]
    rows = [[f"{other.id} of network {other.original_network_id}", service.id, service.name, service.provider,
             named_event(service.present, window), named_event(service.following, window), len(service.events)]
            for other in heard.others for service in other.services]
    return list_markup("Services of other streams", head, rows)


def named_event(event: Optional[Event], window: Window) -> str:
    return f"{window.local(event.start):%H:%M} {heard_text(event.name)}" if event else ""


def parts_of(service: Service) -> str:
    return ", ".join(f"{part.pid} ({part.stream_type}{', ' + part.language if part.language else ''})" for part in service.components)


def local_times_markup(heard: Heard) -> str:
    """A line for each region whose local time was heard; nothing where none was."""
    if not heard.local_times:
        return ""
    head = ["country and region", "local time", "is", "change (UTC)", "from then on"]
    return list_markup("Local times", head, [local_time_row(local, heard) for local in heard.local_times])


def local_time_row(local: LocalTime, heard: Heard) -> List[str]:
    then = [f"{local.change:%Y-%m-%d %H:%M:%S}", minutes_text(local.offset_at(local.change))] if local.change else ["", ""]
    return [region_of(local), local.time.replace("T", " "), minutes_text(local.offset_at(heard.clock)), *then]


def tables_markup(heard: Heard) -> str:
    """A line for each sub-table: where it was first whole, how many of its versions were, and the last of these."""
    tables: Dict[Tuple[int, ...], List[Completion]] = {}
    for done in heard.completions:
        tables.setdefault((done.pid, done.table_id, done.extension, done.stream, done.original_network), []).append(done)
    head = ["table", "PID", "extension", "first whole in packet", "versions heard", "last version"]
    rows = [[table_name(key[1]), key[0], key[2], found[0].packet, len(found), found[-1].version] for key, found in sorted(tables.items())]
    return list_markup("Tables", head, rows, not heard.services)


def losses_markup(heard: Heard) -> str:
    """A line for each PID of which packets were lost; nothing where none were."""
    counts: Dict[int, List[int]] = {}
    for loss in heard.losses:
        counts.setdefault(loss.pid, []).append(loss.packet)
    if not counts:
        return ""
    rows = [[pid, len(packets), packets[0], packets[-1]] for pid, packets in sorted(counts.items())]
    return list_markup("PIDs with lost packets", ["PID", "breaks", "first in packet", "last in packet"], rows, True)


def junk_markup(heard: Heard) -> str:
    """A line for each stretch of bytes that was passed over; nothing where none was."""
    if not heard.junk:
        return ""
    return list_markup("Bytes passed over", ["before packet", "bytes"], [list(junk) for junk in heard.junk], True)


def colours_markup(rows: Sequence[Row]) -> str:
    groups = sorted({placed.event.genres[0].level_1 for row in rows for placed in row.placed if placed.event.genres})
    chips = "".join(f'<li class="e g{group}">{text(group_name(group))}</li>' for group in groups if group_name(group))
    return f'<details><summary>Colours</summary><div class="list"><ul>{chips or "<li>none</li>"}</ul></div></details>'


# ---- the page


def policy(script: str) -> str:
    """The policy of the page: nothing is fetched, and only this script runs."""
    digest = base64.b64encode(hashlib.sha256(script.encode("utf-8")).digest()).decode("ascii")
    return f"default-src 'none'; style-src 'unsafe-inline'; script-src 'sha256-{digest}'; base-uri 'none'; form-action 'none'"


def page_markup(heard: Heard, window: Window, title: Optional[str] = None) -> str:
    """The page of what was heard."""
    rows = [row_of(service, window) for service in heard.services]
    name = title if title is not None else heard.network.name if heard.network else "A guide"
    style = (HERE / "guide.css").read_text(encoding="utf-8")
    script = (HERE / "guide.js").read_text(encoding="utf-8")
    texts = embedded_json([event_texts(placed, window) for row in rows for placed in row.placed])
    lists = [wanting_markup(heard), losses_markup(heard), junk_markup(heard), services_markup(heard), others_markup(heard, window),
             local_times_markup(heard), tables_markup(heard), colours_markup(rows)]
    return "\n".join([
        '<!DOCTYPE html>', '<html lang="en">', '<head>', '<meta charset="utf-8">',
        f'<meta http-equiv="Content-Security-Policy" content="{escape(policy(script))}">',
        '<meta name="viewport" content="width=device-width,initial-scale=1">', f"<title>{text(name)}</title>",
        f"<style>{style}</style>", "</head>", "<body>" if rows else '<body class="bare">', head_markup(heard, rows, window, name), grid_markup(heard, rows, window),
        '<aside id="detail" aria-live="polite"><p class="soft">Choose an event. Arrow keys go from one to the next.</p></aside>',
        f'<footer>{"".join(lists)}</footer>', f'<script type="application/json" id="texts">{texts}</script>',
        f"<script>{script}</script>", "</body>", "</html>", "",
    ])
