"""The page of measured intervals: one file of HTML with a chart, that needs no other."""
from __future__ import annotations

import math
from html import escape
from pathlib import Path
from typing import Iterable, List, Optional, Sequence

from intervals.limits import APART, APART_BY
from intervals.measures import STEPS, Extreme, Row, asked, shown
from intervals.recording import Recording

HERE = Path(__file__).resolve().parent
STATES = {"good": "good", "late": "late", "error": "error", "once": "came once", "absent": "not heard"}
LEFT, RIGHT, WIDTH, TALL, TOP = 250, 1040, 1130, 34, 30
# The chart goes from 1 ms to 1,000 s.
LOW, HIGH = -3, 3


def cell(seconds: Optional[float]) -> str:
    return "–" if seconds is None else shown(seconds)


def most_of(row: Row) -> str:
    """The longest wait; that of a section that did not come again within the recording as a least one."""
    longest = row.most.seconds if row.most else None
    if row.silence and row.silence.seconds > (longest or 0) and row.wait_state != "good":
        return f"≥ {shown(row.silence.seconds)}"
    return cell(longest)


def where(found: Optional[Extreme]) -> str:
    """Which section a wait or a gap is of, and when it began."""
    if found is None:
        return ""
    section = found.section
    return f"PID {section.pid}, table 0x{section.table_id:02X}, extension {section.extension}, section {section.number}, at {found.at:.3f} s"


# ---- the chart


def across(seconds: float) -> float:
    """Where a time stands on the scale, from the left."""
    place = math.log10(min(max(seconds, 10 ** LOW), 10 ** HIGH))
    return LEFT + (RIGHT - LEFT) * (place - LOW) / (HIGH - LOW)


def scale(height: int) -> Iterable[str]:
    for power in range(LOW, HIGH + 1):
        at = across(10 ** power)
        yield f'<line x1="{at:.1f}" x2="{at:.1f}" y1="22" y2="{height}" class="scale"/>'
        yield f'<text x="{at:.1f}" y="14" text-anchor="middle" class="soft">{scale_text(power)}</text>'


def scale_text(power: int) -> str:
    return f"{10 ** power:,} s" if power >= 0 else f"{10 ** (power + 3)} ms"


def bars(row: Row, middle: float) -> Iterable[str]:
    """A bar for each step of waits, as high as the logarithm of how many there are."""
    most = max(row.steps.values(), default=1)
    for step, count in sorted(row.steps.items()):
        seconds = 10 ** (step / STEPS)
        tall = 4 + 20 * math.log1p(count) / math.log1p(most)
        yield (f'<rect x="{across(seconds) - 2:.1f}" y="{middle + 12 - tall:.1f}" width="4" height="{tall:.1f}" class="bar">'
               f"<title>{count:,} waits of about {shown(seconds)}</title></rect>")


def marks(row: Row, middle: float) -> Iterable[str]:
    """The recommended and the tolerated interval."""
    limit = row.limit
    if limit.recommended is not None:
        wide = across(limit.recommended) - LEFT
        yield f'<rect x="{LEFT}" y="{middle - 13:.0f}" width="{wide:.1f}" height="26" class="allowed"/>'
    for seconds, name in ((limit.recommended, "recommended"), (limit.tolerated, "tolerated")):
        if seconds is not None and not (name == "recommended" and seconds == limit.tolerated):
            at = across(seconds)
            yield (f'<line x1="{at:.1f}" x2="{at:.1f}" y1="{middle - 15:.0f}" y2="{middle + 15:.0f}" class="{name}">'
                   f"<title>{name}: {asked(seconds)}</title></line>")


def chart_markup(rows: Sequence[Row]) -> str:
    height = TOP + TALL * len(rows)
    drawn = list(scale(height))
    for place, row in enumerate(rows):
        middle = TOP + TALL * place + TALL / 2
        drawn.append(f'<text x="0" y="{middle + 5:.0f}">{escape(row.limit.table)}</text>')
        drawn += [*marks(row, middle), *bars(row, middle)]
        drawn.append(f'<text x="{WIDTH}" y="{middle + 5:.0f}" text-anchor="end" class="{row.wait_state}">{most_of(row)}</text>')
    return f'<svg viewBox="0 0 {WIDTH} {height + 4}" role="img" aria-label="how often each table comes">{"".join(drawn)}</svg>'


# ---- the tables


def table_markup(head: Sequence[str], rows: Iterable[str]) -> str:
    cells = "".join(f"<th>{escape(name)}</th>" for name in head)
    return f'<div class="wide"><table><thead><tr>{cells}</tr></thead><tbody>{"".join(rows)}</tbody></table></div>'


def limit_cell(seconds: Optional[float], clause: str) -> str:
    return f'<td title="{escape(clause)}">{"–" if seconds is None else asked(seconds)}</td>'


def row_markup(row: Row, seconds: float) -> str:
    limit = row.limit
    gap = row.gap.seconds if row.gap else None
    rate = row.bytes * 8 / seconds if seconds else 0
    return (f'<tr class="{row.state}"><td>{escape(limit.table)}</td><td>{len(row.sub_tables):,}</td><td>{row.sections:,}</td><td>{rate:,.0f}</td>'
            f'<td>{cell(row.least)}</td><td>{cell(row.mean)}</td><td class="{row.wait_state}" title="{escape(where(row.most))}">{most_of(row)}</td>'
            f"{limit_cell(limit.recommended, limit.recommended_by)}{limit_cell(limit.tolerated, limit.tolerated_by)}"
            f'<td class="{row.gap_state}" title="{escape(where(row.gap))}">{cell(gap)}</td><td>{STATES[row.state]}</td></tr>')


def tables_markup(rows: Sequence[Row], seconds: float) -> str:
    head = ["table", "sub-tables", "sections", "bit/s", "least wait", "mean", "most", "recommended", "tolerated", "least gap", ""]
    return table_markup(head, (row_markup(row, seconds) for row in rows))


def pids_markup(recording: Recording, seconds: float) -> str:
    lines = [f"<tr><td>{pid}</td><td>0x{pid:04X}</td><td>{count:,}</td><td>{count * 1504 / seconds if seconds else 0:,.0f}</td>"
             f"<td>{100 * count / recording.packets:.2f} %</td><td>{escape(recording.pid_name(pid))}</td></tr>"
             for pid, count in sorted(recording.counts.items(), key=lambda item: (-item[1], item[0]))]
    return table_markup(["PID", "", "packets", "bit/s", "share", ""], lines)


def facts(recording: Recording, how: str, seconds: float) -> List[str]:
    rate = recording.packets * 1504 / seconds if seconds else 0
    return [f"{recording.packets:,} packets of {recording.size} bytes", f"{seconds:.2f} s at {rate:,.0f} bit/s ({how})",
            f"{recording.junk:,} bytes of junk", f"{recording.breaks:,} breaks of continuity", f"{recording.damaged:,} damaged sections"]


def page_markup(recording: Recording, rows: Sequence[Row], how: str, seconds: float, title: str) -> str:
    """The page of a recording."""
    style = (HERE / "intervals.css").read_text(encoding="utf-8")
    errors = "".join(f"<li>{escape(error)}</li>" for row in rows for error in row.errors)
    return "\n".join([
        "<!DOCTYPE html>", '<html lang="en">', "<head>", '<meta charset="utf-8">',
        "<meta http-equiv=\"Content-Security-Policy\" content=\"default-src 'none'; style-src 'unsafe-inline'\">",
        '<meta name="viewport" content="width=device-width,initial-scale=1">', f"<title>Intervals of {escape(title)}</title>",
        f"<style>{style}</style>", "</head>", "<body>", f"<h1>How often each table comes: {escape(title)}</h1>",
        f"<p>{escape(' · '.join(facts(recording, how, seconds)))}</p>",
        f'<ul class="errors">{errors}</ul>' if errors else '<p class="good">No tolerated interval is broken.</p>',
        f'<div class="wide">{chart_markup(rows)}</div>',
        "<p>A bar stands for waits from one start of a section to its next; both scales are logarithmic. The green field reaches to the "
        "recommended interval (TR 101 211; PAT and PMT: TS 101 154), the red line is the tolerated one (TR 101 290). The least gap is from "
        f"the end of a section to the next of its PID, table_id and table_id_extension: at least {asked(APART)} is asked ({APART_BY}). "
        "Late is later than recommended; an error is beyond what is tolerated, or closer than is asked.</p>",
        tables_markup(rows, seconds), "<h2>PIDs</h2>", pids_markup(recording, seconds), "</body>", "</html>", "",
    ])
