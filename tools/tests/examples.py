"""What `listen` prints of the examples, as it is stored for the gate; made guides; and the program and the browser, where there are such."""
from __future__ import annotations

import os
import shutil
import sys
import unittest
from datetime import datetime, timedelta, timezone
from pathlib import Path
from typing import Dict, List, NoReturn

from loading import TOOLS, load

TOP = TOOLS.parent
PROGRAM = "crates/headend_main/out/headend_main"
BROWSERS = ("chromium", "chromium-browser", "google-chrome", "google-chrome-stable", "chrome")
FIRST = datetime(2026, 11, 30, tzinfo=timezone.utc)
DESCRIPTION = "Zwei Wärter teilen eine Lampe und einen Winter. Als das Boot ausbleibt, beginnt jeder, das Öl und die Tage zu zählen. " * 3


def stored_reports() -> Dict[str, List[str]]:
    """What `listen` prints of the air of each example, by its run, such as `play < week.txt`."""
    text = (TOP / "crates" / "play_rows" / "data" / "examples.kept").read_text(encoding="utf-8")
    return {run: list(row.heard) for run, row in load("shown-outputs").stored_rows(text).items()}


def stored_lines(run: str) -> List[str]:
    """What `listen` prints of the air of an example."""
    return stored_reports()[run]


def skip(reason: str) -> NoReturn:
    """Skips a test, and prints why."""
    print(f"tests: skipped, since {reason}", file=sys.stderr)
    raise unittest.SkipTest(reason)


def program() -> Path:
    """The program: the one that LEPNUGAN names, else that of this checkout. A test that asks for it is skipped where there is none."""
    named = os.environ.get("LEPNUGAN")
    path = Path(named) if named else TOP / PROGRAM
    if not path.is_file() or not os.access(path, os.X_OK):
        skip(f"there is no program {named or PROGRAM}")
    return path.resolve()


def browser() -> str:
    """A browser that is Chromium. A test that asks for it is skipped where there is none."""
    found = [path for path in [shutil.which(name) for name in BROWSERS] if path]
    return found[0] if found else skip(f"there is no browser: none of {', '.join(BROWSERS)}")


def made_lines(services: int, days: int) -> List[str]:
    """What `listen` would print of a guide with events without a gap, of 25 to 70 minutes, with texts as long as those of real ones."""
    lines = [f"clock\t{FIRST + timedelta(hours=20, minutes=20):%Y-%m-%dT%H:%M:%SZ}", "network\t65281\tHarbour Cable", "stream\t7\t65281"]
    for service in range(101, 101 + services):
        lines.append(f"service\t{service}\t{1 + service % 2 * 24}\tHarbour Media\tKüste {service - 100}\t{155 + service}\t{400 + service}")
        lines += made_events(service, days)
    return [*lines, "end"]


def made_events(service: int, days: int) -> List[str]:
    """The lines of a service: present, following and the schedule."""
    clock, start = FIRST + timedelta(hours=20, minutes=20), FIRST
    events: List[str] = []
    named: List[str] = []
    while start < FIRST + timedelta(days=days):
        number = len(events)
        minutes = 25 + (number * 7 + service) % 10 * 5
        fields = [str(number), f"{start:%Y-%m-%dT%H:%M:%SZ}", f"{minutes // 60:02}:{minutes % 60:02}:00", "deu", f"Sendung {number % 37}",
                  f"Folge {number}", DESCRIPTION[: number % 4 * 110], "DEU" if number % 3 else "", "9" if number % 3 else "",
                  f"{number % 11}.{number % 5}.0" if number % 11 else ""]
        end = start + timedelta(minutes=minutes)
        if end > clock and len(named) < 2:
            named.append("\t".join([("now", "next")[len(named)], *fields]))
        events.append("\t".join(["event", *fields]))
        start = end
    return named + events
