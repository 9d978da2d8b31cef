"""Tests of tools/page: what stands on the page, and what it does in a browser."""
import contextlib
import io
import itertools
import json
import re
import subprocess
import tempfile
import unittest
from collections import Counter
from datetime import datetime, timezone
from html import unescape
from html.parser import HTMLParser
from pathlib import Path
from typing import Dict, List, Optional, Tuple

from examples import TOP, browser, made_lines, program, skip, stored_lines, stored_reports
from heard import read_heard
from loading import load
from page.markup import page_markup, policy
from page.timeline import window_of
from page.zones import zone_of

tool = load("page/guide_page")

HEAD = ["clock\t2026-11-30T20:20:00Z", "network\t1\tDemo", "stream\t1\t1", "service\t101\t1\tAcme\tNews\t256\t257"]
BAD = "</script><script>document.title='bad'</script><!-- & \"'"


def event(word: str, number: int, start: str, name: str = "Show", duration: str = "01:00:00") -> str:
    return f"{word}\t{number}\t{start}\t{duration}\teng\t{name}\t\t\t\t\t"


class Page(HTMLParser):
    """What stands on a page: how many elements have each class, the texts by element, and the texts of the events."""

    def __init__(self, text: str) -> None:
        super().__init__(convert_charrefs=True)
        self.classes: "Counter[str]" = Counter()
        self.texts: Dict[str, List[str]] = {}
        self.attributes: List[Tuple[str, str, Optional[str]]] = []
        self._open: List[str] = []
        self._blocks: Dict[str, str] = {}
        self.feed(text)
        self.events = json.loads(self._blocks["texts"])

    def handle_starttag(self, tag: str, attrs: "List[Tuple[str, Optional[str]]]") -> None:
        found = dict(attrs)
        self.attributes += [(tag, name, value) for name, value in attrs]
        for name in (found.get("class") or "").split():
            self.classes[name if tag != "button" else f"button.{name}"] += 1
        self._open.append(found.get("id") or "" if tag == "script" else tag)

    def handle_endtag(self, tag: str) -> None:
        if self._open:
            self._open.pop()

    def handle_data(self, data: str) -> None:
        if self._open and self._open[-1]:
            self.texts.setdefault(self._open[-1], []).append(data)
            self._blocks[self._open[-1]] = self._blocks.get(self._open[-1], "") + data


def page_of(lines: List[str], zone: str = "UTC", days: Optional[int] = None) -> str:
    heard = read_heard(lines)
    return page_markup(heard, window_of(heard, zone_of(zone), days))


def run(lines: List[str], *words: str) -> Tuple[int, str, str]:
    """The status of the tool, what it writes, and what it prints."""
    out, printed = io.TextIOWrapper(io.BytesIO(), encoding="utf-8"), io.StringIO()
    with tempfile.TemporaryDirectory() as folder, contextlib.redirect_stdout(out), contextlib.redirect_stderr(printed):
        path = Path(folder) / "report"
        path.write_text("\n".join(lines) + "\n", encoding="utf-8")
        status = tool.main([str(path), *words])
    out.seek(0)
    return status, out.read(), printed.getvalue()


class Shown(unittest.TestCase):
    def test_the_week(self) -> None:
        lines = stored_lines("play < week.txt")
        status, text, printed = run(lines)
        page = Page(text)
        words = Counter(line.split("\t")[0] for line in lines)
        self.assertEqual((status, printed), (0, ""))
        self.assertEqual(page.classes["row"] - page.classes["ruler"], words["service"])
        self.assertEqual((page.classes["button.e"], len(page.events)), (words["event"], words["event"]))
        self.assertEqual((page.classes["button.now"], words["now"]), (3, 3))
        self.assertEqual((page.classes["day"], page.classes["good"]), (7, 1))
        self.assertEqual(page.texts["h1"], ["Harbour Cable"])
        self.assertIn("Wanting: 0", page.texts["summary"])
        self.assertIn("Tables: 15", page.texts["summary"])
        self.assertIn(["Deep Cranes", "Tue 1 Dec 20:00 to 21:30, 90 minutes", "How a port works", "", "Documentary · eng · event 23"], page.events)

    def test_each_example(self) -> None:
        reports = stored_reports()
        self.assertGreaterEqual(len(reports), 5)
        for name, lines in reports.items():
            # the page has no row and no event of other streams, which stand last
            own = itertools.takewhile(lambda line: not line.startswith("other\t"), lines)
            page, words = Page(page_of(lines)), Counter(line.split("\t")[0] for line in own)
            found = (page.classes["row"] - 1, page.classes["button.e"], page.classes["button.now"])
            self.assertEqual(found, (words["service"], words["event"], words["now"]), name)

    def test_present_that_is_not_in_the_schedule_is_shown(self) -> None:
        at, later = "2026-11-30T20:00:00Z", "2026-11-30T21:00:00Z"
        page = Page(page_of([*HEAD, event("now", 1, at), event("next", 2, later), event("event", 2, later), "end"]))
        self.assertEqual((len(page.events), page.classes["button.now"]), (2, 1))
        self.assertIn("now", page.events[0][4])
        self.assertIn("next", page.events[1][4])

    def test_local_times(self) -> None:
        britain = "local\tGBR\t0\tahead\t0\t2027-03-28T01:00:00Z\t60\t2026-11-30T20:20:00"
        azores = "local\tPRT\t2\tbehind\t60\t2027-03-28T01:00:00Z\t0\t2026-11-30T19:20:00"
        one, two = (Page(page_of([HEAD[0], *lines, *HEAD[1:], "end"])) for lines in ([britain], [britain, azores]))
        self.assertIn("clock Mon 30 Nov 2026 20:20:00 UTC · local time of GBR UTC+00:00", one.texts["p"][0])
        self.assertIn("local times of 2 regions", two.texts["p"][0])
        self.assertIn("Local times: 2", two.texts["summary"])
        at = two.texts["td"].index("PRT 2")
        self.assertEqual(two.texts["td"][at:at + 5], ["PRT 2", "2026-11-30 19:20:00", "UTC-01:00", "2027-03-28 01:00:00", "UTC+00:00"])
        self.assertNotIn("ocal time", page_of([*HEAD, "end"]))

    def test_services_of_other_streams_are_a_list(self) -> None:
        lines = [*HEAD, "other\t2\t1\t\t\t\t\t", "remote\t201\t1\tFar\tOne", event("now", 1, "2026-11-30T20:00:00Z"), "remote\t202\t1\tFar\tTwo", "end"]
        page = Page(page_of(lines, "+0100"))
        self.assertIn("Services of other streams: 2", page.texts["summary"])
        at = page.texts["td"].index("2 of network 1")
        self.assertEqual(page.texts["td"][at:at + 5], ["2 of network 1", "201", "One", "Far", "21:00 Show"])
        self.assertNotIn("other streams", page_of([*HEAD, "end"]))

    def test_all_text_is_escaped(self) -> None:
        head = [line.replace("Demo", BAD).replace("Acme", BAD).replace("News", BAD) for line in HEAD]
        wanting, fault = f"wanting\t{BAD}", f"fault: {BAD}"
        lines = [*head, event("event", 1, "2026-11-30T20:00:00Z", BAD).replace("eng", BAD), wanting, "end", fault]
        text = page_of(lines)
        page = Page(text)
        self.assertEqual((text.count("<script"), text.count("</script"), text.count("<!--")), (2, 2, 0))
        self.assertEqual((page.events[0][0], page.texts["h1"], page.texts["title"]), (BAD, [BAD], [BAD]))
        self.assertIn(BAD, page.texts["b"])
        self.assertIn(BAD, page.texts["td"])

    def test_texts_in_hexadecimal_are_read(self) -> None:
        name = "hex:526164696f204772c86ffb65"
        page = Page(page_of([*HEAD[:3], f"service\t101\t2\thex:1f00\t{name}\t256\t257", event("event", 1, "2026-11-30T20:00:00Z", name), "end"]))
        self.assertEqual((page.events[0][0], page.texts["b"][-2:]), ("Radio Größe", ["Radio Größe"] * 2))
        self.assertIn("hex:1f00", page.texts["td"])

    def test_control_characters_are_not_on_the_page(self) -> None:
        self.assertIsNone(re.search("[\x00-\x08\x0b-\x1f\x7f-\x9f]", page_of([*HEAD, event("event", 1, "2026-11-30T20:00:00Z", "a\x00\x1b\x9bb"), "end"])))

    def test_nothing_is_fetched(self) -> None:
        page = Page(page_of(stored_lines("play < week.txt")))
        self.assertFalse([found for found in page.attributes if found[1] in ("src", "href", "srcset", "action", "data")])
        policies = [value or "" for tag, name, value in page.attributes if tag == "meta" and name == "content" and "src" in (value or "")]
        self.assertTrue(policies and policies[0].startswith("default-src 'none';"))
        style = (TOP / "tools" / "page" / "guide.css").read_text(encoding="utf-8")
        self.assertNotRegex(style, r"url\(|@import")

    def test_what_is_wanting_is_a_list(self) -> None:
        lines = ["wanting\tpat", "wanting\tclock", "wanting\tpmt\t256\t101", "wanting\tpresent\t101", "wanting\tschedule\t101\t80", "wanting\tnew\t1", "end"]
        status, text, printed = run(lines)
        cells = Page(text).texts["td"]
        self.assertEqual(status, 1)
        for sentence in ("PAT", "TDT, the clock", "PMT of programme 101, PID 256", "present and following of service 101",
                         "schedule of service 101, table 0x50", "new 1"):
            self.assertIn(sentence, cells)
            self.assertIn(f"guide_page: wanting: {sentence}\n", printed)
        self.assertIn("6 wanting", Page(text).texts["span"])

    def test_versions_and_losses_are_lists(self) -> None:
        done = "done\t{}\t18\t78\t101\t1\t1\t{}"
        page = Page(page_of([done.format(5, 31), done.format(46, 0), "lost\t9\t18", "lost\t11\t18", *HEAD, "end"]))
        self.assertIn("PIDs with lost packets: 1", page.texts["summary"])
        cells = page.texts["td"]
        at = cells.index("EIT present/following")
        self.assertEqual(cells[at:at + 6], ["EIT present/following", "18", "101", "5", "2", "0"])

    def test_a_part_of_a_guide_and_bytes_passed_over(self) -> None:
        status, text, _ = run(["junk\t3\t8", "wanting\tsdt", "stream\t1\t", "service\t101\t\t\t\t256\t", "end"])
        self.assertEqual((status, "type None" in text, "network None" in text), (1, False, False))
        self.assertIn("Bytes passed over: 1", Page(text).texts["summary"])

    def test_a_report_that_is_cut_off_or_none(self) -> None:
        status, text, printed = run(HEAD)
        self.assertEqual((status, "has no `end` line" in printed, "cut off before its end" in text), (1, True, True))
        status, text, printed = run([*HEAD, "event\t1"])
        self.assertEqual((status, text), (2, ""))
        self.assertIn("line 5 is no `event` line of `listen`", printed)
        self.assertEqual(run([])[0], 1)

    def test_json_has_the_same(self) -> None:
        status, text, _ = run(stored_lines("play < week.txt"), "--json")
        made = json.loads(text)
        self.assertEqual((status, made["whole"]), (0, True))
        self.assertEqual([len(service["events"]) for service in made["services"]], [28, 14, 2])

    def test_a_made_week_is_below_three_megabytes(self) -> None:
        lines = made_lines(20, 7)
        text = page_of(lines)
        self.assertGreater(len(Page(text).events), 3_500)
        self.assertLess(len(text.encode("utf-8")), 3_000_000)
        self.assertEqual(Page(text).classes["button.now"], 20)


class Times(unittest.TestCase):
    def at(self, zone: str) -> str:
        return str(Page(page_of([*HEAD, event("event", 1, "2026-11-30T23:30:00Z"), "end"], zone)).events[0][1])

    def test_times_are_those_of_the_zone(self) -> None:
        self.assertEqual(self.at("UTC"), "Mon 30 Nov 23:30 to Tue 1 Dec 00:30, 60 minutes")
        self.assertEqual(self.at("+0100"), "Tue 1 Dec 00:30 to 01:30, 60 minutes")
        self.assertEqual(self.at("-03:30"), "Mon 30 Nov 20:00 to 21:00, 60 minutes")

    def test_a_zone_with_summer_time(self) -> None:
        try:
            zone = zone_of("Europe/Berlin")
        except ValueError as error:
            skip(str(error))
        lines = [*HEAD, event("event", 1, "2027-03-27T23:00:00Z", duration="06:00:00"), event("event", 2, "2027-03-28T05:00:00Z"), "end"]
        heard = read_heard(lines)
        page = Page(page_markup(heard, window_of(heard, zone)))
        self.assertEqual(page.events[0][1], "Sun 28 Mar 00:00 to 07:00, 360 minutes")
        hours = [text for text in page.texts["div"] if re.fullmatch(r"\d\d:00", text)]
        self.assertEqual(hours[:4], ["00:00", "01:00", "03:00", "04:00"])

    def test_zones_that_are_none(self) -> None:
        for zone in ("+1", "+2500", "+0060", "Nowhere/Town", "../etc/passwd", ""):
            with self.assertRaises(ValueError):
                zone_of(zone)
        self.assertEqual(run(HEAD, "--zone", "Nowhere/Town")[0], 2)

    def test_an_event_far_away_does_not_widen_the_page(self) -> None:
        lines = ["clock\t1970-01-01T00:00:00Z", *HEAD[1:], event("next", 1, "2026-11-30T20:00:00Z"), "end"]
        page = Page(page_of(lines))
        self.assertEqual((len(page.events), page.classes["hour"]), (1, 6))
        lines.insert(5, event("event", 2, "1970-01-01T01:00:00Z"))
        text = page_of(lines)
        self.assertEqual(len(Page(text).events), 1)
        self.assertIn("1 event outside of these days", text)

    def test_a_schedule_of_64_days_and_more(self) -> None:
        first, last = event("event", 1, "2026-11-30T00:00:00Z"), event("event", 2, "2037-11-30T00:00:00Z")
        heard = read_heard([*HEAD, first, last, "end"])
        self.assertEqual(window_of(heard, timezone.utc).minutes, 66 * 24 * 60)

    def test_days_from_the_clock_on(self) -> None:
        heard = read_heard(stored_lines("play < week.txt"))
        window = window_of(heard, timezone.utc, 1)
        self.assertEqual((window.start, window.minutes), (datetime(2026, 11, 30, 19, tzinfo=timezone.utc), 24 * 60 + 20))
        self.assertEqual(run(HEAD, "--days", "0")[0], 2)

    def test_a_guide_without_events_or_a_clock(self) -> None:
        page = Page(page_of(["done\t0\t0\t0\t7\t0\t0\t0", "wanting\tsdt", "end"]))
        self.assertEqual((page.events, page.classes["bare"], page.classes["row"]), ([], 1, 0))
        self.assertEqual([tag for tag, name, _ in page.attributes if name == "open"], ["details", "details"])
        self.assertIn("no clock", page_of([*HEAD[1:], "end"]))


SCRIPT = """{
const result = {}, search = document.getElementById("find"), events = [...document.querySelectorAll("button.e")];
const shown = () => document.querySelector("#detail h2").textContent;
const key = (target, name) => target.dispatchEvent(new KeyboardEvent("keydown", {key: name, bubbles: true, cancelable: true}));
result.first = shown();
result.scrolled = document.getElementById("grid").scrollLeft;
search.value = "CRANES";
search.dispatchEvent(new Event("input"));
result.found = document.getElementById("found").textContent;
result.bright = events.filter(event => !event.classList.contains("dim")).length;
key(search, "Enter");
result.entered = shown();
key(search, "Escape");
result.dim = events.filter(event => event.classList.contains("dim")).length;
events[3].click();
result.clicked = shown();
result.focused = document.activeElement === events[3];
key(events[3], "ArrowRight");
result.right = shown();
key(document.activeElement, "ArrowDown");
result.down = document.querySelector("#detail p").textContent.split(" · ")[0];
const before = events[0].offsetWidth;
document.getElementById("wide").click();
result.wider = events[0].offsetWidth > before;
document.getElementById("day").selectedIndex = 2;
document.getElementById("day").dispatchEvent(new Event("change"));
result.day = document.getElementById("grid").scrollLeft > result.scrolled;
key(document.body, "/");
result.searching = document.activeElement === search;
result.title = document.title;
document.body.dataset.result = JSON.stringify(result);
}"""


class Browser(unittest.TestCase):
    def dump(self, text: str) -> str:
        """The page as a browser has it after its scripts ran."""
        program = browser()
        with tempfile.TemporaryDirectory() as folder:
            page = Path(folder) / "guide.html"
            page.write_text(text, encoding="utf-8")
            command = [program, "--headless", "--no-sandbox", "--disable-gpu", f"--user-data-dir={folder}/profile", "--window-size=1280,700",
                       "--virtual-time-budget=2000", "--dump-dom", page.as_uri()]
            done = subprocess.run(command, stdout=subprocess.PIPE, stderr=subprocess.DEVNULL, timeout=60, check=False)
        return done.stdout.decode("utf-8", "replace")

    def test_the_page_is_searched_and_clicked(self) -> None:
        lines = [line.replace("Night Ship", BAD) for line in stored_lines("play < week.txt")]
        allowed = re.search(r"'sha256-[^']+'", policy(SCRIPT))
        assert allowed
        text = page_of(lines).replace("script-src ", f"script-src {allowed.group()} ".replace("'", "&#x27;"))
        other = "<script>document.title = 'a script that is not the page\\'s'</script>"
        dumped = self.dump(text.replace("</body>", f"{other}<script>{SCRIPT}</script></body>"))
        found = re.search(r'data-result="([^"]*)"', dumped)
        self.assertIsNotNone(found, dumped[-2000:])
        assert found
        result = json.loads(unescape(found.group(1)))
        self.assertGreater(result.pop("scrolled"), 0)
        self.assertEqual(result, {
            "first": "The Lighthouse", "found": "1 found", "bright": 1, "entered": "Deep Cranes", "dim": 0, "clicked": "The Lighthouse",
            "focused": True, "right": BAD, "down": "Küstenkanal", "wider": True, "day": True, "searching": True, "title": "Harbour Cable",
        })


class Program(unittest.TestCase):
    def test_the_page_of_what_the_program_hears(self) -> None:
        here = program()
        with (TOP / "examples" / "week.txt").open("rb") as script:
            air = subprocess.run([here, "play"], stdin=script, capture_output=True, timeout=60, check=True).stdout
        report = subprocess.run([here, "listen"], input=air, capture_output=True, timeout=60, check=True).stderr.decode("utf-8")
        page = Page(run(report.split("\n"))[1])
        self.assertEqual((len(page.events), page.classes["button.now"]), (44, 3))
        report = subprocess.run([here, "listen"], input=air[188:188 * 30], capture_output=True, timeout=60, check=True).stderr.decode("utf-8")
        status, text, _ = run(report.split("\n"))
        self.assertEqual((status, Page(text).classes["bad"]), (1, 1))


if __name__ == "__main__":
    unittest.main()
