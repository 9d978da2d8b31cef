"""Tests of tools/crate-list."""
from __future__ import annotations

import contextlib
import io
import tempfile
import unittest
from pathlib import Path
from typing import Tuple

from loading import load

tool = load("crate-list")

CRATES = """# The crates.
# ---- low: bytes
bytes: memchr
words may_wait=2: bytes  # a comment
# ---- middle: tables
tables: words bytes
# ---- high: the program
main: tables bytes
"""

MAP = """```mermaid
flowchart TB
  high["<b>high</b><br/>the program"]
  middle["<b>middle</b><br/>tables"]
  low["<b>low</b><br/>bytes"]
  high --> middle
  middle --> low
```
"""


class Listings(unittest.TestCase):
    def test_rooms_and_crates_are_read(self) -> None:
        listing = tool.read_listing(CRATES)
        self.assertEqual(listing.rooms, {"low": "bytes", "middle": "tables", "high": "the program"})
        self.assertEqual(listing.crates[1], ("words", "low", ["bytes"]))
        self.assertEqual(list(tool.faults_of(listing)), [])

    def test_a_crate_before_one_that_it_stands_on(self) -> None:
        listing = tool.read_listing("# ---- low: bytes\nwords: bytes\nbytes:\nself: self\n")
        self.assertEqual(
            list(tool.faults_of(listing)),
            ["crates.txt: words stands on bytes, which comes later", "crates.txt: self stands on self, which comes later"],
        )

    def test_a_crate_without_a_room(self) -> None:
        listing = tool.read_listing("bytes:\n# ---- low: bytes\nwords: bytes\n")
        self.assertEqual(list(tool.faults_of(listing)), ["crates.txt: bytes has no room"])


class Documents(unittest.TestCase):
    def test_a_head_ends_at_the_first_other_line(self) -> None:
        self.assertEqual(tool.head_of("//! Bytes.\n//!\n//! More.\n#![tactic(auto)]\n//! Not this.\n"), ["Bytes.", "", "More."])

    def test_links_of_the_source_become_names_and_files_links(self) -> None:
        self.assertEqual(
            tool.as_document("bytes", ["[`Reader`] is `specs/Read.antt`."]),
            "`Reader` is [`specs/Read.antt`](../crates/bytes/specs/Read.antt).",
        )

    def test_an_arrow_that_others_imply_is_left_out(self) -> None:
        self.assertEqual(tool.map_of(tool.read_listing(CRATES)), MAP)

    def test_an_arrow_upwards_is_shown(self) -> None:
        shown = tool.map_of(tool.read_listing("# ---- low: bytes\nbytes: words\n# ---- high: words\nwords:\n"))
        self.assertIn("  low --> high\n", shown)


class Runs(unittest.TestCase):
    def setUp(self) -> None:
        folder = tempfile.TemporaryDirectory()
        self.addCleanup(folder.cleanup)
        self.top = Path(folder.name)
        (self.top / "docs").mkdir()
        (self.top / "docs" / "ARCHITECTURE.md").write_text("# Map\n\n" + MAP, encoding="utf-8")
        (self.top / "crates.txt").write_text(CRATES, encoding="utf-8")
        for name, file in (("bytes", "lib.rt"), ("words", "lib.rt"), ("tables", "lib.rt"), ("main", "main.rt")):
            source = self.top / "crates" / name / "src" / file
            source.parent.mkdir(parents=True)
            source.write_text(f"//! The crate {name}.\n#![tactic(auto)]\n", encoding="utf-8")

    def run_tool(self, *words: str) -> Tuple[int, str]:
        """The status and what went to the two outputs."""
        out = io.StringIO()
        with contextlib.redirect_stdout(out), contextlib.redirect_stderr(out):
            status = tool.main(["--top", str(self.top), *words])
        return status, out.getvalue()

    def test_what_is_written_is_what_is_checked(self) -> None:
        self.assertEqual(self.run_tool(), (0, ""))
        text = (self.top / "docs" / "CRATES.md").read_text(encoding="utf-8")
        self.assertIn("## low: bytes\n\n### `bytes`\n\nThe crate bytes.\n\n### `words`\n\nThe crate words.\n\n## middle", text)
        self.assertEqual(self.run_tool("--check"), (0, ""))

    def test_a_head_that_changed_is_found(self) -> None:
        self.run_tool()
        (self.top / "crates" / "main" / "src" / "main.rt").write_text("//! Another.\n", encoding="utf-8")
        self.assertEqual(self.run_tool("--check"), (1, "crate-list: docs/CRATES.md differs: run tools/crate-list\n"))

    def test_another_map_is_found(self) -> None:
        self.run_tool()
        (self.top / "docs" / "ARCHITECTURE.md").write_text("# Map\n", encoding="utf-8")
        status, said = self.run_tool("--check")
        self.assertEqual(status, 1)
        self.assertIn("docs/ARCHITECTURE.md has another map", said)

    def test_the_map_is_printed(self) -> None:
        self.assertEqual(self.run_tool("--map"), (0, MAP))

    def test_a_crate_without_a_head_is_found_and_nothing_written(self) -> None:
        (self.top / "crates" / "words" / "src" / "lib.rt").write_text("#![tactic(auto)]\n", encoding="utf-8")
        self.assertEqual(self.run_tool(), (1, "crate-list: words has no head\n"))
        self.assertFalse((self.top / "docs" / "CRATES.md").exists())


if __name__ == "__main__":
    unittest.main()
