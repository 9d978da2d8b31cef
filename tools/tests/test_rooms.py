"""Tests of tools/rooms."""
import contextlib
import io
import tempfile
import unittest
from pathlib import Path
from typing import Tuple

from loading import load, write_files

tool = load("rooms")
CRATES = """# The crates.
# ---- low: bytes
bytes: memchr
words may_wait=2: bytes
# ---- middle: tables
tables: words bytes
# ---- high: the program
main: tables bytes
"""
FILES = {
    "crates/bytes/src/lib.rt": "//! Bytes.\n\npub fn crc32() {}\n",
    "crates/bytes/src/inner/more.rt": "// more\n",
    "crates/bytes/specs/Crc.antt": "abbrev pub crc_of : ℕ\ncrc_of = 0\n",
    "crates/bytes/must-fail/one.edit": "file: src/lib.rt\n",
    "crates/words/src/lib.rt": "//! Words.\n",
    "crates/words/proofs/Facts.antt": "\n\n\n",
    "crates/main/src/main.rt": "//! The program.\n",
}
SHOWN = """room        crates     src   specs  proofs  stands on
low              2       5       2       3
middle           1       0       0       0  low
high             1       1       0       0  middle low
all              4       6       2       3
"""


class Rooms(unittest.TestCase):
    def run_over(self, crates: str) -> Tuple[int, str, str]:
        """The status, and what goes to the two outputs."""
        out, err = io.StringIO(), io.StringIO()
        with tempfile.TemporaryDirectory() as folder, contextlib.redirect_stdout(out), contextlib.redirect_stderr(err):
            write_files(Path(folder), {**FILES, "crates.txt": crates})
            status = tool.main(["--top", folder])
        return status, out.getvalue(), err.getvalue()

    def test_each_room_has_a_line(self) -> None:
        self.assertEqual(self.run_over(CRATES), (0, SHOWN, ""))

    def test_an_arrow_that_goes_up(self) -> None:
        status, shown, said = self.run_over(CRATES.replace("words may_wait=2: bytes", "words: main bytes tables"))
        self.assertEqual(status, 1)
        self.assertIn("low              2       5       2       3  high middle\n", shown)
        self.assertEqual(said.splitlines(), ["rooms: an arrow goes up, from low to high: words stands on main",
                                             "rooms: an arrow goes up, from low to middle: words stands on tables"])

    def test_a_room_that_goes_on_later(self) -> None:
        status, _, said = self.run_over(CRATES + "# ---- low: bytes\nlate: main\n")
        self.assertEqual((status, said), (1, "rooms: an arrow goes up, from low to high: late stands on main\n"))

    def test_a_crate_of_its_own_room_is_no_arrow(self) -> None:
        self.assertEqual(self.run_over("# ---- low: bytes\nwords: bytes\nbytes:\n")[0], 0)

    def test_a_crate_without_a_room(self) -> None:
        status, _, said = self.run_over("bytes: main\n" + CRATES)
        self.assertEqual((status, said), (1, "rooms: bytes has no room\n"))


if __name__ == "__main__":
    unittest.main()
