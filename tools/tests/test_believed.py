"""Tests of tools/believed."""
import contextlib
import io
import tempfile
import unittest
from pathlib import Path

from loading import load, write_files

tool = load("believed")

TOP_RT = """ghost use Rattle.words.specs.Spelled.{IsListen, IsPlay};
ghost use Rattle.listen.specs.Leaves.{ListenRan};
ghost use Rattle.std.specs.Prelude.{List};

fn run_words() -> Status
    ensures other { IsPlay words.now }
{
}

pub fn run<W>(
    words: &[String],
) -> Status
    // a comment about IsPlay
    ensures listen { IsListen words.now → ListenRan
        result }
    ensures play { IsPlay words.now }
{
}
"""
SPELLED = """-- Words.
use Rattle.words.specs.Lines.{Line, First as Start}

abbrev pub IsListen : Type 0
IsListen =
  Start line

abbrev pub IsPlay : Type 0
IsPlay = Line
"""
LINES = """pub data Line : Type 0 where
  -- the first one
  First : Line
  Second : Line

abbrev pub unused : Line
unused = First
"""
LEAVES = """use Rattle.listen.specs.Again.{shared}
module _ (air : Type 0) where
  pub record Left (status : Type 0) : Type 0 where
    pub air_is : shared air

  abbrev pub ListenRan : Type 0 → Type 0
  ListenRan status = Left status
"""
AGAIN = "pub use Rattle.listen.specs.Shared.{shared}\n"
SHARED = "abbrev pub shared : Type 0 → Type 0\nshared t = t\n"
FILES = {
    "crates/epg_cli/src/top.rt": TOP_RT,
    "crates/words/specs/Spelled.antt": SPELLED,
    "crates/words/specs/Lines.antt": LINES,
    "crates/listen/specs/Leaves.antt": LEAVES,
    "crates/listen/specs/Again.antt": AGAIN,
    "crates/listen/specs/Shared.antt": SHARED,
}


class Believed(unittest.TestCase):
    def sizes(self) -> "dict[str, tool.Size]":
        with tempfile.TemporaryDirectory() as folder:
            write_files(Path(folder), FILES)
            return tool.sizes(Path(folder).resolve())

    def test_a_command_has_what_its_clauses_lead_to(self) -> None:
        # IsListen 3 lines, Line 3, ListenRan 2, Left 2, shared 2
        self.assertEqual(self.sizes()["listen"], tool.Size(5, 12, 4, 2))
        self.assertEqual(self.sizes()["play"], tool.Size(2, 5, 2, 1))

    def test_run_has_what_all_clauses_lead_to_once(self) -> None:
        self.assertEqual(self.sizes()["run"], tool.Size(6, 14, 4, 2))

    def test_clauses_are_those_of_run_without_comments(self) -> None:
        clauses = tool.clauses_of_run(TOP_RT)
        self.assertEqual(sorted(clauses), ["listen", "play"])
        self.assertNotIn("IsPlay", clauses["listen"])

    def test_numbers_of_a_document(self) -> None:
        text = "about 380 definitions (1,200\n lines) for `listen`, 950 (2,900) for `play` and 1,420 (4,600) for all of `run`."
        self.assertEqual(tool.stated(text), {"listen": (380, 1200), "play": (950, 2900), "run": (1420, 4600)})

    def test_numbers_may_be_rounded_and_not_wrong(self) -> None:
        true = {name: tool.Size(1000, 3000, 9, 9) for name in ("listen", "play", "live", "run")}
        said = {name: (990, 3050) for name in true}
        self.assertEqual(tool.differences(said, true), [])
        self.assertEqual(len(tool.differences({**said, "play": (900, 3000)}, true)), 1)
        self.assertEqual(len(tool.differences({"play": (1000, 3000)}, true)), 3)

    def test_the_check_has_a_status(self) -> None:
        with tempfile.TemporaryDirectory() as folder, contextlib.redirect_stderr(io.StringIO()):
            write_files(Path(folder), {**FILES, "README.md": "no numbers"})
            self.assertEqual(tool.main(["--top", folder, "--check"]), 1)


if __name__ == "__main__":
    unittest.main()
