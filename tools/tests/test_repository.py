"""Tests of tools/repository.py."""
import tempfile
import unittest
from pathlib import Path

from loading import write_files

from repository import blocks_of, crates_below, read_crates


class Crates(unittest.TestCase):
    def test_a_line_is_a_crate_and_what_it_may_stand_on(self) -> None:
        with tempfile.TemporaryDirectory() as folder:
            write_files(Path(folder), {"crates.txt": "# ---- ground\nbase:\nlock may_wait=2 tests_may=Threads: base table # why\n"})
            self.assertEqual(read_crates(Path(folder)), {"base": [], "lock": ["base", "table"]})

    def test_below_a_crate_is_all_that_it_stands_on(self) -> None:
        self.assertEqual(crates_below(["a"], {"a": ["b"], "b": ["c", "kit"], "c": [], "d": ["other"]}), {"a", "b", "c", "kit"})


class Blocks(unittest.TestCase):
    def test_a_block_has_its_line_language_and_lines(self) -> None:
        blocks = list(blocks_of("text\n```console\n$ ls\n\n```\n```\nbare\n```\n"))
        self.assertEqual([tuple(block) for block in blocks], [(2, "console", ["$ ls", ""]), (6, "", ["bare"])])

    def test_a_block_that_does_not_end_is_none(self) -> None:
        self.assertEqual(list(blocks_of("```sh\nls\n")), [])


if __name__ == "__main__":
    unittest.main()
