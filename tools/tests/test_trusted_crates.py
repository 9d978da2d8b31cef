"""Tests of tools/trusted-crates."""
import contextlib
import io
import tempfile
import unittest
from pathlib import Path

from loading import load, write_files

tool = load("trusted-crates")
CRATES = "base: memchr\nplay: base csv\nheadend_main: play\nrows: base hex\n"


class TrustedCrates(unittest.TestCase):
    def run_over(self, readme: str, *words: str) -> "tuple[int, str, str]":
        out, err = io.StringIO(), io.StringIO()
        with tempfile.TemporaryDirectory() as folder, contextlib.redirect_stdout(out), contextlib.redirect_stderr(err):
            write_files(Path(folder), {"crates.txt": CRATES, "README.md": readme})
            status = tool.main(["--top", folder, *words])
        return status, out.getvalue(), err.getvalue()

    def test_prints_what_the_program_stands_on_and_the_repository_does_not_have(self) -> None:
        self.assertEqual(self.run_over(""), (0, "csv\nmemchr\n", ""))

    def test_other_crates_can_be_named(self) -> None:
        self.assertEqual(self.run_over("", "rows"), (0, "hex\nmemchr\n", ""))

    def test_the_right_list_agrees(self) -> None:
        self.assertEqual(self.run_over("and these crates of the kit: `memchr`,\n  `csv`; the system", "--check"), (0, "", ""))

    def test_a_crate_that_is_missing_is_found(self) -> None:
        status, _, err = self.run_over("crates of the kit: `csv`.", "--check")
        self.assertEqual((status, "does not name memchr" in err), (1, True))

    def test_a_crate_too_many_is_found(self) -> None:
        status, _, err = self.run_over("crates of the kit: `csv`, `memchr` and `hex`.", "--check")
        self.assertEqual((status, "names hex" in err), (1, True))

    def test_no_list_is_found(self) -> None:
        self.assertEqual(self.run_over("nothing", "--check")[0], 1)


if __name__ == "__main__":
    unittest.main()
