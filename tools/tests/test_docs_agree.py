"""Tests of tools/docs-agree."""
import contextlib
import io
import tempfile
import unittest
from pathlib import Path

from loading import load, write_files

tool = load("docs-agree")
FILES = {
    "crates.txt": "base:\n",
    "crates/base/src/lib.rt": "pub fn crc32() {}\n",
    "crates/base/specs/Crc.antt": "abbrev pub crc_of : Type 0\n",
    "docs/FORMATS.md": "[top](../README.md) [web](https://example.org) `base::crc32` `base/specs/Crc.antt`\n",
    "docs/CODE.md": "`crates/base/src` `crates/NAME/out`\n",
    "docs/ARCHITECTURE.md": "`base`\n",
    "docs/DEFINITIONS.md": "| `base/specs/Crc.antt` | `crc_of` | what |\n",
    "README.md": "[formats](docs/FORMATS.md#lines)\n",
}


class DocsAgree(unittest.TestCase):
    def found(self, **changed: str) -> "list[str]":
        err = io.StringIO()
        files = {**FILES, **{f"{name}.md": text for name, text in changed.items()}}
        files = {("docs/" + name if name in ("CRATES.md", "DEFINITIONS.md") else name): text for name, text in files.items()}
        with tempfile.TemporaryDirectory() as folder, contextlib.redirect_stderr(err):
            write_files(Path(folder), files)
            status = tool.main(["--top", folder])
        lines = err.getvalue().splitlines()
        self.assertEqual(status, 1 if lines else 0)
        return [line.replace("docs-agree: ", "") for line in lines]

    def test_what_is_there_is_passed_over(self) -> None:
        self.assertEqual(self.found(), [])

    def test_a_broken_link(self) -> None:
        self.assertEqual(self.found(README="[x](docs/NONE.md)"), ["README.md: broken link docs/NONE.md"])

    def test_a_missing_file(self) -> None:
        self.assertEqual(self.found(README="`base/src/none.rt`"), ["README.md: no file crates/base/src/none.rt"])

    def test_a_missing_item(self) -> None:
        self.assertEqual(self.found(README="`base::crc16`"), ["README.md: no item base::crc16"])

    def test_an_item_of_another_repository(self) -> None:
        self.assertEqual(self.found(README="`csv::Reader`"), [])

    def test_a_missing_definition(self) -> None:
        wrong = self.found(DEFINITIONS="| `base/specs/Crc.antt` | `crc_of`, `crc_in` | what |")
        self.assertEqual(wrong, ["docs/DEFINITIONS.md: base/specs/Crc.antt does not have crc_in"])

    def test_a_crate_that_is_not_named(self) -> None:
        self.assertEqual(self.found(CRATES="none"), ["docs/CRATES.md: crate base is not named"])


if __name__ == "__main__":
    unittest.main()
