"""The copies of the examples that programs of rows read are the same as those in examples/."""
import unittest
from pathlib import Path
from typing import List

from loading import TOOLS

TOP = TOOLS.parent


def copies() -> List[Path]:
    """The files of data that have the name of an example."""
    examples = {path.name for path in (TOP / "examples").iterdir()}
    return sorted(path for path in TOP.glob("crates/*/data/*") if path.name in examples)


class Copies(unittest.TestCase):
    def test_there_are_some(self) -> None:
        self.assertGreater(len(copies()), 2)

    def test_are_the_same(self) -> None:
        for path in copies():
            with self.subTest(path=str(path.relative_to(TOP))):
                self.assertEqual(path.read_bytes(), (TOP / "examples" / path.name).read_bytes())


if __name__ == "__main__":
    unittest.main()
