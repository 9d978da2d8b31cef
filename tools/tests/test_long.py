"""Tests of `play --long` with the program: a script of more than 64 MiB."""
import os
import unittest

from on_air_run import DESCRIPTION, MISSING, PROGRAM, USAGE, program

OLDER = f"the program at {PROGRAM} has no play --long: build it anew"
COMMENTS = 4096 * ("#" + 16382 * " " + "\n")
SCRIPT = (DESCRIPTION + COMMENTS + "publish\nswap\n").encode()
SHORT = (DESCRIPTION + "publish\nswap\n").encode()


def can_read_long() -> bool:
    """Whether the program has `play --long`: of other words it says that they are none, before it reads."""
    return os.access(PROGRAM, os.X_OK) and program("play", "--long").returncode != USAGE


@unittest.skipUnless(can_read_long(), OLDER if os.access(PROGRAM, os.X_OK) else MISSING)
class LongScripts(unittest.TestCase):
    def test_too_long(self) -> None:
        for words in (("play",), ("play", "--fold")):
            run = program(*words, data=SCRIPT)
            self.assertEqual((run.returncode, run.stdout, run.stderr), (7, b"", b"fault: input too long\n"), words)

    def test_long(self) -> None:
        for words in (("play",), ("play", "--fold")):
            run, other = program(*words, "--long", data=SCRIPT), program(*words, data=SHORT)
            self.assertEqual((run.returncode, run.stdout, run.stderr), (0, other.stdout, other.stderr), words)


if __name__ == "__main__":
    unittest.main()
