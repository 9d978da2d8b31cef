"""Runs the commands that tools/README.md shows, and compares what they print with it: standard output, and then standard error."""
import subprocess
import unittest
from zoneinfo import available_timezones

from loading import TOOLS, load

shown = load("shown-outputs")


class ShownCommands(unittest.TestCase):
    def test_each_prints_what_is_shown_below_it(self) -> None:
        commands = shown.commands_of((TOOLS / "README.md").read_text(encoding="utf-8"))
        self.assertTrue(commands)
        for command in commands:
            if command.text.startswith("tools/offset ") and not available_timezones():
                continue
            with self.subTest(command.text):
                done = subprocess.run(["bash", "-c", command.text], cwd=TOOLS.parent, capture_output=True, check=False)
                printed = (done.stdout + done.stderr).decode("utf-8").splitlines()
                self.assertEqual(shown.compared(command.shown, printed), [])


if __name__ == "__main__":
    unittest.main()
