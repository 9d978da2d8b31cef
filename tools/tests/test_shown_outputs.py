"""Tests of tools/shown-outputs."""
import contextlib
import io
import tempfile
import unittest
from pathlib import Path

from loading import load, write_files

tool = load("shown-outputs")

STORED = """# Rows

> play < one.txt
exit 0, 6 packets, CRC_32 1
0,publish
=,published,1
> listen
done\t0
end

> play --fold < one.txt
exit 0, 6 packets, CRC_32 1
checkpoint,1
end
> listen
end

> live --feed f < live.txt
exit 0, entries 1 2 1 0
> listen
clock\tnow
end
"""
JOURNAL = ["2,feed,1,name,101,A,B", "=,done", "1,swap", "=,swapped,0,x", "1,swap", "=,swapped,1,x", "0,publish", "=,published,1"]
# Answers as the stored ones do, and of any other script prints its lines behind `end`.
PROGRAM = """#!/bin/bash
case "$1" in
    listen) printf 'done\\t0\\nend\\n' ;;
    live) printf '%s\\n' 2,feed,1,name,101,A,B =,done 1,swap =,swapped,0,x 1,swap =,swapped,0,x 0,publish =,published,1
          printf 'done\\t9\\nclock\\tnow\\nend\\n' ;;
    play) sed '1,/^end$/d' >&2; printf x; exit 3 ;;
esac
"""


def console(*lines: str) -> str:
    return "\n".join(["```console", *lines, "```", ""])


class Documents(unittest.TestCase):
    def test_commands_and_what_is_below_them(self) -> None:
        text = console("$ ls a \\", "    b", "one", "", "$ cat x", "two", "...") + "```sh\n$ not this\n```\n"
        self.assertEqual([tuple(command) for command in tool.commands_of(text)], [(2, "ls a b", ["one"]), (6, "cat x", ["two", "..."])])

    def test_a_block_without_a_language_is_wrong(self) -> None:
        self.assertEqual([line for line, _ in tool.bad_blocks("```\nx\n```\n```text\n```\n```console\nx\n```\n")], [1, 6])

    def test_lines_that_are_left_out(self) -> None:
        printed = ["a", "b", "c", "d"]
        for shown in (printed, ["..."], ["a", "...", "d"], ["...", "c", "..."], ["a", "b", "...", "c", "d"]):
            self.assertTrue(tool.fits(shown, printed), shown)
        for shown in ([], ["a"], ["b", "..."], ["...", "c"], ["a", "...", "a", "...", "d"], ["a", "b", "c", "...", "c", "d"]):
            self.assertFalse(tool.fits(shown, printed), shown)


class Check(unittest.TestCase):
    def run_over(self, text: str, program: bool = False) -> "tuple[int, str]":
        out = io.StringIO()
        with tempfile.TemporaryDirectory() as folder, contextlib.redirect_stdout(out), contextlib.redirect_stderr(out):
            top = Path(folder)
            inputs = {"examples/one.txt": "d\nend\n0,publish\n=,published,1\n", "examples/live.txt": "d\nend\n"}
            write_files(top, {**inputs, tool.STORED: STORED, "README.md": text, "program": PROGRAM})
            (top / "program").chmod(0o755)
            status = tool.main(["--top", folder, *(["--program", str(top / "program")] if program else []), "README.md"])
        return status, out.getvalue()

    def assert_wrong(self, text: str, what: str, program: bool = False) -> None:
        status, printed = self.run_over(text, program)
        self.assertEqual((status, what in printed), (1, True), printed)

    def assert_right(self, text: str, program: bool = False) -> str:
        status, printed = self.run_over(text, program)
        self.assertEqual(status, 0, printed)
        return printed

    def test_a_report_and_what_is_heard(self) -> None:
        play = ["$ ./lepnugan play < examples/one.txt > air.ts", "0,publish", "=,published,1"]
        listen = ["$ ./lepnugan listen < air.ts", "done\t0", "end"]
        for program in (False, True):
            self.assertIn("2 commands compared", self.assert_right(console(*play, "", *listen), program))
            self.assert_wrong(console(*play[:2]), "line 2 below it should be: =,published,1", program)
            self.assert_wrong(console(*play, *listen[:2]), "should be: end", program)
            self.assert_wrong(console(play[0]), "should be: 0,publish", program)

    def test_a_report_that_goes_to_a_file(self) -> None:
        fold = "$ ./lepnugan play --fold < examples/one.txt > air.ts 2> c"
        self.assert_right(console(fold) + console("$ cat c", "checkpoint,1", "end"))
        self.assert_wrong(console(fold) + console("$ cat c", "checkpoint,2", "end"), "c has other lines")

    def test_an_input(self) -> None:
        self.assert_right(console("$ cat examples/one.txt", "d", "...", "=,published,1"))
        self.assert_wrong(console("$ cat examples/one.txt", "e", "..."), "examples/one.txt has other lines")
        made = console("$ cat own.txt", "d", "end", "0,swap") + console("$ ./lepnugan play < own.txt > own.ts", "0,swap")
        self.assertIn("1 not compared", self.assert_right(made))
        self.assertIn("0 not compared", self.assert_right(made, program=True))

    def test_the_examples_are_those_that_the_answers_are_of(self) -> None:
        with tempfile.TemporaryDirectory() as folder:
            top = Path(folder)
            for where, other in (("examples", "b"), (tool.STORED_FILES, "c")):
                write_files(top, {f"{where}/same.txt": "a", f"{where}/other.txt": other})
            write_files(top, {tool.STORED: STORED.replace("one.txt", "same.txt").replace("live.txt", "other.txt")})
            self.assertEqual(tool.other_files(top), [f"examples/other.txt is not {tool.STORED_FILES}/other.txt"])

    def test_a_status_goes_on_to_the_next_command(self) -> None:
        self.assert_right(console("$ ./lepnugan play < examples/one.txt > air.ts", "...", "$ echo $?", "3"), program=True)

    def test_a_program_that_is_not_here(self) -> None:
        self.assertIn("its program is not here", self.assert_right(console("$ no-such-program air.ts", "x"), program=True))

    def test_a_file_that_is_not_here(self) -> None:
        self.assertIn("its program is not here", self.assert_right(console("$ sort /no/such/file", "x"), program=True))

    def live(self, *lines: str) -> str:
        return console("$ ./lepnugan live --feed examples/f < examples/live.txt > air.ts", *lines)

    def test_live_has_the_commands_of_each_caller(self) -> None:
        guide = ["clock\tnow", "end"]
        self.assert_right(self.live(*JOURNAL, "done\t7", *guide))
        self.assert_wrong(self.live(*JOURNAL[2:], *guide), "entries, and not [1, 2, 1, 0]")
        self.assert_wrong(self.live(*JOURNAL, "clock\tthen", "end"), "the guide is not this one")

    def test_a_journal_of_live_is_played(self) -> None:
        # The program here prints another guide for any air than for its run of live: both are compared.
        self.assert_wrong(self.live(*JOURNAL, "done\t7", "clock\tnow", "end"), "its air does not give these completions", program=True)
        self.assert_wrong(self.live(*JOURNAL[:6], "0,swap", "=,x", "end"), "the commands of a caller are not these", program=True)

    def test_views_are_compared_by_their_number_and_the_last(self) -> None:
        shown = tool.live_of(["view\t1\t0\t", "view\t1\t2\t", "view\t2\t2\t"])
        self.assertEqual(shown.views, {"1": (2, "view\t1\t2\t"), "2": (1, "view\t2\t2\t")})
        self.assertEqual(tool.live_differences(["...", "view\t1\t9\t", "view\t1\t2\t", "view\t2\t2\t", "..."], shown), [])
        self.assertEqual(tool.live_differences(["...", "view\t1\t2\t", "view\t2\t2\t", "..."], shown), ["the views are not these"])


if __name__ == "__main__":
    unittest.main()
