"""Tests of ./lepnugan where it builds nothing: the launcher in a folder of its own."""
import os
import shutil
import subprocess
import tempfile
import unittest
from pathlib import Path

from loading import TOOLS, write_files


class Launcher(unittest.TestCase):
    def setUp(self) -> None:
        self.scratch = tempfile.TemporaryDirectory()
        self.addCleanup(self.scratch.cleanup)
        self.top = Path(self.scratch.name)
        shutil.copy(TOOLS.parent / "lepnugan", self.top)

    def run_words(self, *words: str, path: str = "") -> "subprocess.CompletedProcess[str]":
        environment = {**os.environ, "PATH": (path + os.pathsep if path else "") + os.environ["PATH"]}
        command = [str(self.top / "lepnugan"), *words]
        return subprocess.run(command, capture_output=True, text=True, env=environment, timeout=60, check=False)

    def test_help_is_printed_and_nothing_is_built(self) -> None:
        pages = set()
        for words in ([], ["help"], ["--help"], ["-h"], ["play", "--help"], ["live", "-h"]):
            done = self.run_words(*words)
            self.assertEqual((done.returncode, done.stderr), (0, ""), words)
            pages.add(done.stdout)
        self.assertEqual(len(pages), 1)
        page = pages.pop()
        for command in ("play", "--fold", "--resume FILE", "listen", "listen --strict", "listen --resync", "listen --partial",
                        "audit --air FILE", "live --feed FILE", "soak N"):
            self.assertIn(command, page)
        self.assertEqual(page.count("\n  ./lepnugan "), 3)
        self.assertEqual([path.name for path in self.top.iterdir()], ["lepnugan"])

    def test_the_version_is_the_commit_and_the_kit(self) -> None:
        write_files(self.top, {"bin/rt": "#!/bin/sh\necho \"kit-of-$1\"\n"})
        (self.top / "bin" / "rt").chmod(0o755)
        done = self.run_words("--version", path=str(self.top / "bin"))
        self.assertEqual((done.returncode, done.stdout), (0, "lepnugan, commit unknown\nkit-of-version\n"))

    @unittest.skipUnless(shutil.which("git"), "git is not here")
    def test_the_commit_is_the_one_of_the_checkout(self) -> None:
        git = ["git", "-C", str(self.top), "-c", "user.name=t", "-c", "user.email=t@example.org"]
        for words in (["init", "-q"], ["add", "lepnugan"], ["commit", "-q", "-m", "one"]):
            subprocess.run([*git, *words], check=True)
        commit = subprocess.run([*git, "rev-parse", "HEAD"], check=True, capture_output=True, text=True).stdout[:12]
        self.assertEqual(self.run_words("--version").stdout.splitlines()[0], f"lepnugan, commit {commit}")

    def test_other_words_are_those_of_the_program(self) -> None:
        program = "crates/headend_main/out/headend_main"
        write_files(self.top, {
            program: "#!/bin/sh\necho \"ran $*\"; exit 3\n",
            "tools/crates-of": "#!/bin/sh\necho headend_main\n",
            "crates.txt": "headend_main:\n",
        })
        for name in (program, "tools/crates-of"):
            (self.top / name).chmod(0o755)
        os.utime(self.top / "crates.txt", (0, 0))
        done = self.run_words("listen", "help")
        self.assertEqual((done.returncode, done.stdout), (3, "ran listen help\n"))

    def test_unproved_words_are_those_of_a_try(self) -> None:
        write_files(self.top, {
            "bin/rt": "#!/bin/sh\necho \"$PWD: $*\"; cat; exit 3\n",
            "crates/headend_main/src/main.rt": "",
        })
        (self.top / "bin" / "rt").chmod(0o755)
        words = ["--unproved", "live", "--feed=one", "--feed", "two/../three", "--join=0", "/four"]
        done = self.run_words(*words, path=str(self.top / "bin"))
        here = Path.cwd()
        tried = f"try -- live --feed={here}/one --feed {here}/three --join=0 /four"
        self.assertEqual((done.returncode, done.stdout), (3, f"{self.top}/crates/headend_main: {tried}\n"))
        self.assertEqual([line.split(":")[1] for line in done.stderr.splitlines()], [" NOT PROVED", " NOT PROVED"])
        self.assertEqual(self.run_words("--unproved", "help").stdout, self.run_words("help").stdout)


if __name__ == "__main__":
    unittest.main()
