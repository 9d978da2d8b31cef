"""Tests of packaging/: the package of a program, what runs from it, and its units."""
import contextlib
import io
import os
import shutil
import subprocess
import tempfile
import unittest
from pathlib import Path

from loading import TOOLS, load
from on_air_run import PROGRAM, needs_program

tool = load("../packaging/make-deb")

ORIGIN = tool.Origin("0+20261129.abc", "HEAD", "some kit", "00")


def run(*words: str, data: bytes = b"") -> "subprocess.CompletedProcess[bytes]":
    return subprocess.run(words, input=data, capture_output=True, timeout=60, check=False)


@needs_program
@unittest.skipUnless(shutil.which("dpkg-deb") and shutil.which("git"), "dpkg-deb or git is not here")
class Package(unittest.TestCase):
    @classmethod
    def setUpClass(cls) -> None:
        scratch = tempfile.TemporaryDirectory()
        cls.addClassCleanup(scratch.cleanup)
        folder = Path(scratch.name)
        cls.package = tool.make(PROGRAM, ORIGIN, folder)
        cls.tree = folder / "tree"
        subprocess.run(["dpkg-deb", "-x", str(cls.package), str(cls.tree)], check=True)

    def installed(self, name: str) -> str:
        return str(self.tree / "usr" / "bin" / name)

    def test_help_and_version_need_no_program(self) -> None:
        pages = {run(self.installed("lepnugan"), *words).stdout for words in ([], ["help"], ["--help"], ["play", "-h"])}
        self.assertEqual(len(pages), 1)
        page = pages.pop()
        self.assertIn(b"usage: lepnugan COMMAND", page)
        for word in (b"./lepnugan", b"first run"):
            self.assertNotIn(word, page)
        self.assertEqual(run(self.installed("lepnugan"), "--version").stdout.decode(), ORIGIN.text())

    def test_the_program_plays_and_listens(self) -> None:
        script = (self.tree / tool.DOCUMENTS / "examples" / "one-name.txt").read_bytes()
        played = run(self.installed("lepnugan"), "play", data=script)
        self.assertEqual((played.returncode, len(played.stdout)), (0, 6 * 188))
        heard = run(self.installed("lepnugan"), "listen", data=played.stdout)
        self.assertIn(b"service\t101\t1\tAcme\tNews\t256\t257\nend\n", heard.stderr)

    def test_the_tools_run(self) -> None:
        for name in ("lepnugan-on-air", "lepnugan-ts-merge", "lepnugan-ts-sync", "lepnugan-offset"):
            done = run(self.installed(name), "--help")
            self.assertEqual((done.returncode, done.stdout[:6]), (0, b"usage:"), done.stderr)
        commands = [path for path in (self.tree / "usr" / "bin").iterdir() if path.is_symlink()]
        self.assertEqual([path for path in commands if not os.access(path, os.X_OK)], [])

    def test_nothing_of_the_workshop_is_in_it(self) -> None:
        names = [str(path.relative_to(self.tree)) for path in self.tree.rglob("*")]
        ours = [name for name in names if "__pycache__" in name or "/tests" in name or name.endswith(("repository.py", ".rt"))]
        self.assertEqual(ours, [])

    def test_the_same_files_give_the_same_package(self) -> None:
        with tempfile.TemporaryDirectory() as folder:
            self.assertEqual(tool.make(PROGRAM, ORIGIN, Path(folder)).read_bytes(), self.package.read_bytes())

    @unittest.skipUnless(shutil.which("systemd-analyze"), "systemd-analyze is not here")
    def test_the_units_are_right(self) -> None:
        with tempfile.TemporaryDirectory() as folder:
            for name in ("lepnugan.service", "lepnugan@.service"):
                unit = (self.tree / tool.UNITS / name).read_text(encoding="utf-8")
                here = unit.replace("/usr/bin/lepnugan-on-air", self.installed("lepnugan-on-air"))
                path = Path(folder) / name.replace("@", "@one")
                path.write_text(here, encoding="utf-8")
                done = run("systemd-analyze", "verify", "--man=no", str(path))
                self.assertEqual([line for line in done.stderr.decode().splitlines() if "lepnugan" in line], [])
                self.assertNotIn("%i" if name == "lepnugan.service" else "NAME.service", unit)


class Refusals(unittest.TestCase):
    def test_a_program_that_does_not_play(self) -> None:
        with contextlib.redirect_stderr(io.StringIO()) as err:
            self.assertEqual(tool.main(["/bin/false", "--kit", "x"]), 1)
        self.assertIn("does not play", err.getvalue())

    def test_the_page_of_usage_is_one_for_a_program_that_is_installed(self) -> None:
        self.assertNotIn("./lepnugan", tool.help_text())


if __name__ == "__main__":
    unittest.main()
