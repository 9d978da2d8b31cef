"""What tools/wrong-bodies finds dead, what it reads of rt's words, and the file that it keeps."""
from __future__ import annotations

import contextlib
import importlib.machinery
import importlib.util
import io
import os
import sys
import tempfile
import unittest
import unittest.mock
from types import ModuleType

TOP = os.path.dirname(os.path.dirname(os.path.dirname(os.path.abspath(__file__))))


def load() -> ModuleType:
    """The tool as a module: its file has no ending that Python looks for."""
    loader = importlib.machinery.SourceFileLoader("wrong_bodies", f"{TOP}/tools/wrong-bodies")
    spec = importlib.util.spec_from_loader("wrong_bodies", loader)
    assert spec is not None
    module = importlib.util.module_from_spec(spec)
    sys.modules["wrong_bodies"] = module
    loader.exec_module(module)
    return module


bodies = load()
EDIT = "file: src/lib.rt\nold: let a = 1;\nnew: let a = 2;\n"
SAID = """rt: must-fail a/one.edit: refused, as it must be: src/lib.rt:7:1: error
rt: must-fail a/two.edit: refused, as it must be (only because a proof file names what the edit took away): x
rt: must-fail a/three.edit: NOT REFUSED: the crate is still proved with this edit
rt: must-fail a/four.edit: NOT TRIED: its check was killed
rt: must-fail b/one.edit: refused, as it must be
"""


def write(path: str, text: str) -> None:
    """Writes a file, with the folders that it lies in."""
    os.makedirs(os.path.dirname(path), exist_ok=True)
    with open(path, "w", encoding="utf-8") as file:
        file.write(text)


class Dead(unittest.TestCase):
    def faults(self, source: str, edit: str = EDIT) -> int:
        with tempfile.TemporaryDirectory() as top:
            write(f"{top}/crates/a/src/lib.rt", source)
            write(f"{top}/bench/wrong-bodies/a/one.edit", edit)
            return len(bodies.dead(top))

    def test_old_text_once(self) -> None:
        self.assertEqual(self.faults("let a = 1;\n"), 0)

    def test_old_text_twice_or_never(self) -> None:
        self.assertEqual(self.faults("let a = 1; let a = 1;\n"), 1)
        self.assertEqual(self.faults("let b = 1;\n"), 1)

    def test_no_such_file(self) -> None:
        self.assertEqual(self.faults("let a = 1;\n", EDIT.replace("lib.rt", "main.rt")), 1)

    def test_no_such_crate(self) -> None:
        with tempfile.TemporaryDirectory() as top:
            os.makedirs(f"{top}/crates")
            write(f"{top}/bench/wrong-bodies/a/one.edit", EDIT)
            self.assertEqual(len(bodies.dead(top)), 1)

    def test_each_edit_of_this_checkout_fits(self) -> None:
        self.assertEqual(bodies.dead(TOP), [])


class Budget(unittest.TestCase):
    def test_edits_of_the_gate(self) -> None:
        counts = {it: len(bodies.edits_in(f"{TOP}/crates/{it}/must-fail")) for it in bodies.crates_in(f"{TOP}/crates")}
        some = {crate: count for crate, count in counts.items() if count}
        self.assertLessEqual(len(some), 20, "crates with edits")
        self.assertLessEqual(sum(some.values()), 80, "edits")
        self.assertEqual([crate for crate, count in some.items() if not 3 <= count <= 6], [])


class Results(unittest.TestCase):
    def row(self) -> object:
        edits = ["one", "two", "three", "four", "five"]
        return bodies.row_of("a", edits, bodies.said_of(SAID), ("abc", "2000-01-01"))

    def test_what_was_said(self) -> None:
        row = self.row()
        self.assertEqual((row.refused, row.by_name, row.missed, row.untried), (2, 1, ["three"], ["four", "five"]))

    def test_a_run_that_was_broken_off(self) -> None:
        edits = ["a/one", "a/two", "a/three", "a/four", "b/one"]
        self.assertTrue(bodies.is_whole(SAID, edits))
        self.assertFalse(bodies.is_whole(SAID, [*edits, "b/two"]))
        self.assertTrue(bodies.is_whole(SAID + "12 passed, 1 failed (a and the crates below alone: not the gate)\n", [*edits, "b/two"]))

    def test_names_where_rt_ci_takes_none(self) -> None:
        for status, asked in ((1, ["ci a b"]), (2, ["ci a b", "must-fail a b"])):
            with tempfile.TemporaryDirectory() as room:
                write(f"{room}/bin/rt", f"#!/bin/sh\necho \"$*\" >> '{room}/asked'\necho said\ntest \"$1\" = must-fail || exit {status}\n")
                os.chmod(f"{room}/bin/rt", 0o755)
                path = {"PATH": f"{room}/bin{os.pathsep}{os.environ['PATH']}"}
                with unittest.mock.patch.dict(os.environ, path), contextlib.redirect_stdout(io.StringIO()):
                    self.assertEqual(bodies.output_of(["a", "b"], room, 0), "said\n")
                with open(f"{room}/asked", encoding="utf-8") as file:
                    self.assertEqual(file.read().splitlines(), asked)

    def test_line_is_read_back(self) -> None:
        self.assertEqual(bodies.read_line(bodies.line_of(self.row())), [self.row()])

    def test_other_crates_keep_their_rows(self) -> None:
        old = {it: bodies.Row(it, "old", "1999-01-01", 3) for it in ("a", "b", "gone")}
        rows = bodies.with_new(old, [self.row()], ["a", "b", "c"])
        self.assertEqual([(it.crate, it.commit) for it in rows], [("a", "abc"), ("b", "old")])

    def test_file_is_read_back(self) -> None:
        with tempfile.TemporaryDirectory() as folder:
            write(f"{folder}/RESULT.md", bodies.text_of([self.row()]))
            self.assertEqual(bodies.results(f"{folder}/RESULT.md"), {"a": self.row()})
            self.assertEqual(bodies.results(f"{folder}/none"), {})


class Copies(unittest.TestCase):
    def test_own_edits_in_place_of_the_gates(self) -> None:
        with tempfile.TemporaryDirectory() as top, tempfile.TemporaryDirectory() as room:
            for path in ("crates.txt", "HANDLES", "crates/a/src/lib.rt", "crates/a/out/x", "crates/a/must-fail/gate.edit", "bench/wrong-bodies/a/one.edit"):
                write(f"{top}/{path}", "")
            bodies.copy_crates(top, room, ["a"])
            self.assertEqual(sorted(os.listdir(f"{room}/crates/a")), ["must-fail", "src"])
            self.assertEqual(os.listdir(f"{room}/crates/a/must-fail"), ["one.edit"])


if __name__ == "__main__":
    unittest.main()
