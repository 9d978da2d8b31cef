"""What tools/costs takes a process for, and how it adds seconds up."""
from __future__ import annotations

import importlib.machinery
import importlib.util
import os
import sys
import tempfile
import unittest
from types import ModuleType
from typing import Dict, List

TOOL = os.path.join(os.path.dirname(os.path.dirname(os.path.abspath(__file__))), "costs")


def load() -> ModuleType:
    """The tool as a module: its file has no ending that Python looks for."""
    loader = importlib.machinery.SourceFileLoader("costs", TOOL)
    spec = importlib.util.spec_from_loader("costs", loader)
    assert spec is not None
    module = importlib.util.module_from_spec(spec)
    sys.modules["costs"] = module
    loader.exec_module(module)
    return module


costs = load()
RATTLE = "/kit/bin/rattle"
CHECK = f"{RATTLE} check --crate-name si_base src/lib.rt"
ROOM = "/tmp/rt-edits-7-abc"


def process(command: str, folder: str = "/repo/crates/si_base", **named: object):
    """A process with this command line."""
    return costs.Process(**{"key": "1:1", "parent": "", "command": command.split(), "folder": folder, **named})


class Kinds(unittest.TestCase):
    def kind(self, command: str, folder: str = "/repo/crates/si_base") -> List[str]:
        one = process(command, folder)
        return [costs.crate_of(one), *costs.kind_of(one)]

    def test_proof_of_a_library(self) -> None:
        self.assertEqual(self.kind(f"{RATTLE} build --crate-name si_base src/lib.rt --statements"), ["si_base", "proof", ""])

    def test_proof_of_a_program(self) -> None:
        self.assertEqual(self.kind(f"{CHECK} -o /tmp/rt-proved-7-x/checked"), ["si_base", "proof", ""])

    def test_guarded_command(self) -> None:
        self.assertEqual(self.kind(f"/usr/bin/python3 -ISc import {CHECK}"), ["si_base", "proof", ""])

    def test_tests(self) -> None:
        self.assertEqual(self.kind(f"{RATTLE} build --test --crate-name si_base --backend llvm"), ["si_base", "tests", ""])

    def test_compilers(self) -> None:
        both = f"{RATTLE} build --crate-name si_base --crate-checked /tmp/c --backend llvm"
        self.assertEqual(self.kind(both), ["si_base", "compilers", ""])
        self.assertEqual(self.kind("/kit/bin/rattle-link -o out/a a.o"), ["si_base", "compilers", ""])

    def test_edits(self) -> None:
        self.assertEqual(self.kind(f"{CHECK} --incremental {ROOM}/seed", "/tmp/rt-edit-7-x"), ["si_base", "seed", ""])
        self.assertEqual(self.kind(f"{CHECK} --incremental {ROOM}/2", "/tmp/rt-edit-7-y"), ["si_base", "edits", "2"])
        self.assertEqual(self.kind(CHECK, "/tmp/rt-edit-7-z"), ["si_base", "edits", ""])

    def test_runs(self) -> None:
        ran = "/tmp/rt-run-7-x/bin/desk_rows"
        self.assertEqual(self.kind(ran, "/tmp/rt-run-7-x/data"), ["desk_rows", "runs", ""])
        self.assertEqual(self.kind(f"sh -c ulimit {ran}", "/tmp/rt-run-7-x/data"), ["desk_rows", "runs", ""])
        self.assertEqual(self.kind(f"/kit/bin/rattle-test --seconds 60 {ran}_tests", "/"), ["desk_rows", "runs", ""])

    def test_layout_is_rts_own(self) -> None:
        self.assertEqual(self.kind(f"{RATTLE} fmt --check src/lib.rt")[1], "rt")


class Sums(unittest.TestCase):
    def sums(self, processes: List[object], names: Dict[str, List[str]]) -> Dict[object, float]:
        told = costs.costs_of({it.key: it for it in processes}, names)
        return {(it.crate, it.kind, it.edit): it.seconds for it in told}

    def test_what_a_child_costs_falls_to_its_parent(self) -> None:
        root = process("rt ci", "/repo", key="1", own=3.0, reaped=10.0, seen=9.0)
        proof = process(f"{RATTLE} build --crate-name si_base", key="2", parent="1", own=6.0, reaped=2.0, seen=5.0)
        clang = process("clang", key="3", parent="2", own=1.5, seen=4.0)
        found = self.sums([root, proof, clang], {})
        self.assertEqual(found[("si_base", "proof", "")], 8.0)
        self.assertEqual(found[("rt", "rt", "")], 5.0)

    def test_a_child_that_goes_on_is_counted_once(self) -> None:
        root = process("rt ci", "/repo", key="1", own=3.0, reaped=0.0, seen=9.0)
        proof = process(f"{RATTLE} build --crate-name si_base", key="2", parent="1", own=6.0, seen=9.0)
        self.assertEqual(sum(self.sums([root, proof], {}).values()), 9.0)

    def test_seed_edits_and_sound(self) -> None:
        root = process("rt ci", "/repo", key="1", seen=9.0)
        seed = process(f"{CHECK} --incremental {ROOM}/seed", key="2", parent="1", own=5.0, begun=1.0)
        edit = process(f"{CHECK} --incremental {ROOM}/1", key="3", parent="1", own=2.0, begun=2.0)
        sound = process(f"{CHECK} --incremental {ROOM}/seed", key="4", parent="1", own=1.0, begun=3.0)
        found = self.sums([root, seed, edit, sound], {"si_base": ["one", "two"]})
        self.assertEqual(found[("si_base", "seed", "")], 5.0)
        self.assertEqual(found[("si_base", "edits", "two")], 2.0)
        self.assertEqual(found[("si_base", "sound", "")], 1.0)


class Tables(unittest.TestCase):
    def report(self) -> object:
        found = [costs.Cost("a", "proof", "", 10.0), costs.Cost("b", "edits", "wrong", 30.4), costs.Cost("rt", "rt", "", 2.0)]
        return costs.Report("rt ci", "2000-01-01", "abc", 60.0, found)

    def test_table(self) -> None:
        lines = costs.text_of(self.report(), 5).split("\n")
        self.assertIn("| `b` | 0 | 0 | 0 | 0 | 0 | 30 | 0 | 30 |", lines)
        self.assertIn("| all | 10 | 0 | 0 | 0 | 0 | 30 | 0 | 42 |", lines)
        self.assertIn("| `b/wrong` | 30 |", lines)
        self.assertLess(lines.index("| `b` | 0 | 0 | 0 | 0 | 0 | 30 | 0 | 30 |"), lines.index("| `a` | 10 | 0 | 0 | 0 | 0 | 0 | 0 | 10 |"))

    def test_kept_and_read(self) -> None:
        with tempfile.TemporaryDirectory() as folder:
            costs.write_json(self.report(), f"{folder}/costs.json")
            self.assertEqual(costs.read_json(f"{folder}/costs.json"), self.report())


@unittest.skipUnless(os.path.isdir("/proc/self"), "needs Linux's process table")
class Runs(unittest.TestCase):
    def test_a_command_and_what_it_starts(self) -> None:
        busy = "import time\nend = time.process_time() + 0.4\nwhile time.process_time() < end: pass\n"
        code = busy + f"import subprocess, sys\nsubprocess.run([sys.executable, '-c', {busy!r}])\nsys.exit(3)"
        report, status = costs.run([sys.executable, "-c", code], 0.05)
        self.assertEqual(status, 3)
        self.assertGreaterEqual(costs.seconds(report.costs), 0.8)

    def test_names_of_edits(self) -> None:
        with tempfile.TemporaryDirectory() as folder:
            os.makedirs(f"{folder}/crates/a/must-fail")
            for name in ("two.edit", "one.edit", "read.md"):
                with open(f"{folder}/crates/a/must-fail/{name}", "w", encoding="utf-8"):
                    pass
            self.assertEqual(costs.edit_names(folder, "a"), ["one", "two"])
            self.assertEqual(costs.edit_names(folder, "b"), [])


if __name__ == "__main__":
    unittest.main()
