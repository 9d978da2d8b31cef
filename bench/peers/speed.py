#!/usr/bin/env python3
"""Times $PROGRAM beside the peers in $PEERS_BIN. speed.sh sets both.

Everything runs on one core (CPU, 0 if left out) REPS times (3), and the best time of the processor, user and system, counts. Without files
those of mkts.py are made in $SPEED_TMP (/tmp/peers-speed): 64 services, 14 days, 40 events a day. The ratio is the time of the product
divided by the time of the peer on the same bytes: below 1 the product is faster.
"""
from __future__ import annotations

import argparse
import os
import subprocess
import sys
import time
from pathlib import Path
from typing import List, NamedTuple, Optional, Tuple

HERE = Path(__file__).resolve().parent
PEERS = os.environ.get("PEERS_BIN", "/tmp/peers-bin")
PROGRAM = os.environ.get("PROGRAM", "")
FOLDER = Path(os.environ.get("SPEED_TMP", "/tmp/peers-speed"))
REPS = int(os.environ.get("REPS", "3"))
CPU = int(os.environ.get("CPU", "0"))

RECORDINGS = {
    "plain.ts": ["big", "80", "64", "14", "40"],
    "dense.ts": ["big", "80", "64", "14", "40", "dense"],
    "churn.ts": ["big", "80", "64", "14", "40", "own", "churn"],
    "week.ts": ["big", "30", "20", "7", "30"],
}
SCRIPTS = {"big64.txt": ["script", "64", "14", "40"], "week20.txt": ["script", "20", "7", "30"]}
LISTENERS = [
    ("product", f"{PROGRAM} listen"),
    ("cat (the bytes, no more)", "cat"),
    ("floor without CRC", f"{PEERS}/floor -n"),
    ("floor, CRC by eight tables", f"{PEERS}/floor -8"),
    ("floor, CRC by one table", f"{PEERS}/floor"),
    ("libdvbpsi, tables and descriptors decoded", f"{PEERS}/psi_guide - quiet"),
    ("libdvbpsi, guide printed", f"{PEERS}/psi_guide -"),
    ("GStreamer tsparse, EIT decoded", f"{PEERS}/gst_guide {{}} quiet"),
    ("GStreamer tsparse, guide printed", f"{PEERS}/gst_guide {{}}"),
    ("biTStream dvb_print_si, all but EIT", f"{PEERS}/dvb_print_si -T pat,pmt,nit,sdt,tdt"),
    ("biTStream dvb_print_si, every section printed", f"{PEERS}/dvb_print_si"),
]
PLAYERS = [
    ("product", f"{PROGRAM} play"),
    ("cat (the bytes, no more)", "cat"),
    ("libdvbpsi's generators (gen_psi)", f"{PEERS}/gen_psi 1"),
    ("biTStream's setters (gen_bits)", f"{PEERS}/gen_bits 1 own"),
]


class Run(NamedTuple):
    """What a run took: seconds of the processor and by the clock, its exit status, and its peak in kB."""

    spent: float
    passed: float
    status: int
    peak: int


def made(name: str, words: List[str]) -> Path:
    """The file of mkts.py with this name, made where it is not there."""
    path = FOLDER / name
    if not path.exists():
        subprocess.run([sys.executable, str(HERE / "mkts.py"), words[0], str(path), *words[1:]], check=True, stdout=subprocess.DEVNULL)
    return path


def run_once(command: str, path: Path) -> Run:
    """One run over this file. Its output goes to the files out and err of the folder."""
    began = time.time()
    child = os.fork()
    if child == 0:
        os.sched_setaffinity(0, {CPU})
        os.dup2(os.open(path, os.O_RDONLY), 0)
        for stream, name in ((1, "out"), (2, "err")):
            os.dup2(os.open(FOLDER / name, os.O_WRONLY | os.O_CREAT | os.O_TRUNC), stream)
        os.execv("/bin/sh", ["sh", "-c", "exec " + command])
    _, status, usage = os.wait4(child, 0)
    code = status >> 8 if status & 255 == 0 else -(status & 127)
    return Run(usage.ru_utime + usage.ru_stime, time.time() - began, code, usage.ru_maxrss)


def print_table(title: str, path: Path, rows: List[Tuple[str, str]]) -> None:
    size = path.stat().st_size / 1e6
    print(f'\n{title}: {path} ({size:.1f} MB)')
    print(f'{"":46}{"cpu s":>8}{"clock s":>9}{"MB/s":>8}{"peak MB":>9}{"ratio":>8}')
    product = None
    for name, command in rows:
        best = min((run_once(command.replace("{}", str(path)), path) for _ in range(REPS)), key=lambda run: run.spent)
        product = product or best.spent
        spent = max(best.spent, 1e-4)
        note = "" if best.status == 0 else f"  status {best.status}"
        print(f"{name:46}{best.spent:8.3f}{best.passed:9.3f}{size / spent:8.0f}{best.peak / 1e3:9.0f}{product / spent:8.2f}{note}", flush=True)


def main(words: Optional[List[str]] = None) -> int:
    parser = argparse.ArgumentParser(description=__doc__, formatter_class=argparse.RawDescriptionHelpFormatter)
    parser.add_argument("what", choices=["listen", "play"])
    parser.add_argument("files", nargs="*", type=Path, help="in place of those of mkts.py")
    options = parser.parse_args(words)
    FOLDER.mkdir(parents=True, exist_ok=True)
    listens = options.what == "listen"
    files = options.files or [made(name, made_by) for name, made_by in (RECORDINGS if listens else SCRIPTS).items()]
    for path in files:
        print_table("listen" if listens else "play, MB of input", path, LISTENERS if listens else PLAYERS)
    return 0


if __name__ == "__main__":
    sys.exit(main())
