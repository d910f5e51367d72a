#!/usr/bin/env python3
"""Explores four modules with four workers of one program, and with four processes, which GNU parallel runs.

    benchmarks/parallel.py [--runs N] [--program PROGRAM]

A row has a module, the depth, the nodes of its tree, the depth of the jobs and how many these are, the seconds of the
clock of the fastest of N runs and those of a processor, first of the program with four workers, then of
tools/explore_with_parallel with four jobs at a time and a new folder, in turns, and how many times as long the second
took. Both have to print the same. It needs Python 3.9 or later, and GNU parallel.
"""
import argparse
import os
import re
import shutil
import subprocess
import sys
import tempfile
import time
from pathlib import Path

HERE = Path(__file__).resolve().parent
ROOT = HERE.parent
sys.path.insert(0, str(ROOT / "tools"))
from programs import proved

SCRIPT = ROOT / "tools/explore_with_parallel"
# the module, the depth of the tree, and that of the jobs
ROWS = [
    ("inserts", 20, 7),
    ("messages", 28, 6),
    ("mixed", 30, 9),
    ("forever", 28, 9),
]


def timed(command, module):
    """The seconds of the clock and of processors of one run, and what it printed."""
    began = time.monotonic()
    with open(module, "rb") as text, tempfile.TemporaryFile() as out:
        running = subprocess.Popen(command, stdin=text, stdout=out)
        _, _, used = os.wait4(running.pid, 0)
        seconds = time.monotonic() - began
        out.seek(0)
        return seconds, used.ru_utime + used.ru_stime, out.read()


def pair_of(program, module, depth, place):
    """One run of each, and how many jobs there were."""
    words = ["--depth", str(depth), "--nodes", "10000000"]
    workers = timed([program, "explore", *words, "--workers", "4"], module)
    with tempfile.TemporaryDirectory() as room:
        folder = Path(room) / "folder"
        processes = timed([SCRIPT, folder, module, *words, "--at", str(place), "--jobs", "4"], module)
        count = (folder / "jobs").read_text().count("\n")
    if workers[2] != processes[2]:
        sys.exit(f"{module.stem}: the two reports differ")
    return workers, processes, count


def row_of(program, name, depth, place, runs):
    """The row of a module."""
    pairs = [pair_of(program, HERE / f"{name}.core", depth, place) for _ in range(runs)]
    workers, processes = min(it[0] for it in pairs), min(it[1] for it in pairs)
    complete = re.match(rb"depth \d+, nodes (\d+), complete\n", workers[2])
    if not complete:
        sys.exit(f"{name}: the report begins with {workers[2][:80]!r}")
    times = f"{workers[0]:.3f} | {workers[1]:.3f} | {processes[0]:.3f} | {processes[1]:.3f} | {processes[0] / workers[0]:.2f}"
    return f"| `{name}` | {depth} | {int(complete[1]):,} | {place} | {pairs[0][2]:,} | {times} |"


def main():
    parser = argparse.ArgumentParser(description=__doc__, formatter_class=argparse.RawDescriptionHelpFormatter)
    parser.add_argument("--runs", type=int, default=3)
    parser.add_argument("--program")
    asked = parser.parse_args()
    if asked.runs < 1:
        parser.error("--runs is at least 1")
    asked.program = asked.program or str(proved())
    if not shutil.which("parallel"):
        sys.exit("GNU parallel is not on PATH")
    os.environ["PROGRAM"] = asked.program
    print("| module | depth | nodes | at | jobs | four workers | of a processor | four processes | of a processor | times four workers |")
    print("| --- | --- | --- | --- | --- | --- | --- | --- | --- | --- |")
    for name, depth, place in ROWS:
        print(row_of(asked.program, name, depth, place, asked.runs), flush=True)


if __name__ == "__main__":
    main()
