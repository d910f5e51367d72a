#!/usr/bin/env python3
"""Explores modules by states with several numbers of workers, side by side.

    benchmarks/level_workers.py [--runs N] [--workers N ..] [--program PROGRAM] [--depth N] [--at-once] [FILE.core ..]

Without files it takes `messages`, to the depth of ROWS. A row has a module, the depth, the states, the number of workers,
the seconds of the clock of the fastest of N runs and those of a processor, how many times as fast as the first number
of workers that is, and the memory of the program. Runs with each number of workers take turns, and all have to print the
same. It needs Python 3.9 or later.
"""
import argparse
import os
import re
import subprocess
import sys
import tempfile
import time
from pathlib import Path

HERE = Path(__file__).resolve().parent
sys.path.insert(0, str(HERE.parent / "tools"))
from explore import memory_of
from programs import proved

ROWS = {"messages": 28}
STATES = "10000000"


def run_of(program, module, words, workers):
    """The seconds of the clock and of processors of one run, its memory in megabytes, and what it printed."""
    memory, ended = 0, 0
    began = time.monotonic()
    with open(module, "rb") as text, tempfile.TemporaryFile() as out:
        run = subprocess.Popen([program, "explore", *words, "--workers", str(workers)], stdin=text, stdout=out)
        while not ended:
            memory = max(memory, memory_of(run.pid))
            time.sleep(0.005)
            ended, _, used = os.wait4(run.pid, os.WNOHANG)
        seconds = time.monotonic() - began
        out.seek(0)
        return seconds, used.ru_utime + used.ru_stime, memory / 1024, out.read()


def show(program, module, depth, asked):
    """The rows of one module."""
    words = ["--depth", str(depth), "--at-once" if asked.at_once else "--states", "--nodes", STATES]
    turns = [[run_of(program, module, words, workers) for workers in asked.workers] for _ in range(asked.runs)]
    reports = {report for turn in turns for _, _, _, report in turn}
    if len(reports) != 1:
        sys.exit(f"{module.stem}: two runs have two reports")
    found = re.match(rb"depth \d+, states (\d+), complete", reports.pop())
    if not found:
        sys.exit(f"{module.stem}: the search did not come to its end")
    one = min(turn[0] for turn in turns)[0]
    for workers, runs in zip(asked.workers, zip(*turns)):
        seconds, used, memory, _ = min(runs)
        print(f"| `{module.stem}` | {depth} | {int(found[1]):,} | {workers} | {seconds:.2f} | {used:.2f} | {one / seconds:.2f} | {memory:.0f} |", flush=True)


def main():
    parser = argparse.ArgumentParser(description=__doc__, formatter_class=argparse.RawDescriptionHelpFormatter)
    parser.add_argument("--runs", type=int, default=3)
    parser.add_argument("--workers", type=int, nargs="+", default=[1, 2, 4, 16])
    parser.add_argument("--program")
    parser.add_argument("--depth", type=int, default=400)
    parser.add_argument("--at-once", action="store_true")
    parser.add_argument("files", nargs="*", type=Path)
    asked = parser.parse_args()
    if asked.runs < 1:
        parser.error("--runs is at least 1")
    program = asked.program or str(proved())
    print("| module | depth | states | workers | seconds | of a processor | times one worker | MB |")
    print("| --- | --- | --- | --- | --- | --- | --- | --- |")
    for module in asked.files or [HERE / f"{name}.core" for name in ROWS]:
        show(program, module, ROWS.get(module.stem, asked.depth), asked)


if __name__ == "__main__":
    main()
