#!/usr/bin/env python3
"""Explores modules by states, by states with signals that arrive at once, and by the tree, with the built program, side by side.

    benchmarks/states.py [--runs N] [--program PROGRAM] [--depth N] [FILE.core ..]

Without files it takes those beside it, each to the depth of ROWS, and each that was converted, in erlang/kept, as far as
--depth says (400). A row has the module, the depth, the states, the seconds of a processor of the fastest of N runs and
the most memory of the program; then the same where signals arrive at once; then the nodes of the tree, its seconds and its
memory, where it has at most 3,000,000. Runs of the three searches take turns. The kept modules are one row, with their
sums. It needs Python 3.9 or later.
"""
import argparse
import os
import re
import subprocess
import sys
import tempfile
import time
from pathlib import Path

HERE = Path(__file__).resolve().parent
KEPT = HERE.parent / "erlang/kept"
sys.path.insert(0, str(HERE.parent / "tools"))
from explore import memory_of
from programs import proved

ROWS = {"inserts": 20, "messages": 28, "mixed": 30}
NODES = "3000000"
STATES = "10000000"
SEARCHES = ["--states", "--nodes", STATES], ["--at-once", "--nodes", STATES], ["--nodes", NODES]
TREE = 2


def run_of(program, module, depth, words):
    """The seconds of a processor of one run, its memory in megabytes, and how many states or nodes; none where it stopped."""
    with open(module, "rb") as text, tempfile.TemporaryFile() as out:
        run = subprocess.Popen([program, "explore", "--depth", str(depth), *words], stdin=text, stdout=out)
        memory, ended = 0, 0
        while not ended:
            memory = max(memory, memory_of(run.pid))
            time.sleep(0.005)
            ended, _, used = os.wait4(run.pid, os.WNOHANG)
        out.seek(0)
        first = out.readline().decode()
    found = re.match(r"depth \d+, (?:states|nodes) (\d+), complete", first)
    return used.ru_utime + used.ru_stime, memory / 1024, int(found[1]) if found else None


def fastest(program, module, depth, runs):
    """The fastest run of each search, by turns."""
    found = [[run_of(program, module, depth, words) for words in SEARCHES] for _ in range(runs)]
    return [min(its) for its in zip(*found)]


def cells(run):
    seconds, memory, number = run
    if number is None:
        return [f"> {int(NODES):,}", "", ""]
    return [f"{number:,}", f"{seconds:.2f}", f"{memory:.0f}"]


def row(*words):
    print("| " + " | ".join(str(it) for it in words) + " |", flush=True)


def sums(program, modules, depth, runs):
    """The row of modules together: of the tree those alone whose trees are small enough."""
    found = [fastest(program, it, depth, runs) for it in modules]
    whole = [it for it in found if it[TREE][2] is not None]

    def of(which, runs):
        return f"{sum(it[which][2] for it in runs):,}", f"{sum(it[which][0] for it in runs):.2f}", f"{max(it[which][1] for it in runs):.0f}"

    row(f"{len(found)} kept modules", depth, *of(0, found), *of(1, found), "", "", "")
    row(f"{len(whole)} of them", depth, *of(0, whole), *of(1, whole), *of(TREE, whole))


def main():
    parser = argparse.ArgumentParser(description=__doc__, formatter_class=argparse.RawDescriptionHelpFormatter)
    parser.add_argument("--runs", type=int, default=3)
    parser.add_argument("--program")
    parser.add_argument("--depth", type=int, default=400)
    parser.add_argument("files", nargs="*", type=Path)
    asked = parser.parse_args()
    program = asked.program or str(proved())
    row("module", "depth", "states", "seconds", "MB", "at once", "seconds", "MB", "nodes", "seconds", "MB")
    row(*["---"] * 11)
    for module in asked.files or [HERE / f"{name}.core" for name in ROWS]:
        depth = ROWS.get(module.stem, asked.depth)
        found = fastest(program, module, depth, asked.runs)
        row(f"`{module.stem}`", depth, *(cell for run in found for cell in cells(run)))
    if not asked.files:
        sums(program, sorted(KEPT.glob("*.core")), asked.depth, asked.runs)


if __name__ == "__main__":
    main()
