#!/usr/bin/env python3
"""Explores modules with two programs side by side, and shows the nodes of each and how long they take.

    benchmarks/beside.py BEFORE AFTER [--runs N]

A row has a module, the depth, the nodes that each program visits, and the seconds of a processor of the fastest of N
runs of each with one worker, in turns. Except for the nodes both have to print the same. The modules are two of this
folder, and some that were converted from Erlang (erlang/kept). It needs Python 3.9 or later and nothing else.
"""
import argparse
import os
import re
import subprocess
import sys
import tempfile
from pathlib import Path

HERE = Path(__file__).resolve().parent
KEPT = HERE.parent / "erlang/kept"
# the module, and the depth
ROWS = [
    (HERE / "messages.core", 20),
    (HERE / "mixed.core", 30),
    (KEPT / "bounded_buffer.core", 32),
    (KEPT / "check_then_insert.core", 16),
    (KEPT / "kill_progress.core", 16),
    (KEPT / "lost_update.core", 16),
    (KEPT / "map_of_accounts.core", 44),
    (KEPT / "mutex_forgotten.core", 32),
    (KEPT / "pool_of_funs.core", 40),
    (KEPT / "queue_broker.core", 32),
    (KEPT / "stale_reply.core", 16),
    (KEPT / "take_queue.core", 20),
    (KEPT / "two_forks.core", 56),
    (KEPT / "two_phase_commit.core", 36),
]


def run_of(program, module, depth):
    """The seconds of a processor of one run, the nodes, and what was printed after them."""
    words = [program, "explore", "--depth", str(depth), "--nodes", "10000000", "--workers", "1"]
    with open(module, "rb") as text, tempfile.TemporaryFile() as out:
        running = subprocess.Popen(words, stdin=text, stdout=out)
        _, _, used = os.wait4(running.pid, 0)
        out.seek(0)
        first, _, found = out.read().decode().partition("\n")
    complete = re.fullmatch(r"depth \d+, nodes (\d+), complete", first)
    if not complete:
        sys.exit(f"{module.stem}: the report of {program} begins with {first!r}")
    return used.ru_utime + used.ru_stime, int(complete[1]), found


def row_of(programs, module, depth, runs):
    """The row of a module and a depth."""
    times = [[run_of(program, module, depth) for program in programs] for _ in range(runs)]
    before, after = map(min, zip(*times))
    if before[2] != after[2]:
        sys.exit(f"{module.stem}: the reports differ in more than their nodes")
    fewer, faster = before[1] / after[1], before[0] / after[0]
    return f"| `{module.stem}` | {depth} | {before[1]:,} | {after[1]:,} | {fewer:.2f} | {before[0]:.3f} | {after[0]:.3f} | {faster:.2f} |"


def main():
    parser = argparse.ArgumentParser(description=__doc__, formatter_class=argparse.RawDescriptionHelpFormatter)
    parser.add_argument("before")
    parser.add_argument("after")
    parser.add_argument("--runs", type=int, default=5)
    given = parser.parse_args()
    if given.runs < 1:
        parser.error("--runs is at least 1")
    for program in (given.before, given.after):
        if not Path(program).is_file():
            sys.exit(f"there is no program {program}")
    print("| module | depth | nodes before | after | times fewer | seconds before | after | times faster |")
    print("| --- | --- | --- | --- | --- | --- | --- | --- |")
    for module, depth in ROWS:
        print(row_of((given.before, given.after), module, depth, given.runs), flush=True)


if __name__ == "__main__":
    main()
