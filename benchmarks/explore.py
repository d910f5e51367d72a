#!/usr/bin/env python3
"""Explores three modules with the built program, and shows how fast.

    benchmarks/explore.py [--runs N] [--workers N ..] [--program PROGRAM]

A row has a module, the depth, the nodes that were visited, which have to be as many as ROWS says, the number of
workers, the seconds of the clock of the fastest of N runs and those of a processor, how many nodes that is a second
of the clock, how many times as fast as one worker that is, and the memory of the program. The report has to be the
same for any number of workers. It needs Python 3.9 or later and nothing else.
"""
import argparse
import os
import re
import subprocess
import sys
import tempfile
import time
from pathlib import Path

HERE = Path(__file__).resolve().parent
sys.path.insert(0, str(HERE.parent / "tools"))
from programs import proved

# the module, the depth, and the nodes of its tree
ROWS = [
    ("inserts", 20, 747_115),
    ("messages", 28, 618_218),
    ("mixed", 30, 240_862),
]


def memory_of(process):
    """The most memory that a process had so far, in kilobytes; 0 where it has ended."""
    try:
        status = Path(f"/proc/{process}/status").read_text()
    except OSError:
        return 0
    found = re.search(r"VmHWM:\s+(\d+)", status)
    return int(found[1]) if found else 0


def run_of(program, name, depth, nodes, workers):
    """The seconds of the clock and of processors of one run, its memory in kilobytes, and its report."""
    words = [program, "explore", "--depth", str(depth), "--nodes", "10000000", "--workers", str(workers)]
    memory, ended = 0, 0
    began = time.monotonic()
    with open(HERE / f"{name}.core", "rb") as module, tempfile.TemporaryFile() as out:
        run = subprocess.Popen(words, stdin=module, stdout=out)
        while not ended:
            memory = max(memory, memory_of(run.pid))
            time.sleep(0.01)
            ended, _, used = os.wait4(run.pid, os.WNOHANG)
        seconds = time.monotonic() - began
        out.seek(0)
        report = out.read().decode()
    first = f"depth {depth}, nodes {nodes}, complete\n"
    if not report.startswith(first):
        sys.exit(f"{name}: the report begins with {report[:80]!r} and not with {first!r}")
    return seconds, used.ru_utime + used.ru_stime, memory, report


def fastest(program, name, depth, nodes, workers, runs):
    """The fastest of some runs, all of which have the same report."""
    found = [run_of(program, name, depth, nodes, workers) for _ in range(runs)]
    if len({report for _, _, _, report in found}) != 1:
        sys.exit(f"{name}: two runs have two reports")
    return min(found)


def main():
    parser = argparse.ArgumentParser(description=__doc__, formatter_class=argparse.RawDescriptionHelpFormatter)
    parser.add_argument("--runs", type=int, default=3)
    parser.add_argument("--workers", type=int, nargs="+", default=[1, 2, 4, 16])
    parser.add_argument("--program")
    asked = parser.parse_args()
    if asked.runs < 1:
        parser.error("--runs is at least 1")
    asked.program = asked.program or str(proved())
    print("| module | depth | nodes | workers | seconds | of a processor | nodes a second | times one worker | MB |")
    print("| --- | --- | --- | --- | --- | --- | --- | --- | --- |")
    for name, depth, nodes in ROWS:
        single, whole = None, None
        for workers in asked.workers:
            seconds, processor, memory, report = fastest(asked.program, name, depth, nodes, workers, asked.runs)
            single, whole = single or seconds, whole or report
            if report != whole:
                sys.exit(f"{name}: {workers} workers have another report")
            speed = f"{nodes / seconds:,.0f} | {single / seconds:.2f} | {memory / 1024:.1f}"
            print(f"| `{name}` | {depth} | {nodes:,} | {workers} | {seconds:.3f} | {processor:.3f} | {speed} |", flush=True)


if __name__ == "__main__":
    main()
