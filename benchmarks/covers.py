#!/usr/bin/env python3
"""Measures covers: how long it takes to write one, and to check it, compared to the exploration.

    benchmarks/covers.py [--runs N] [--program PROGRAM]

Explores two modules to several depths with one worker, then with the cover, and checks that cover. A row has the
nodes, the bytes of the cover, the seconds of the clock of the fastest of N runs of each, in turns, and how many times
the exploration the check takes. The check has to say that the cover is good. It needs Python 3.9 or later and nothing
else.
"""
import argparse
import subprocess
import sys
import time
from pathlib import Path

ROOT = Path(__file__).resolve().parent.parent
sys.path.insert(0, str(ROOT / "tools"))
from programs import proved

# the modules, and the depths of each
ROWS = {"inserts": (14, 16, 18), "messages": (16, 20, 24)}
MARK = b"%%cover\n"


def timed(program, words, text):
    """What a run printed, and the seconds of the clock that it took."""
    began = time.monotonic()
    done = subprocess.run([program, *words], input=text, capture_output=True)
    seconds = time.monotonic() - began
    if done.returncode != 0:
        sys.exit(f"{' '.join(words)}: status {done.returncode}, it printed {done.stdout[:200]!r}")
    return done.stdout, seconds


def row_of(program, module, depth, runs):
    """The row of a module and a depth."""
    text = (ROOT / "benchmarks" / f"{module}.core").read_bytes().rstrip(b"\n") + b"\n"
    explores = ["explore", "--depth", str(depth), "--nodes", "10000000"]
    times = []
    for _ in range(runs):
        _, exploring = timed(program, explores, text)
        report, writing = timed(program, [*explores, "--cover"], text)
        cover = report[report.index(MARK) :]
        answer, checking = timed(program, ["check", "--depth", str(depth)], text + cover)
        if answer != b"cover good to depth %d\n" % depth:
            sys.exit(f"the cover of {module} to depth {depth}: {answer!r}")
        times.append((exploring, writing, checking))
    exploring, writing, checking = map(min, zip(*times))
    nodes = cover.count(b"\n") - 1
    return f"| `{module}` | {depth} | {nodes:,} | {len(cover):,} | {exploring:.3f} | {writing:.3f} | {checking:.3f} | {checking / exploring:.2f} |"


def main():
    parser = argparse.ArgumentParser(description=__doc__, formatter_class=argparse.RawDescriptionHelpFormatter)
    parser.add_argument("--runs", type=int, default=5)
    parser.add_argument("--program")
    given = parser.parse_args()
    if given.runs < 1:
        parser.error("--runs is at least 1")
    given.program = given.program or str(proved())
    print("| module | depth | nodes | bytes of the cover | explore | with the cover | check | check by explore |")
    print("| --- | --- | --- | --- | --- | --- | --- | --- |")
    for module, depths in ROWS.items():
        for depth in depths:
            print(row_of(given.program, module, depth, given.runs), flush=True)


if __name__ == "__main__":
    main()
