#!/usr/bin/env python3
"""Measures the explored world and its parts: tables, channels, mailboxes, and copies of a whole world.

    benchmarks/measure_parts.py [--runs N]

Runs the program `test_measures`, which `rt run` builds in its crate, at each size and at twice that size. A
row has the size, the seconds of the clock of the fastest of N runs, and how many times as long the double
took: 2 where the cost is linear, 1 where it does not depend on the size. The start of the program, which the
first row shows, is part of each. It needs Python 3.9 or later and nothing else.
"""
import argparse
import subprocess
import sys
import time
from pathlib import Path

PROGRAM = Path(__file__).resolve().parent.parent / "crates/test_measures/out/test_measures"
# what is done, the word for it, its size, and what it has to print at a size
ROWS = [
    ("nothing", "nothing", 1, lambda size: 0),
    ("objects put into a set, and a walk over its keys", "set", 10_000, lambda size: size),
    ("objects put into an ordered_set, and a walk over its keys", "ordered_set", 10_000, lambda size: size),
    ("a million copies of a table of so many objects, with the objects put in", "copies", 10_000, lambda size: size),
    ("signals through one channel", "signals", 10_000, lambda size: size),
    ("signals through one channel", "signals", 100_000, lambda size: size),
    ("10,000 receives, each past so many messages", "receive", 1_000, lambda size: 10_000),
    ("a million copies of a world of ten processes, by its references made", "references", 400, lambda size: 1_030 + size),
    ("the same by its messages", "messages", 1_000, lambda size: 430 + size),
    ("the same by the objects of its table", "objects", 10_000, lambda size: 1_410 + size // 500),
    ("the same by its processes", "processes", 10, lambda size: 1_420 + size),
]


def seconds_of(word, size, wanted):
    """The seconds of the clock of one run."""
    began = time.monotonic()
    done = subprocess.run([PROGRAM, word, str(size)], capture_output=True, text=True)
    seconds = time.monotonic() - began
    if done.returncode != 0 or done.stdout != f"{wanted}\n":
        sys.exit(f"{word} {size}: status {done.returncode}, it printed {done.stdout[:200]!r}")
    return seconds


def fastest(word, size, wanted, runs):
    """The size and its double, in turns, so that what else the machine does affects both."""
    sizes = (size, 2 * size)
    single, double = zip(*([seconds_of(word, n, wanted(n)) for n in sizes] for _ in range(runs)))
    return min(single), min(double)


def main():
    layout = argparse.RawDescriptionHelpFormatter
    parser = argparse.ArgumentParser(description=__doc__, formatter_class=layout)
    parser.add_argument("--runs", type=int, default=9)
    runs = parser.parse_args().runs
    if runs < 1:
        parser.error("--runs is at least 1")
    if not PROGRAM.is_file():
        sys.exit("there is no program test_measures: run `rt run` in crates/test_measures")
    print("| work | size | seconds | as many times at twice the size |")
    print("| --- | --- | --- | --- |")
    for name, word, size, wanted in ROWS:
        single, double = fastest(word, size, wanted, runs)
        print(f"| {name} | {size:,} | {single:.4f} | {double / single:.1f} |", flush=True)


if __name__ == "__main__":
    main()
