#!/usr/bin/env python3
"""Soaks the worker host by `bench_trials` on the files of examples/histories, read over and over, and
prints a row for each soak: tasks a second, how many tasks found their run in the cache and how many
did not, how many cached runs were evicted, most at random and the last once each, and the peak memory in
MiB, which is at least that of this script. A soak that refutes anything ends the script with its line. It is no part of the
gate, and its figures are those of the machine that it runs on and of what else runs there."""

import os
import re
import subprocess
import sys
from pathlib import Path

TOP = Path(__file__).resolve().parent.parent
PROGRAM = TOP / "crates/bench_trials/out/bench_trials"
FOLDER = TOP / "examples/histories"
LIMIT_SECONDS = 300
HISTORIES = 2_000
SOAKS = [(64, 0), (64, 1), (64, 100), (64, 2_000), (1, 0), (2, 0), (4, 0), (1, 2_000), (2, 2_000), (4, 2_000)]
FIGURES = r"evicted (\d+), hits (\d+), misses (\d+), microseconds (\d+), tasks a second (\d+)"
ROW = "{:>7} {:>6} {:>8} {:>8} {:>8} {:>8} {:>8} {:>6}"


def soak(workers, cache):
    """Soaks once, and prints a row."""
    command = ["timeout", str(LIMIT_SECONDS), PROGRAM, FOLDER, str(workers), str(cache), str(HISTORIES)]
    child = subprocess.Popen(command, stdout=subprocess.DEVNULL, stderr=subprocess.PIPE, text=True)
    said = child.stderr.read()
    # Of this child alone: the peak of all children would be that of the largest so far.
    _, status, used = os.wait4(child.pid, 0)
    figures = re.search(FIGURES, said)
    if status != 0 or figures is None:
        sys.exit(f"workers {workers}, cache {cache}: status {os.waitstatus_to_exitcode(status)}: {said.strip()}")
    evicted, hits, misses, micros, rate = figures.groups()
    seconds, memory = f"{int(micros) / 1e6:.3f}", f"{used.ru_maxrss / 1024:.1f}"
    print(ROW.format(workers, cache, hits, misses, evicted, seconds, rate, memory), flush=True)


def main():
    if not PROGRAM.exists():
        sys.exit(f"{PROGRAM} is not there: run `rt run` in crates/bench_trials, which builds it")
    print(f"{HISTORIES:,} histories a soak")
    print(ROW.format("workers", "cache", "hits", "misses", "evicted", "seconds", "tasks/s", "MiB"))
    for workers, cache in SOAKS:
        soak(workers, cache)


main()
