#!/usr/bin/env python3
"""Measures `wfhost work` over pipes, fed by feed.c, which takes no part of a task's time worth naming, and prints a row for
each number of workers and of cached runs: workflow tasks a second, the microseconds from the result of a poll to the
answer (the median and the 99th of 100), how many tasks did not find their run, seconds of a processor for a thousand
tasks, the first ones of runs too, and the peak memory in MiB. Each task is one with a signal, of a run that has a few
events; without a cache it is the first one of a new run. It is no part of the gate, and its figures are those of the
machine that it runs on and of what else runs there. `--program WORDS` measures another program, `--seconds S` for so
long."""

import argparse
import re
import subprocess
import sys
import tempfile
from pathlib import Path

HERE = Path(__file__).resolve().parent
PROGRAM = HERE.parent / "crates/wfhost/out/wfhost"
# Workers and cached runs; of 0 runs none is cached.
ROWS = [(1, 0), (2, 0), (4, 0), (16, 0), (2, 1_000), (5, 1_000), (16, 1_000), (5, 10_000), (16, 10_000)]
FIGURES = r"tasks (\d+) seconds ([\d.]+) median (\d+) last (\d+) misses (\d+) failures (\d+) processor ([\d.]+) memory ([\d.]+) status (\d+)"
ROW = "{:>7} {:>7} {:>8} {:>8} {:>8} {:>7} {:>10} {:>7}"


def measure(feed, program, seconds, workers, runs):
    """Measures once, and prints a row."""
    work = ["work", "--task-queue", "q", "--identity", "me", "--workers", str(workers), "--cache", str(runs)]
    command = [feed, str(runs), str(seconds), *program, *work]
    ran = subprocess.run(command, capture_output=True, text=True, timeout=60 + 10 * seconds)
    found = re.search(FIGURES, ran.stdout)
    if found is None or found[6] != "0" or found[9] != "0":
        sys.exit(f"{workers} workers, {runs} runs: {ran.stdout}{ran.stderr[-500:]}")
    tasks, took, median, last, misses, _, processor, memory, _ = map(float, found.groups())
    rate, thousand = f"{tasks / took:.0f}", f"{1000 * processor / (tasks + runs):.3f}"
    print(ROW.format(workers, runs, rate, f"{median:.0f}", f"{last:.0f}", f"{misses:.0f}", thousand, memory), flush=True)


def main():
    parser = argparse.ArgumentParser(description=__doc__, formatter_class=argparse.RawDescriptionHelpFormatter)
    parser.add_argument("--program", type=str.split, default=[str(PROGRAM)])
    parser.add_argument("--seconds", type=float, default=5)
    asked = parser.parse_args()
    with tempfile.TemporaryDirectory() as room:
        feed = str(Path(room, "feed"))
        subprocess.run(["cc", "-O2", "-o", feed, str(HERE / "feed.c")], check=True)
        print(ROW.format("workers", "cached", "tasks/s", "median", "99th", "misses", "s of 1000", "MiB"))
        for workers, runs in ROWS:
            measure(feed, asked.program, asked.seconds, workers, runs)


if __name__ == "__main__":
    main()
