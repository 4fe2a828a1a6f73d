#!/usr/bin/env python3
"""What `Run::advance` costs on a long run whose tasks start 64 timers each, by the program of bench_trials. It is no part of the
gate. It prints

- with valgrind, the growths of memory of one call after 1, 10, 100 and 650 tasks: those of the program that makes the call,
  less those of the program that makes all but the call; and the instructions of the next call: those of the program that makes
  two, less those of the program that makes one (the program that makes none takes some millions of instructions more on a long
  run than the one that makes one; why was not looked into);
- with `rt try`, what becomes of the call after 100 tasks where growth 4,001 of it and of the making of the events that it is
  given is refused, and where one in the middle of these is
  (a replay of 100 such tasks makes 6,400 texts for its timers alone, so a call that replayed could not pass by that growth);
- by the program's clock, the first 100 tasks of a run of 49,983 events, one call each, and the last 100: the least of some runs.

It ends with status 1 where a call makes more than 4,000 growths or twice the instructions of the cheapest, where the refused
growth changes what the program says or the one in the middle does not, or where the last tasks take twice the time of the
first."""

import re
import subprocess
import sys
from pathlib import Path

TOP = Path(__file__).resolve().parent.parent
CRATE = TOP / "crates/bench_trials"
PROGRAM = CRATE / "out/bench_trials"
LIMIT_SECONDS = 600
MOST_GROWTHS = 4_000
RUNS = 15


def run(*words, **how):
    """What a command prints and how it ends."""
    words = [str(word) for word in words]
    return subprocess.run(words, capture_output=True, text=True, timeout=LIMIT_SECONDS, **how)


def growths(tasks, calls):
    """How often the program asks for memory."""
    ran = run("valgrind", PROGRAM, tasks, calls, check=True)
    return int(re.search(r"total heap usage: ([\d,]+) allocs", ran.stderr)[1].replace(",", ""))


def instructions(tasks, calls):
    """How many instructions the program executes."""
    ran = run("valgrind", "--tool=callgrind", "--callgrind-out-file=/dev/null", PROGRAM, tasks, calls, check=True)
    return int(re.search(r"Collected : (\d+)", ran.stderr)[1])


def microseconds(tasks, calls):
    """The least time that the calls took."""
    times = [run(PROGRAM, tasks, calls, check=True).stderr for _ in range(RUNS)]
    return min(int(re.search(r"took (\d+) microseconds", it)[1]) for it in times)


def counted():
    """Whether a call costs the same after few tasks and after many."""
    most, costs = 0, []
    for tasks in (1, 10, 100, 650):
        before = growths(tasks, 0)
        more = growths(tasks, 1) - before
        costs.append(instructions(tasks, 2) - instructions(tasks, 1))
        most = max(most, more)
        print(f"one call after {tasks} tasks: {more} growths, and {before} for all before it; {costs[-1]:,} instructions")
    return most <= MOST_GROWTHS and 0 < min(costs) and max(costs) < 2 * min(costs)


def refused(growth):
    """What the program says of one call after 100 tasks where a growth of the whole program is refused, with its status."""
    ran = run("rt", "try", "--fail-alloc", growth, "--", 100, 1, cwd=CRATE)
    status = re.search(r"^run=ended status=(\d+) ", ran.stdout + ran.stderr, re.M)
    said = re.search(r"^(100 tasks, and 1 more: .*|bench_trials: could not be tried)$", ran.stdout + ran.stderr, re.M)
    return (said[1] if said else "nothing"), (status[1] if status else "none")


def passes_by():
    """Whether a call goes on although growth 4,001 of it is refused, and not where one in its middle is."""
    before, with_call = growths(100, 0), growths(100, 1)
    wanted = run(PROGRAM, 100, 1, check=True).stdout.strip(), "0"
    late = refused(before + MOST_GROWTHS + 1)
    middle = refused((before + with_call) // 2)
    print(f"growth 4,001 of the call refused: {late[0]} (status {late[1]})")
    print(f"a growth in its middle refused: {middle[0]} (status {middle[1]})")
    return late == wanted and middle == ("bench_trials: could not be tried", "2")


def steady():
    """Whether the last tasks of a long run take as long as the first."""
    first, last = microseconds(1, 100), microseconds(635, 100)
    print(f"100 tasks after 1: {first:,} microseconds; after 635: {last:,}; ratio {last / first:.2f}")
    return last < 2 * first


def main():
    if not PROGRAM.exists():
        sys.exit("the program is not built: run `rt run -- 100 1` in crates/bench_trials")
    return 0 if all([counted(), passes_by(), steady()]) else 1


if __name__ == "__main__":
    sys.exit(main())
