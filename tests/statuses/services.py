"""Whether the options of `serve` reach the host, by what a service costs, and services with little memory."""

import os
import re
import signal
import subprocess
import tempfile
import time

from .rooms import long_nap
from .runs import LIMIT_SECONDS, run, shown
from .texts import NO_MEMORY, UNCOMPARED, long_report

WORKER_FAULT = "wfhost: a worker has a fault: a call of its source failed\n"


def measured(room, words):
    """The status and the standard output of a run, the seconds of a processor that it took, and its threads at most."""
    most, null = 0, subprocess.DEVNULL
    with tempfile.TemporaryFile(dir=room.path) as out:
        started = subprocess.Popen([room.program, *words], stdin=null, stdout=out, stderr=null)
        ended, begun = 0, time.monotonic()
        while not ended:
            time.sleep(0.001)
            try:
                most = max(most, len(os.listdir(f"/proc/{started.pid}/task")))
            except OSError:
                pass
            if time.monotonic() > begun + LIMIT_SECONDS:
                os.kill(started.pid, signal.SIGKILL)
            ended, status, used = os.wait4(started.pid, os.WNOHANG)
        started.returncode = os.waitstatus_to_exitcode(status)
        out.seek(0)
        return started.returncode, out.read().decode(), used.ru_utime + used.ru_stime, most


def measured_until(room, words, is_right):
    """What was measured of a run, of the first of three where it is right, or of the last."""
    for _ in range(3):
        status, out, seconds, threads = measured(room, words)
        if is_right(seconds, threads):
            break
    return status, out, seconds, threads


def cache_options(room):
    """Whether the host has the cache that was asked for: a task whose run is not cached costs the replay of all events before
    it, so a service of two long histories takes much longer where the cache is too small for both."""
    tasks, events = 1000, 2 + 3 * 1000
    folder = room.folder({f"{number}.json": long_nap(tasks) for number in (100, 101)})
    uncached = measured(room, ["serve", folder, "--cache", "0"])[2]
    rows = [
        (["--cache", "0"], True),
        ([], False),
        (["--cache", "1"], True),
        (["--cache", "2"], False),
        (["--cache-events", str(events)], True),
        (["--cache-events", str(2 * events)], False),
    ]
    for options, is_slow in rows:
        words = ["serve", folder, *options]
        slow = lambda seconds: seconds > uncached / 3
        status, out, seconds, threads = measured_until(room, words, lambda seconds, _: slow(seconds) == is_slow)
        if slow(seconds) != is_slow:
            yield words, f"{seconds:.2f} seconds, where a host without a cache takes {uncached:.2f}"
        elif threads > os.cpu_count() + 2:
            yield words, f"{threads} threads for one worker"
        else:
            yield words, "" if (status, out) == (0, long_report(2, tasks)) else f"status {status}, {shown(out)}"


def worker_options(room):
    """Whether there are as many workers as were asked for, each with a thread, of which some may have ended when they are
    counted, and a slot for each: a worker without a slot passes a turn, and then not all tasks are served."""
    workers, tasks = 40, 400
    folder = room.folder({f"{number}.json": long_nap(tasks) for number in range(100, 100 + workers)})
    words = ["serve", folder, "--cache", "0", "--workers", str(workers), "--slots", str(workers)]
    enough = workers * 9 // 10
    status, out, _, threads = measured_until(room, words, lambda _, threads: threads >= enough)
    if threads < enough:
        yield words, f"{threads} threads"
    else:
        yield words, "" if (status, out) == (0, long_report(workers, tasks)) else f"status {status}, {shown(out)}"


def short_memory_fault(ran, files, tasks):
    """What is not as it should be where a service of so many long naps has too little memory: it ends without a report, or as
    with ample memory, or with a report of tasks that failed, each of which is told or counted, and then whether a worker has a fault."""
    out, error = ran.stdout.decode(), ran.stderr.decode()
    *rows, total = [[int(number) for number in re.findall(r"\d+", line.split(": ")[-1])] for line in out.splitlines() or [""]]
    sums = [sum(column) for column in zip(*rows)]
    repeated = sum(int(number) for number in re.findall(r", and (\d+) more\n", error))
    failure = r"wfhost: \d+\.json: task at \d+: .+\n"
    told = re.fullmatch(f"((?:{failure})*?)(?:{WORKER_FAULT})?{UNCOMPARED}", error)
    is_right = {
        0: (out, error) == (long_report(files, tasks), UNCOMPARED),
        1: told and len(rows) == files and total == [*sums, 0] and sums[0] - sums[1] == sums[2] == told[1].count("\n") + repeated > 0,
        2: (out, error) == ("", NO_MEMORY),
    }
    return "" if is_right.get(ran.returncode) else f"status {ran.returncode}, {shown(out)}, {shown(error)}"


def short_memory(room):
    """Services with less and less memory. With some of the limits a worker has a fault, and with others there is no report."""
    files, tasks, statuses, faults = 20, 200, set(), 0
    folder = room.folder({f"{number}.json": long_nap(tasks) for number in range(100, 100 + files)})
    words = ["serve", folder]
    for data in range(8 << 20, 1 << 20, -(400 << 10)):
        ran = run(room, words, data=data)
        statuses.add(ran.returncode)
        faults += WORKER_FAULT.encode() in ran.stderr
        yield [*words, data], short_memory_fault(ran, files, tasks)
    yield words, "" if statuses == {0, 1, 2} and faults else f"statuses {statuses}, and {faults} workers with faults"
