#!/usr/bin/env python3
"""Measures `wfhost replay` and `wfhost serve` on files that it makes itself in a temporary folder: seconds, seconds of
all processors, peak memory in MiB, and how many times the size of the files that is; then what an event costs in short and
long histories, in microseconds and in instructions, which valgrind counts. It is no part
of the gate, and its figures are those of the machine that it runs on and of what else runs there."""

import json
import os
import re
import subprocess
import tempfile
import time
from multiprocessing import get_context
from pathlib import Path

TOP = Path(__file__).resolve().parent.parent
PROGRAM = TOP / "crates/wfhost/out/wfhost"
LIMIT_SECONDS = 120
RUNS = 25
# The functions' names in the program, whatever workflows it is made for.
FUNCTIONS = ["wh_json::events::read_events*", "wh_explain::findings::find_in_events::*"]
EACH = "{:<42}{:>9.2f} microseconds, instructions: {:,.0f} to read, {:,.0f} to replay"
ROW = "{:<42}{:>9}{:>9}{:>7}{:>7}  {}"
TASK = ["WorkflowTaskScheduled", "WorkflowTaskStarted", "WorkflowTaskCompleted"]


def event(number, kind, attributes=None):
    made = {"eventId": str(number), "eventTime": "2024-05-01T10:00:01Z", "eventType": kind}
    if attributes is not None:
        made[kind[0].lower() + kind[1:] + "EventAttributes"] = attributes
    return made


def nap():
    """A workflow that sleeps, from start to end."""
    return [
        event(1, "WorkflowExecutionStarted", {"workflowType": {"name": "Nap"}}),
        *(event(2 + i, kind) for i, kind in enumerate(TASK)),
        event(5, "TimerStarted", {"timerId": "nap"}),
        event(6, "TimerFired", {"startedEventId": "5"}),
        *(event(7 + i, kind) for i, kind in enumerate(TASK)),
        event(10, "WorkflowExecutionCompleted"),
    ]


def signals(count, data=""):
    """A history of signals, each with a payload of that data in base64."""
    payload = {"metadata": {"encoding": "anNvbi9wbGFpbg=="}, "data": data}
    given = {"signalName": "s", "input": {"payloads": [payload]}}
    return nap()[:1] + [event(n, "WorkflowExecutionSignaled", given) for n in range(2, count + 1)]


def tasks(count):
    """A history of tasks that command nothing, after the one that starts the nap."""
    return nap()[:5] + [event(n, TASK[n % 3]) for n in range(6, count + 1)]


def timers(count):
    """A history of timers that are started in no task and fire."""
    events = nap()[:5] + [event(6, TASK[2])]
    for number in range(7, count, 2):
        events.append(event(number, "TimerStarted", {"timerId": str(number)}))
        events.append(event(number + 1, "TimerFired", {"startedEventId": str(number)}))
    return events


def write(folder, files):
    for name, make in files:
        Path(folder, name).write_text(json.dumps({"events": make()}))


def measure(title, files, processors=None, does=("replay",)):
    """Replays or serves files, each a name and what makes its events, and prints a row."""
    with tempfile.TemporaryDirectory() as folder, tempfile.TemporaryFile() as out:
        # In a process of its own, since a child's peak memory begins with that of its parent.
        writer = get_context("fork").Process(target=write, args=(folder, files))
        writer.start()
        writer.join()
        size = sum(path.stat().st_size for path in Path(folder).iterdir())
        pinned = ["taskset", "-c", processors] if processors else []
        command = [*pinned, "timeout", str(LIMIT_SECONDS), PROGRAM, does[0], folder, *does[1:]]
        begun = time.monotonic()
        child = subprocess.Popen(command, stdout=out)
        _, _, used = os.wait4(child.pid, 0)
        seconds = f"{time.monotonic() - begun:.2f}"
        out.seek(0)
        lines = out.read().decode().splitlines() or ["stopped"]
    peak = used.ru_maxrss * 1024
    said = lines[0] if len(files) == 1 else lines[-1]
    spent = f"{used.ru_utime + used.ru_stime:.2f}"
    memory, times = f"{peak / 2**20:.0f}", f"{peak / size:.1f}"
    print(ROW.format(title, seconds, spent, memory, times, said), flush=True)


def fastest(folder):
    """The least microseconds of many replays of a folder."""
    took = []
    for _ in range(RUNS):
        begun = time.perf_counter()
        subprocess.run([PROGRAM, "replay", folder], stdout=subprocess.DEVNULL, timeout=LIMIT_SECONDS, check=True)
        took.append(time.perf_counter() - begun)
    return 1e6 * min(took)


def instructions(folder, function):
    """How many instructions the program executes within a function while it replays a folder."""
    within = ["--collect-atstart=no", f"--toggle-collect={function}"]
    command = ["valgrind", "--tool=callgrind", "--callgrind-out-file=/dev/null", *within, PROGRAM, "replay", folder]
    ran = subprocess.run(command, capture_output=True, text=True, timeout=LIMIT_SECONDS, check=True)
    return int(re.search(r"Collected : (\d+)", ran.stderr)[1])


def costs(make):
    """What the program spends on one history: microseconds, and the instructions of reading and of replay."""
    with tempfile.TemporaryDirectory() as folder:
        write(folder, [("x.json", make)])
        return [fastest(folder), *(instructions(folder, function) for function in FUNCTIONS)]


def grows(kind):
    """Prints what an event costs in histories of one kind, without what the program takes for ten events."""
    least = costs(nap)
    for count in (1_000, 10_000, 50_000):
        spent = [(cost - at_least) / count for cost, at_least in zip(costs(lambda: kind(count)), least)]
        print(EACH.format(f"an event of {count:,}, {kind.__name__}", *spent), flush=True)


def main():
    subprocess.run([TOP / "wfhost", "--help"], stdout=subprocess.DEVNULL, check=True)
    print(ROW.format("files", "seconds", "of all", "MiB", "times", "answer"))
    measure("3,000 naps of 10 events", [(f"{n:04}.json", nap) for n in range(3_000)])
    folder = [(f"{n:02}.json", lambda: tasks(3_000)) for n in range(64)]
    for processors in ["0", "0,1", "0-3"]:
        measure(f"64 histories of 3,000, processors {processors}", folder, processors)
    for count, data in [(1_000, "A" * 60_000), (51_200, "A" * 1_000)]:
        big = [("x.json", lambda: signals(count, data))]
        measure(f"one file of 60 MB, {count:,} events", big)
    for kind in [signals, tasks, timers]:
        for count in [1_000, 10_000, 50_000]:
            history = [("x.json", lambda: kind(count))]
            measure(f"one history of {count:,}, {kind.__name__}", history)
    # Three events are a task: with a cache each is stepped alone, without one it is replayed from the first.
    for count, cache in [(1_000, 1), (10_000, 1), (50_000, 1), (1_000, 0), (10_000, 0)]:
        history = [("x.json", lambda: tasks(count))]
        does = ("serve", "--cache", str(cache))
        measure(f"one history of {count:,} served, cache {cache}", history, does=does)
    for kind in [signals, tasks, timers]:
        grows(kind)


if __name__ == "__main__":
    main()
