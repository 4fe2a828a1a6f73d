#!/usr/bin/env python3
"""What a table costs that comes with its run: instructions, as valgrind counts them, and microseconds of a processor, to replay
a run of 22 events whose table has 10 rows, and the same run of a workflow in code. The table stands in the history, as JSON in
base64, and is read at the run's start. Larger tables follow. It is no part of the gate.

    bench/tables.py [--program PATH]"""

import argparse
import base64
import json
import os
import subprocess
import tempfile
from pathlib import Path

import replay
from replay import TASK, TOP, event, instructions

# What replays a file, and what of that reads it.
FUNCTIONS = ["wh_explain::findings::find_in_bytes::*", "wh_json::events::read_events*"]
FILES, RUNS = 2_000, 9


def table(rows):
    """A nap as a table of so many rows."""
    made = [["napping", "start", "", "timer nap 60"], ["napping", "fired nap", "", "complete"]]
    made += [["napping", f"signal s{number}", "", "fail it was woken"] for number in range(rows - 2)]
    return json.dumps({"version": 1, "rows": made}).encode()


def nap(kind, first=None):
    """A run that sleeps through three signals: 22 events."""
    payload = {"metadata": {"encoding": "anNvbi9wbGFpbg=="}, "data": base64.b64encode(first or b'"Ada"').decode()}
    begun = {"workflowType": {"name": kind}, "input": {"payloads": [payload]}}
    events = [event(1, "WorkflowExecutionStarted", begun), *(event(2 + at, one) for at, one in enumerate(TASK))]
    events.append(event(5, "TimerStarted", {"timerId": "nap"}))
    for _ in range(3):
        events.append(event(len(events) + 1, "WorkflowExecutionSignaled", {"signalName": "noise"}))
        events += [event(len(events) + 1 + at, one) for at, one in enumerate(TASK)]
    events.append(event(len(events) + 1, "TimerFired", {"startedEventId": "5"}))
    events += [event(len(events) + 1 + at, one) for at, one in enumerate(TASK)]
    return [*events, event(len(events) + 1, "WorkflowExecutionCompleted")]


def microseconds(events):
    """What a file takes of a processor, by the best of some replays of many copies, without what the program takes for one."""
    def best(files):
        with tempfile.TemporaryDirectory() as folder:
            for number in range(files):
                Path(folder, f"{number:05}.json").write_text(json.dumps({"events": events}))
            return min(spent(folder) for _ in range(RUNS))

    return (best(FILES) - best(1)) / (FILES - 1) * 1e6


def spent(folder):
    child = subprocess.Popen(["taskset", "-c", "0", str(replay.PROGRAM), "replay", folder], stdout=subprocess.DEVNULL)
    _, status, used = os.wait4(child.pid, 0)
    assert status == 0
    return used.ru_utime + used.ru_stime


def row(title, events):
    with tempfile.TemporaryDirectory() as folder:
        Path(folder, "x.json").write_text(json.dumps({"events": events}))
        whole, read = (instructions(folder, function) for function in FUNCTIONS)
    took = microseconds(events)
    print(f"{title:<28}{len(events)} events: {read:>9,} instructions to read, {whole - read:>9,} to replay, {took:.0f} microseconds", flush=True)
    return whole, took


def main():
    parser = argparse.ArgumentParser(description=__doc__, formatter_class=argparse.RawDescriptionHelpFormatter)
    parser.add_argument("--program", type=Path, default=TOP / "crates/wfhost/out/wfhost")
    replay.PROGRAM = parser.parse_args().program
    code = row("in code", nap("Nap"))
    for rows in (10, 40, 200):
        found = row(f"a table of {rows} rows", nap("Table", table(rows)))
        print(f"{'':<28}{found[0] / code[0]:.2f} times the instructions, {found[1] / code[1]:.2f} times the time", flush=True)


if __name__ == "__main__":
    main()
