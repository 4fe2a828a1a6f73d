#!/usr/bin/env python3
"""Compares workflows as rows with the same in code: the instructions that `order_worker` and `wfhost` execute, as valgrind
counts them, to replay a history with what is found of places and differences. A history is the whole of a short run, or one
with many tasks, each with a signal that the workflow does not know. It is no part of the gate."""

import json
import sys
import tempfile
from pathlib import Path

import replay
from replay import TASK, TOP, event, instructions

PROGRAMS = {"code": TOP / "crates/wfhost/out/wfhost", "rows": TOP / "crates/order_worker/out/order_worker"}
# What replays a file, and what of that reads it.
FUNCTIONS = ["wh_explain::findings::find_in_bytes::*", "wh_json::events::read_events*"]
TASKS = 2_500


def talk(begun):
    """A run that is begun so, and then has tasks with a signal each."""
    events = list(begun)
    for _ in range(TASKS):
        events.append(event(len(events) + 1, "WorkflowExecutionSignaled", {"signalName": "s"}))
        events += [event(len(events) + 1 + i, kind) for i, kind in enumerate(TASK)]
    return events


def spent(program, events):
    """The instructions that a program executes to replay a history."""
    replay.PROGRAM = program
    with tempfile.TemporaryDirectory() as folder:
        Path(folder, "x.json").write_text(json.dumps({"events": events}))
        whole, read = (instructions(folder, function) for function in FUNCTIONS)
        return whole - read


def main():
    programs = {**PROGRAMS, **dict(zip(PROGRAMS, map(Path, sys.argv[1:])))}
    family = json.loads((TOP / "examples/histories/family.json").read_text(encoding="utf-8"))["events"]
    histories = {"a nap": replay.nap(), "a family": family, "tasks of a nap": talk(replay.nap()[:5]), "tasks of a family": talk(family[:6])}
    for title, events in histories.items():
        code, rows = (spent(programs[name], events) for name in ("code", "rows"))
        print(f"{title:<20}{len(events):>8,} events: {code:>12,} in code, {rows:>12,} as rows, {rows / code:.3f} times", flush=True)


if __name__ == "__main__":
    main()
