#!/usr/bin/env python3
"""Measures what `wfhost work` takes of the memory for the metadata of payloads and the headers that it keeps of cached runs
(docs/use/LIVE.md), and prints a row for each number of payloads in the input of a run, and one for a header: the resident bytes
of a run whose payloads have an encoding alone, and whose start has no header; those of one that has more; and by how many
they are more, for a run and for each of its payloads. A run's bytes are what the program takes with all runs cached, less
what it takes with one, by the number of runs. This script is the server, over pipes: it gives the first task of each run,
and ends where an answer lacks what the run has. It is no part of the gate. `--program WORDS` measures another program, `--runs
N` with so many runs, `--bytes N` with so many bytes of data in a payload. A program with a sanitizer takes far more."""

import argparse
import base64
import json
import re
import subprocess
import sys
import tempfile
from pathlib import Path

PROGRAM = Path(__file__).resolve().parent.parent / "crates/wfhost/out/wfhost"
# Payloads with more metadata in the input of a run, and whether its start has a header.
ROWS = [(1, False), (10, False), (0, True)]
TITLES = "payloads header without with more/run more/payload".split()
ROW = "{:>8} {:>6} {:>8} {:>8} {:>8} {:>12}"
WORKERS = 4
KEY, TRACE = "encryption-key-id", "trace"


def base64_of(text):
    return base64.b64encode(text.encode()).decode()


def payload(data, **more):
    """A payload of this data, with more metadata than its encoding."""
    metadata = {"encoding": "binary/encrypted", **more}
    return {"data": base64_of(data), "metadata": {name: base64_of(text) for name, text in metadata.items()}}


class Runs:
    """The runs of a measurement: payloads of so many bytes in the input of each, and whether these and the start have more."""

    def __init__(self, payloads, has_header, size, has_more):
        self.payloads, self.size, self.has_more = payloads, size, has_more
        self.has_header = has_header and has_more

    def input(self, run):
        more = {KEY: "key-7", "messageType": "shop.Order"} if self.has_more else {}
        return {"payloads": [payload(f"{run} {number} ".ljust(self.size, "x"), **more) for number in range(self.payloads)]}

    def task(self, run):
        """The first task of a run."""
        started = {"workflowType": {"name": "Greet"}, "input": self.input(run)}
        if self.has_header:
            started["header"] = {"fields": {TRACE: payload(f"{run}", kind="trace")}}
        kinds = ("WORKFLOW_EXECUTION_STARTED", "WORKFLOW_TASK_SCHEDULED", "WORKFLOW_TASK_STARTED")
        same = {"eventTime": "2024-05-01T10:00:00Z"}
        events = [{"eventId": str(number), "eventType": f"EVENT_TYPE_{kind}", **same} for number, kind in enumerate(kinds, 1)]
        events[0]["workflowExecutionStartedEventAttributes"] = started
        execution = {"workflowId": f"greet-{run}", "runId": f"5e6f7a8b-0000-4000-8000-{run:012}"}
        return {"taskToken": base64_of(f"task {run}"), "workflowExecution": execution, "attempt": 1, "history": {"events": events}}

    def are_right(self, answer):
        """Whether an answer has as many payloads with more metadata as the input, and the header."""
        kept = answer.count(f'"{KEY}"') == (self.payloads if self.has_more else 0)
        return kept and (f'"{TRACE}"' in answer) == self.has_header


class Worker:
    """The program, by its pipes."""

    def __init__(self, program, runs):
        words = ["work", "--task-queue", "q", "--identity", "me", "--workers", str(WORKERS), "--cache", str(runs)]
        self.said, self.polls = tempfile.TemporaryFile(), []
        pipe = subprocess.PIPE
        self.child = subprocess.Popen([*program, *words], stdin=pipe, stdout=pipe, stderr=self.said, text=True)

    def send(self, number, result):
        line = json.dumps({"jsonrpc": "2.0", "id": number, "result": result})
        self.child.stdin.write(line + "\n")
        self.child.stdin.flush()

    def serve(self, runs, count):
        """Gives it the first tasks of so many runs, until all are answered and it polls again as at first."""
        begun = answered = sticky = 0
        while answered < count or len(self.polls) + sticky < WORKERS:
            line = self.child.stdout.readline()
            request = json.loads(line) if line else self.fail("it has ended")
            number, method = request["id"], request["method"]
            if method == "PollWorkflowTaskQueue" and "STICKY" in line:
                sticky += 1
            elif method == "PollWorkflowTaskQueue":
                self.polls.append(number)
            elif method == "RespondWorkflowTaskCompleted" and runs.are_right(line):
                answered += 1
                self.send(number, {})
            else:
                self.fail(f"it sends {line}")
            while self.polls and begun < count:
                self.send(self.polls.pop(), runs.task(begun))
                begun += 1

    def resident(self):
        """The bytes that it takes of the memory, without those of files."""
        status = Path(f"/proc/{self.child.pid}/status").read_text()
        return int(re.search(r"RssAnon:\s+(\d+) kB", status)[1]) * 1024

    def end(self):
        self.child.stdin.close()
        if self.child.wait(60):
            self.fail(f"status {self.child.returncode}")

    def fail(self, what):
        self.child.kill()
        self.said.seek(0)
        sys.exit(f"{what}: {self.said.read().decode(errors='replace')[-500:]}")


def taken(program, runs, count, cached):
    """The bytes that a program takes with so many of the runs cached."""
    worker = Worker(program, cached)
    worker.serve(runs, count)
    found = worker.resident()
    worker.end()
    return found


def measure(asked, payloads, has_header, has_more):
    """The bytes that a run takes."""
    runs = Runs(payloads, has_header, asked.bytes, has_more)
    return (taken(asked.program, runs, asked.runs, asked.runs) - taken(asked.program, runs, 1, asked.runs)) / (asked.runs - 1)


def main():
    parser = argparse.ArgumentParser(description=__doc__, formatter_class=argparse.RawDescriptionHelpFormatter)
    parser.add_argument("--program", type=str.split, default=[str(PROGRAM)])
    parser.add_argument("--runs", type=int, default=9_000)
    parser.add_argument("--bytes", type=int, default=100)
    asked = parser.parse_args()
    print(f"{asked.runs:,} runs, payloads of {asked.bytes} bytes")
    print(ROW.format(*TITLES))
    for payloads, has_header in ROWS:
        without, more = (measure(asked, payloads, has_header, has_more) for has_more in (False, True))
        each = f"{(more - without) / payloads:.0f}" if payloads else "-"
        figures = [f"{figure:.0f}" for figure in (without, more, more - without)]
        print(ROW.format(payloads, "yes" if has_header else "no", *figures, each), flush=True)


if __name__ == "__main__":
    main()
