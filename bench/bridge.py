#!/usr/bin/env python3
"""Measures the bridge alone, between a server of a few lines in a process of its own and a worker that does next to
nothing, and prints a row for each number of events in a task and of threads of the worker: workflow tasks a second, each a
poll and an answer, of each bridge. `--bridge FILE..` measures several, which take turns; a figure is the median of
`--rounds` rounds of `--seconds` seconds, and the last column is the last bridge's by the first one's. It is no part of the
gate, and its figures are those of the machine that it runs on and of what else runs there. It needs grpcio and protobuf.

    bench/bridge.py                                 # this bridge: a minute and a half
    git worktree add ../before COMMIT               # and that of an earlier commit beside it, its column first
    bench/bridge.py --bridge ../before/bridge/temporal_bridge.py bridge/temporal_bridge.py
"""

import argparse
import os
import re
import statistics
import subprocess
import sys
from concurrent.futures import ThreadPoolExecutor
from itertools import cycle, islice
from pathlib import Path

SYSTEM = "/usr/bin/python3"  # Debian's packages python3-grpcio and python3-protobuf are for this one.
TOP = Path(__file__).resolve().parent.parent
sys.path.insert(0, str(TOP / "standin"))
sys.dont_write_bytecode = True
try:
    import grpc
    from google.protobuf import json_format

    from definitions import CLASSES, SERVICE
except ImportError as missing:
    if sys.executable != SYSTEM and os.access(SYSTEM, os.X_OK):
        os.execv(SYSTEM, [SYSTEM, *sys.argv])
    sys.exit(f"{missing}: it needs grpcio and protobuf")

# Events in a task, and threads that poll and answer.
ROWS = [(5, 4), (5, 16), (20, 4), (20, 16)]
SERVE = "--serve"
PAYLOAD = {"metadata": {"encoding": "anNvbi9wbGFpbg=="}, "data": "eyJjZW50cyI6IDE5OTl9"}
# The worker: each thread polls, answers, and polls again. It takes the id of a response from the end that all bridges give
# it, and looks at nothing else. For a first second it does not count.
WORKER = r"""
import os, sys, time
threads, seconds = int(sys.argv[1]), float(sys.argv[2])
poll = '{"id":%d,"jsonrpc":"2.0","method":"PollWorkflowTaskQueue","params":{"identity":"me","namespace":"default","taskQueue":{"kind":"TASK_QUEUE_KIND_NORMAL","name":"q"}}}\n'
answer = '{"id":%d,"jsonrpc":"2.0","method":"RespondWorkflowTaskCompleted","params":{"commands":[{"commandType":"COMMAND_TYPE_START_TIMER","startTimerCommandAttributes":{"startToFireTimeout":"60s","timerId":"nap"}}],"identity":"me","namespace":"default","queryResults":{},"taskToken":"dG9rZW4gMQ=="}}\n'
open_polls, number, tasks, begun = set(), 0, 0, None
def send(line):
    global number
    number += 1
    os.write(1, (line % number).encode())
    return number
for _ in range(threads):
    open_polls.add(send(poll))
at_start = time.monotonic()
for line in sys.stdin.buffer:
    head = line[:40]
    if b'"error"' in line[:60]:
        sys.exit(line[:200])
    id = int(head.split(b'"id":')[1].split(b",")[0])
    if id in open_polls:
        open_polls.remove(id)
        send(answer)
    else:
        tasks += begun is not None
        open_polls.add(send(poll))
    now = time.monotonic()
    if begun is None and now > at_start + 1:
        begun = now
    if begun is not None and now > begun + seconds:
        print(f"tasks a second {tasks / (now - begun):.1f}", file=sys.stderr, flush=True)
        os._exit(0)
"""


# What follows in a history again and again: a task whose code starts a timer, and a signal that makes the next task.
FOLLOWING = [
    ("WORKFLOW_TASK_SCHEDULED", {"taskQueue": {"name": "orders", "kind": "TASK_QUEUE_KIND_NORMAL"}, "attempt": 1}),
    ("WORKFLOW_TASK_STARTED", {"scheduledEventId": "2", "identity": "machine-1-0a1b2c3d"}),
    ("WORKFLOW_TASK_COMPLETED", {"scheduledEventId": "2", "startedEventId": "3"}),
    ("TIMER_STARTED", {"timerId": "hold", "startToFireTimeout": "86400s", "workflowTaskCompletedEventId": "4"}),
    ("WORKFLOW_EXECUTION_SIGNALED", {"signalName": "go", "input": {"payloads": [PAYLOAD]}}),
]


def event(number, kind, attributes):
    """An event, as JSON has it."""
    member = "".join(word.capitalize() for word in kind.split("_")) + "EventAttributes"
    time = f"2024-05-01T10:00:{number:02}.123456Z"
    return {"eventId": number, "eventTime": time, "eventType": "EVENT_TYPE_" + kind, member[0].lower() + member[1:]: attributes}


def task(events):
    """The response of a poll with so many events."""
    started = {"workflowType": {"name": "Order"}, "taskQueue": {"name": "orders"}, "input": {"payloads": [PAYLOAD]}}
    kinds = [("WORKFLOW_EXECUTION_STARTED", started), *islice(cycle(FOLLOWING), events - 1)]
    response = {
        "taskToken": "dG9rZW4gMQ==",
        "workflowExecution": {"workflowId": "order-1", "runId": "5e6f7a8b-0000-4000-8000-0123456789ab"},
        "workflowType": {"name": "Order"},
        "startedEventId": events,
        "attempt": 1,
        "history": {"events": [event(number, *one) for number, one in enumerate(kinds, 1)]},
    }
    return json_format.ParseDict(response, CLASSES["PollWorkflowTaskQueueResponse"]()).SerializeToString()


class Server(grpc.GenericRpcHandler):
    """A server that gives the same task at each poll."""

    def __init__(self, events):
        self.task = task(events)

    def service(self, details):
        response = self.task if details.method == SERVICE + "PollWorkflowTaskQueue" else b""
        return grpc.unary_unary_rpc_method_handler(lambda sent, context: response)


def serve(events):
    """Serves until its standard input ends."""
    server = grpc.server(ThreadPoolExecutor(64))
    server.add_generic_rpc_handlers([Server(events)])
    print(server.add_insecure_port("127.0.0.1:0"), flush=True)
    server.start()
    sys.stdin.read()
    os._exit(0)


def measure(bridge, port, threads, seconds):
    """The tasks a second of a bridge."""
    command = [sys.executable, str(bridge), "--address", f"127.0.0.1:{port}", "--"]
    command += [sys.executable, "-c", WORKER, str(threads), str(seconds)]
    # Nothing in the environment asks the bridge for anything.
    kept = {name: value for name, value in os.environ.items() if not name.startswith("TEMPORAL_")}
    path = {**kept, "PYTHONPATH": str(TOP / "standin/trimmed")}
    ran = subprocess.run(command, capture_output=True, text=True, timeout=60 + 10 * seconds, env=path)
    found = re.search(r"tasks a second ([\d.]+)", ran.stderr)
    if found is None:
        sys.exit(f"{bridge}: status {ran.returncode}, {ran.stderr[-500:]}")
    return float(found[1])


def row(asked, events, threads):
    """Measures all bridges with tasks of so many events, and answers the medians."""
    command, pipe = [sys.executable, __file__, SERVE, str(events)], subprocess.PIPE
    with subprocess.Popen(command, stdin=pipe, stdout=pipe, text=True) as server:
        port = int(server.stdout.readline())
        rounds = [[measure(one, port, threads, asked.seconds) for one in asked.bridge] for _ in range(asked.rounds)]
        server.stdin.close()
    return [statistics.median(figures) for figures in zip(*rounds)]


def main():
    if sys.argv[1:2] == [SERVE]:
        serve(int(sys.argv[2]))
    parser = argparse.ArgumentParser(description=__doc__, formatter_class=argparse.RawDescriptionHelpFormatter)
    parser.add_argument("--bridge", nargs="+", type=Path, default=[TOP / "bridge/temporal_bridge.py"], metavar="FILE")
    parser.add_argument("--rounds", type=int, default=5)
    parser.add_argument("--seconds", type=float, default=3)
    asked = parser.parse_args()
    print("events  threads  " + "  ".join(f"{one.stem:>16}" for one in asked.bridge) + "  last by first")
    for events, threads in ROWS:
        figures = row(asked, events, threads)
        shown = "  ".join(f"{figure:>16.0f}" for figure in figures)
        print(f"{events:>6}  {threads:>7}  {shown}  {figures[-1] / figures[0]:>13.2f}", flush=True)


if __name__ == "__main__":
    main()
