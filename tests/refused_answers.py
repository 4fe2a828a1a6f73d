#!/usr/bin/env python3
"""Refuses each request for memory while a live worker has a task in hand, one in each run, and looks whether the run of that task
was cached although its answer was not acknowledged.

A worker with a cache gets a task of the run nap-1, whose answer is acknowledged, and then one of nap-2, in which a request for
memory is refused. Then a later task of nap-2 comes from the sticky queue: it is answered at once only if the run is cached, and
else its history is asked for. A run that is cached without an acknowledged answer is wrong.

It is no part of the gate, and ends with status 1 where a run is wrong."""

import json
import os
import select
import subprocess
import sys
import tempfile
import time

from refusals import PROGRAM, Refusals

WORDS = (
    "work --task-queue q --namespace default --identity me --activity-timeout 60 --activity-attempts 1 --sticky-timeout 10 "
    "--workers 2 --cache 10"
).split()
LIMIT_SECONDS = 20
MARGIN = 10


def event(number, kind, **attributes):
    """An event of a history, with its attributes under the name that its type gives them."""
    name = kind.title().replace("_", "")
    name = name[0].lower() + name[1:] + "EventAttributes"
    moment = f"2024-05-01T10:00:{number:02}Z"
    return {"eventId": str(number), "eventTime": moment, "eventType": f"EVENT_TYPE_{kind}", name: attributes}


BEGUN = [
    event(1, "WORKFLOW_EXECUTION_STARTED", workflowType={"name": "Nap"}),
    event(2, "WORKFLOW_TASK_SCHEDULED"),
    event(3, "WORKFLOW_TASK_STARTED"),
]
FIRED = [
    event(4, "WORKFLOW_TASK_COMPLETED"),
    event(5, "TIMER_STARTED", timerId="nap", startToFireTimeout="60s"),
    event(6, "TIMER_FIRED", timerId="nap", startedEventId="5"),
    event(7, "WORKFLOW_TASK_SCHEDULED"),
    event(8, "WORKFLOW_TASK_STARTED"),
]


class Ended(Exception):
    """The worker has ended."""


class Worker:
    """The program under refusals, by its pipes."""

    def __init__(self, refusals, number):
        refused = {"LD_PRELOAD": str(refusals.library), "REFUSE_COUNT": str(refusals.count)}
        refused |= {"REFUSE_FROM": str(number), "REFUSE_TO": str(number)}
        pipe = subprocess.PIPE
        self.child = subprocess.Popen(
            [PROGRAM, *WORDS], stdin=pipe, stdout=pipe, stderr=subprocess.DEVNULL, env=os.environ | refused
        )
        self.count, self.held = refusals.count, b""
        self.until = time.monotonic() + LIMIT_SECONDS

    def asked(self):
        """How many requests for memory there were."""
        return int.from_bytes(self.count.read_bytes()[:8], sys.byteorder)

    def request(self):
        """Its next request."""
        while b"\n" not in self.held:
            ready, _, _ = select.select([self.child.stdout], [], [], max(0, self.until - time.monotonic()))
            some = os.read(self.child.stdout.fileno(), 65536) if ready else b""
            if not some:
                raise Ended
            self.held += some
        line, _, self.held = self.held.partition(b"\n")
        return json.loads(line)

    def give(self, request, result):
        """Gives a result to a request."""
        line = json.dumps({"jsonrpc": "2.0", "id": request["id"], "result": result}) + "\n"
        try:
            self.child.stdin.write(line.encode())
            self.child.stdin.flush()
        except BrokenPipeError:
            raise Ended from None

    def end(self):
        self.child.kill()
        self.child.communicate()


def task(token, run, events):
    """A workflow task of a run."""
    return {"taskToken": token, "workflowExecution": {"workflowId": run, "runId": "first"}, "history": {"events": events}}


def is_sticky(poll):
    return poll["params"]["taskQueue"]["kind"] == "TASK_QUEUE_KIND_STICKY"


def serve(worker, poll, token, run):
    """Gives a task to a poll and acknowledges what answers it, until the next poll: that poll, and whether there was an answer."""
    worker.give(poll, task(token, run, BEGUN))
    answered = False
    while True:
        request = worker.request()
        if request["method"].startswith("Poll"):
            return request, answered
        answered |= request["method"] == "RespondWorkflowTaskCompleted"
        worker.give(request, {})


def is_cached(worker, poll, run):
    """Whether a later task of a run that is given to a poll is answered without its history."""
    worker.give(poll, task("bGF0ZXI=", run, FIRED))
    return worker.request()["method"].startswith("Respond")


def try_one(refusals, number):
    """The numbers of the first and the last request for memory in the second task, whether its answer was acknowledged, and whether
    its run was cached, where the request of a number is refused."""
    worker = Worker(refusals, number)
    try:
        polls = [worker.request(), worker.request()]
        normal, sticky = sorted(polls, key=is_sticky)
        normal, _ = serve(worker, normal, "Zmlyc3Q=", "nap-1")
        first = worker.asked()
        _, answered = serve(worker, normal, "c2Vjb25k", "nap-2")
        last = worker.asked()
        return first, last, answered, is_cached(worker, sticky, "nap-2")
    finally:
        worker.end()


def main():
    if not PROGRAM.exists():
        sys.exit("the program is not built: run `./wfhost --build`")
    with tempfile.TemporaryDirectory() as room:
        refusals = Refusals(room)
        first, last, answered, cached = try_one(refusals, 0)
        if not (answered and cached):
            sys.exit("with ample memory the run is not cached")
        numbers = range(max(1, first - MARGIN), last + MARGIN)
        unanswered = wrong = 0
        for number in numbers:
            try:
                _, _, answered, cached = try_one(refusals, number)
            except Ended:
                continue
            unanswered += not answered
            if cached and not answered:
                wrong += 1
                print(f"request {number} refused: the run is cached, and its answer was never sent", flush=True)
    print(f"{len(numbers)} requests refused, {unanswered} without an answer, {wrong} wrong")
    return 1 if wrong or not unanswered else 0


if __name__ == "__main__":
    sys.exit(main())
