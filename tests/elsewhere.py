#!/usr/bin/env python3
"""Activities on other Task Queues: the stand-in for a server, one `wfhost work` behind the bridge with policies that name a
Task Queue for each type of activity, and two workers in Python (tests/python_worker.py) that take them there. Runs bring the
table examples/tables/trip.json; one of them books all, the other one has to undo what it booked.

    tests/elsewhere.py [NAME..] [--program PATH]

Each step of each run is compared: which activity, on which queue, how it ended, and how the run closed. The last line is
`N tried, M wrong`, and the status is 1 where one is wrong. Where grpcio or protobuf is missing it is `skipped: WHY`."""

import base64
import subprocess
import sys
import tempfile
import time
from functools import partial
from pathlib import Path

from rows import PROGRAM, TOP, WAITING, difference, need, pick, try_rows, words_of
from support import Client, environment_of, payloads, take_packages, use_trimmed

SECONDS = 60
TABLE = TOP / "examples/tables/trip.json"
POLICIES = """
[activities]
task_queue = "bookings"
start_to_close = 30
retry = { maximum_attempts = 1 }

[activity.BookCar]
task_queue = "%s"
"""
BOOKED = ["BookFlight bookings Completed", "BookHotel bookings Completed"]
# Of each trial, the Task Queue of cars, what happens in the run, how it closes, and with what.
TRIALS = {
    "all is booked": ("cars", [*BOOKED, "BookCar cars Completed"], "Completed", '"BookCar is done"'),
    "no car": ("no-cars", [*BOOKED, "BookCar no-cars Failed", "CancelHotel bookings Completed", "CancelFlight bookings Completed"],
               "Failed", "the trip was called off"),
}


def attributes_of(event):
    return next((value for name, value in event.items() if name.endswith("Attributes")), {})


def told(events):
    """What has happened in a history: its activities, how it closed, and with what."""
    scheduled, steps, end, what = {}, [], None, None
    for event in events:
        kind, held = event["eventType"].removeprefix("EVENT_TYPE_"), attributes_of(event)
        if kind == "ACTIVITY_TASK_SCHEDULED":
            scheduled[event["eventId"]] = f"{held['activityType']['name']} {held['taskQueue']['name']}"
        elif kind in ("ACTIVITY_TASK_COMPLETED", "ACTIVITY_TASK_FAILED", "ACTIVITY_TASK_TIMED_OUT"):
            steps.append(f"{scheduled[held['scheduledEventId']]} {kind.rpartition('_')[2].capitalize()}")
        elif kind in ("WORKFLOW_EXECUTION_COMPLETED", "WORKFLOW_EXECUTION_FAILED"):
            end = kind.rpartition("_")[2].capitalize()
            results = held.get("result", {}).get("payloads", [])
            what = held["failure"]["message"] if end == "Failed" else " ".join(base64.b64decode(one["data"]).decode() for one in results)
    return steps, end, what


class Room:
    """The stand-in, a bridge with a worker, and two workers in Python."""

    def __init__(self, program, folder, cars):
        self.folder, self.started = folder, []
        self.said = open(Path(folder, "said.txt"), "w+b")
        queues = "trips,bookings,cars,no-cars"
        self.server = self.run("standin/serve.py", "--task-queues", queues, "--policies", stdout=subprocess.PIPE)
        self.address = f"localhost:{self.server.stdout.readline().decode().strip()}"
        policies = Path(folder, "policies.toml")
        policies.write_text(POLICIES % cars)
        self.run("bridge/temporal_bridge.py", "--address", self.address, "--", program, "work", "--task-queue", "trips", "--identity",
                 "{identity}", "--policies", str(policies))
        for queue, fails in (("bookings", "none"), ("cars", "none"), ("no-cars", "BookCar")):
            self.run("tests/python_worker.py", "--address", self.address, "--task-queue", queue, "--fails", fails)

    def run(self, script, *words, stdout=None):
        command = [sys.executable, str(TOP / script), *words]
        child = subprocess.Popen(command, stdin=subprocess.PIPE, stdout=stdout or self.said, stderr=self.said, env=environment_of())
        self.started.append(child)
        return child

    def end(self):
        """Ends all, the server last, and gives what was wrong by it."""
        for child in self.started[:0:-1]:
            child.stdin.close()
            child.terminate()
            child.wait()
        self.server.terminate()
        status = self.server.wait()
        self.said.seek(0)
        return [] if status == 0 else [self.said.read().decode(errors="replace")[-2000:]]


def faults_of(program, trial):
    """What is wrong with a trial."""
    cars, steps, end, what = trial
    with tempfile.TemporaryDirectory() as folder:
        room = Room(program, folder, cars)
        try:
            client, until, events = Client(room.address), time.monotonic() + SECONDS, []
            execution = client.start("Table:trip", "trip-1", "trips", payloads(TABLE.read_bytes(), {"to": "Oslo"}))
            while time.monotonic() < until and told(events)[1] is None:
                time.sleep(0.1)
                events = client.history(execution)
        finally:
            faults = room.end()
    return [*faults, *filter(None, [difference(told(events), (steps, end, what))])]


def main():
    parser = words_of(__doc__)
    parser.add_argument("names", nargs="*", metavar="NAME", help=f"of {', '.join(TRIALS)}, all where there is none")
    parser.add_argument("--program", default=str(PROGRAM))
    asked = parser.parse_args()
    take_packages("workers in Python need")
    use_trimmed()
    need(parser, asked.program)
    rows = {name: partial(faults_of, asked.program, trial) for name, trial in TRIALS.items()}
    return try_rows(pick(parser, rows, asked.names).items(), asked, WAITING)


if __name__ == "__main__":
    sys.exit(main())
