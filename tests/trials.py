#!/usr/bin/env python3
"""Tries the built program behind the bridge, before the stand-in's server of gRPC that makes one trouble at a time: polls and
answers that are refused, hang, are late or lost, a server that goes away, ends connections or forgets, histories in pages, events
of unknown types, messages that are too large, queries, and signals to the bridge. Each try is a function of the table at the end,
with a server and workers of its own. Beside what each says, the stand-in may find nothing wrong, and each history has to replay.
What is wrong is printed; the last line is `N tried, M wrong`, or `skipped: WHY` where Python's grpcio or protobuf is not there.
Words after its name are names of tries, all where there is none; `--long` tries those too that take more than some seconds."""

import json
import os
import re
import subprocess
import sys
import tempfile
import threading
import time
from concurrent.futures import ThreadPoolExecutor
from itertools import cycle
from pathlib import Path

import support
from rows import ORDERS, PROGRAM, Tries, Wrong, has, same, soon
from support import ACTIVITY, ANSWER, PAGE, RESULT, TASK, Client, ended

os.environ.setdefault("GRPC_VERBOSITY", "NONE")
support.take_packages("the bridge needs")
support.use_trimmed()

from forwarder import Forwarder  # noqa: E402
from grpc_front import Calls  # noqa: E402
from peers import CANCELLED, DEADLINE, EXHAUSTED, INVALID, NOT_FOUND, UNAVAILABLE, Settings  # noqa: E402
from plans import by_key, changed, empty, hangs, in_turn, late, lost, refused, slow  # noqa: E402
from processes import children_of, is_there  # noqa: E402
from server import Server  # noqa: E402
from troubles import Troubles  # noqa: E402
from workflows import Orders, Samples, payloads  # noqa: E402
from world import World  # noqa: E402

UNKNOWN, ABORTED, DENIED, UNIMPLEMENTED, INTERNAL, UNAUTHENTICATED = 2, 10, 7, 12, 13, 16
TIMES = ["--activity-timeout", "60", "--activity-attempts", "1", "--sticky-timeout", "10"]
FAREWELL = "ShutdownWorker"
REPORT = r"taken (\d+), completed (\d+), failed (\d+), in hand 0\n.*answers not found (\d+), answers refused (\d+)"


class Quick(Samples):
    """The samples, whose timers fire soon: after so many milliseconds of the server's clock."""

    milliseconds = 300

    def timer(self, name, delay):
        return self.milliseconds


class Calm(World):
    """What is around: activities end well, after so many milliseconds of the server's clock."""

    milliseconds = 100

    def activity(self, activity):
        return 0, self.milliseconds, "Completed"

    def activity_end(self, activity, end):
        return "ActivityTaskCompleted", {"result": activity.input} if activity.input else {}


class Worker:
    """A bridge with the program behind it."""

    def __init__(self, room, *options, queue="q", bridge=()):
        words = [str(room.program), "work", "--task-queue", queue, "--namespace", "default", "--identity", "{identity}", *TIMES]
        words += ["--cache", str(room.cache), *options]
        script = [sys.executable, str(support.BRIDGE), "--address", f"127.0.0.1:{room.way.port}", *bridge, "--"]
        self.said = tempfile.TemporaryFile()
        self.child = subprocess.Popen([*script, *words], stdin=subprocess.DEVNULL, stderr=self.said, env=support.environment_of())
        room.workers.append(self)

    def stop(self, status=0, within=10.0):
        """Tells it to end: what it has said."""
        self.child.terminate()
        return self.end(status, within)

    def end(self, status=0, within=10.0):
        """Waits for its end: what it has said."""
        return ended(self.child, self.said, status, within)

    def stop_after_losses(self, within=20.0):
        """Tells it to end: the lines of the answers and tasks that it has lost. Its status is 1 if there are some, and else 0, and it
        counts as many answers as refused as it tells to be lost."""
        self.child.terminate()
        self.child.wait(within)
        status = self.child.returncode
        said = self.end(status)
        lost = [line for line in lines_of(said) if re.search("; (the answer is lost|its task is given up), ", line)]
        same(f"status after {lost}", status, int(lost != []))
        same(f"answers that are lost, by {said!r}", counts_in(said)["refused"], sum("; the answer is lost, " in line for line in lost))
        return lost


class Room:
    """A server, the way to it, and the workers that serve it."""

    def __init__(self, workflows=Quick, cache=10, speed=1, queues=("q",), options=(), program=PROGRAM, serves=False):
        """`speed` is how much faster the server's clock is, `options` are the server's own in gRPC, and `serves` says whether
        workers serve activities."""
        self.cache, self.program, self.workers, self.faults, self.unreplayed = cache, program, [], [], set()
        troubles = Troubles(1, ())
        self.workflows = workflows(troubles.dice)
        self.world = Calm(troubles, self.workflows, 0, 0, serves)
        self.server = Server(Settings(queues=queues, is_sticky=cache > 0), troubles, self.world)
        self.server.queries.is_judged = True
        self.calls = Calls(self.server, is_open=True)
        del self.calls.clients.calls[PAGE]  # No client asks for one here.
        self.calls.listen(options=options)
        self.plan, self.way, self.is_over = self.calls.plan, Forwarder(self.calls.port), threading.Event()
        threading.Thread(target=self.tick, args=(speed,), daemon=True).start()

    def tick(self, speed):
        """Lets the server's clock go."""
        begun = time.monotonic()
        while not self.is_over.wait(0.002):
            try:
                with self.calls.lock:
                    self.server.clock.run_to(round((time.monotonic() - begun) * 1000 * speed))
            except Exception as why:
                self.faults.append(f"the clock: {type(why).__name__}: {why}")
                return

    def __enter__(self):
        return self

    def __exit__(self, kind, *_):
        for worker in self.workers:
            worker.child.kill()
            worker.child.wait()
        self.is_over.set()
        self.calls.listener.stop(0)
        if kind is None:
            same("faults", self.faults + self.server.findings.wrong + self.world.failures, [])
            self.replay()

    # Runs.

    def start(self, kind, *values, queue=None):
        """Starts a run, whose id has its number among all runs."""
        with self.calls.lock:
            number = len(self.server.runs.all) + 1
            return self.server.runs.start(kind, f"{kind.lower()}-{number}", payloads(*values) if values else None, queue=queue)

    def signal(self, run, name="noise", *values):
        with self.calls.lock:
            self.server.runs.signal(run, name, payloads(*values) if values else None)

    def wait(self, *runs, within=15.0):
        """Waits until runs are closed, as they have to be: completed. Or until all are."""
        runs = runs or self.server.runs.all
        soon(f"closed are {len(runs)} runs", lambda: all(run.closed for run in runs), within)
        same("ends", {run.closed for run in runs} - {"WorkflowExecutionCompleted", "WorkflowExecutionContinuedAsNew"}, set())

    def serve(self, *runs, within=15.0):
        """Has one worker serve the runs until they are closed: what it has said."""
        worker = Worker(self, "--workers", "4")
        self.wait(*runs, within=within)
        return worker.stop()

    def end(self, run):
        """Terminates a run that can't close."""
        with self.calls.lock:
            self.server.runs.terminate(run)

    def count(self, method):
        return self.plan.calls[method]

    def run_of(self, call):
        """The run of an answer to a task."""
        with self.calls.lock:
            return next((one.run for (token, _), one in self.server.tasks.given.items() if token == by_token(call)), None)

    def replay(self):
        """Replays all histories."""
        with tempfile.TemporaryDirectory() as folder:
            runs = [run for run in self.server.runs.all if run not in self.unreplayed and not self.workflows.is_outside(run.kind)]
            for run in runs:
                Path(folder, f"{run.workflow_id}-{run.run_id}.json").write_text(json.dumps({"events": run.events}))
            ran = subprocess.run([self.program, "replay", folder], capture_output=True, text=True) if runs else None
        if ran:
            same("replay", ran.stdout.splitlines()[-1:], [f"{len(runs)} files, {len(runs)} ok"])


def counts_in(said):
    """What a worker reports at its end, by names."""
    found = re.search(REPORT, said)
    if not found:
        raise Wrong(f"no report: {said!r}")
    return dict(zip(("taken", "completed", "failed", "not found", "refused"), map(int, found.groups())))


def lines_of(said):
    """What was said, without the report and what says how often the same was said."""
    lines = [line.partition(": ")[2] if line.startswith(("wfhost: ", "order_worker: ")) else line for line in said.splitlines()]
    return [line for line in lines if not re.fullmatch(r"taken \d.*|polls \d.*|the same \d+ times more", line)]


def by_token(call):
    return call.request["taskToken"]


def told_of(run, text):
    return f"{run.workflow_id} {run.run_id}: {text}"


def is_normal(call):
    return call.request["taskQueue"].get("kind") == "TASK_QUEUE_KIND_NORMAL"


# Polls.


def polls_refused_once():
    """A poll that gets 5, 7, 16 or 3 once, as a proxy gives them in passing: the runs that begin later are served."""
    with Room() as room:
        room.plan.add(TASK, in_turn(*map(refused, (NOT_FOUND, DENIED, UNAUTHENTICATED, INVALID))), times=4, picks=is_normal)
        worker = Worker(room, "--workers", "2")
        soon("four polls are refused, and a fifth is open", lambda: room.count(TASK) == 6)
        for _ in range(3):
            room.start("Nap")
        room.wait()
        lines = lines_of(worker.stop())
        same("lines", lines, [f"temporal_bridge: {TASK} of q is refused: not now (code 5); made again for 60 s"])


def polls_refused_for_good():
    """Polls that get 3, 5, 7 or 16 for good end the whole process after --poll-grace, with status 1 and a line that says so."""
    codes = (INVALID, NOT_FOUND, DENIED, UNAUTHENTICATED)
    with Room(queues=("q", *(f"q{code}" for code in codes))) as room:

        def fault(call):
            queue = call.request["taskQueue"]
            return refused(int(queue.get("normalName", queue["name"])[1:]))(call)

        room.plan.add(TASK, fault)
        workers = [(code, Worker(room, "--workers", "4", queue=f"q{code}", bridge=["--poll-grace", "1"])) for code in codes]
        for code, worker in workers:
            said = worker.end(1, 20)
            what = rf"{TASK} of \S*q{code}: not now; not made again \(code {code}\): no more tasks are polled for; the program ends, .*"
            same(f"a line of {code} in {said}", any(re.fullmatch(what, line) for line in lines_of(said)), True)
            same("a report", counts_in(said)["taken"], 0)


def polls_refused_for_seconds(seconds=1.0):
    """Polls that get 14, 1, 8, 13, 2 and 10 are made again after waits that double, and all is served once they are taken."""
    with Room() as room:
        codes = (UNAVAILABLE, CANCELLED, EXHAUSTED, INTERNAL, UNKNOWN, ABORTED)
        room.plan.add(TASK, in_turn(*map(refused, codes)))
        worker = Worker(room, "--workers", "6")
        soon("polls", lambda: room.count(TASK) >= 6)
        runs = [room.start("Nap") for _ in range(3)]
        time.sleep(seconds)
        # Waits of 0.1, 0.2, 0.4 seconds and so on.
        most = 6 * (2 + sum(1 for at in range(10) if 0.1 * 2**at <= seconds + 1))
        same("few polls", room.count(TASK) <= most, True)
        room.plan.clear()
        room.wait(*runs, within=3 * seconds + 10)
        told = rf"{TASK} of \S+: not now; made again \(code ({'|'.join(map(str, codes))})\)"
        same("other lines", [line for line in lines_of(worker.stop()) if not re.fullmatch(told, line)], [])


def polls_refused_for_six_seconds():
    polls_refused_for_seconds(6.0)


def polls_late_at_once(fault=refused(DEADLINE)):
    """Polls that get code 4 at once, or nothing at once, are no busy loop, and are not told of."""
    with Room() as room:
        room.plan.add(TASK, fault)
        worker = Worker(room, "--workers", "6")
        soon("polls", lambda: room.count(TASK) >= 6)
        time.sleep(1.5)
        same("few polls", room.count(TASK) <= 60, True)
        room.plan.clear()
        runs = [room.start("Nap") for _ in range(3)]
        room.wait(*runs)
        same("lines", lines_of(worker.stop()), [])


def polls_empty_at_once():
    polls_late_at_once(empty)


def idle():
    """A worker without tasks makes no calls but its polls."""
    with Room() as room:
        worker = Worker(room, "--workers", "5", "--activity-workers", "2")
        soon("polls", lambda: room.count(TASK) + room.count(ACTIVITY) == 7)
        time.sleep(1)
        same("calls", dict(room.plan.calls), {"GetSystemInfo": 1, TASK: 5, ACTIVITY: 2})
        same("lines", lines_of(worker.stop()), [])


# Answers.


def answers_refused_twice():
    """Answers that get 8, 14, 1, 13 or 2 twice are sent a third time, and nothing is told."""
    with Room() as room:
        codes = (EXHAUSTED, UNAVAILABLE, CANCELLED, INTERNAL, UNKNOWN)
        room.plan.add(ANSWER, by_key(by_token, *map(refused, codes)), times=2, key=by_token)
        runs = [room.start("Nap") for _ in codes]
        said = room.serve(*runs)
        same("tasks", room.server.findings.counts["given"], 2 * len(codes))
        same("answers", room.count(ANSWER), 3 * 2 * len(codes))
        same("lines", lines_of(said), [])
        same("report", counts_in(said), {"taken": 10, "completed": 10, "failed": 0, "not found": 0, "refused": 0})


def answers_refused():
    """An answer that gets 4, 5 or 3 is not sent again. 4 is told with its run, counts as refused, and the status is 1; 5 counts
    as not found; 3 is told with its run and text, and counts as refused. Each task comes again, and the runs go on."""
    with Room(speed=10) as room:
        room.workflows.milliseconds = 3_000
        runs = [room.start("Nap") for _ in range(3)]
        codes = dict(zip(runs, (DEADLINE, NOT_FOUND, INVALID)))
        room.plan.add(ANSWER, lambda call: refused(codes[room.run_of(call)], "no such thing")(call), times=1, key=room.run_of)
        worker = Worker(room, "--workers", "4")
        room.wait(*runs)
        said = worker.stop(1)
        late = f"{ANSWER}: no such thing; the answer is lost, and its task comes again (code {DEADLINE})"
        wanted = [told_of(runs[0], late), told_of(runs[2], f"no such thing (code {INVALID})")]
        same("lines", sorted(lines_of(said)), wanted)
        same("answers", room.count(ANSWER), 3 * 3)
        found = counts_in(said)
        same("counts", [found["not found"], found["refused"]], [1, 2])


def answers_taken_and_lost():
    """An answer is taken, and its response lost: the second one is not found, no run is cached after it, and all runs end."""
    with Room() as room:
        room.plan.add(ANSWER, lost, times=1, key=by_token)
        runs = [room.start("Nap") for _ in range(3)] + [room.start("Greet", "Ada")]
        said = room.serve(*runs)
        tasks = room.server.findings.counts["given"]
        same("lines", lines_of(said), [])
        same("not found", counts_in(said)["not found"], tasks)
        same("histories, but for first tasks", room.count(PAGE), tasks - len(runs))
        opened = [event for event in runs[-1].events if event["eventType"] == "EVENT_TYPE_ACTIVITY_TASK_SCHEDULED"]
        same("activities", len(opened), 1)


def result_taken_and_lost():
    """The result of an activity is taken, and its response lost: the activity has one result, and the run goes on."""
    with Room(Orders, program=ORDERS, serves=True) as room:
        room.plan.add(RESULT, lost, times=1)
        worker, run = Worker(room, "--activity-workers", "1"), room.start("Order", {"cents": 5}, "order-1")
        soon("the order is held", lambda: run.timers)
        room.signal(run, "cancel")
        room.wait(run)
        said = worker.stop()
        same("calls", room.count(RESULT), 2)
        same("lines", lines_of(said), [])
        same("not found", counts_in(said)["not found"], 1)


def answers_that_take_long():
    """Answers that take two seconds hold up nothing but themselves."""
    with Room() as room:
        room.plan.add(ANSWER, slow(2.0))
        runs = [room.start("Nap") for _ in range(4)]
        same("lines", lines_of(room.serve(*runs)), [])
        same("tasks", room.server.findings.counts["given"], 8)


def answers_that_hang():
    """Answers that get no response are given up after ten seconds, and told with their runs; the tasks come again."""
    with Room() as room:
        room.plan.add(ANSWER, hangs, times=1, key=room.run_of)
        runs = [room.start("Nap") for _ in range(2)]
        worker = Worker(room, "--workers", "4")
        room.wait(*runs, within=40)
        lines = lines_of(worker.stop(1))
        told = [told_of(run, f"{ANSWER}: ") for run in runs]
        same("runs", [any(line.startswith(one) for line in lines) for one in told], [True] * 2)
        same("other lines", len(lines), 2)


def answer_too_large():
    """An answer that is too large for the server fails its task once, and is told with its run and the sizes; it is no loop."""
    with Room(speed=10, options=[("grpc.max_receive_message_length", 64 << 10)]) as room:
        worker, run = Worker(room, "--workers", "4"), room.start("Greet", "x" * 100_000)
        soon("the task is failed", lambda: room.server.findings.counts["failed tasks"])
        time.sleep(3)
        room.end(run)
        same("failed once", room.server.findings.counts["failed tasks"], 1)
        same("later attempts", 1 <= room.server.findings.counts["timed out"] <= 5, True)
        failed = [event for event in run.events if event["eventType"] == "EVENT_TYPE_WORKFLOW_TASK_FAILED"]
        causes = [one["workflowTaskFailedEventAttributes"]["cause"] for one in failed]
        same("causes", causes, ["WORKFLOW_TASK_FAILED_CAUSE_GRPC_MESSAGE_TOO_LARGE"])
        (failure,) = room.world.failures
        has("failure", failure, "larger than max")
        room.world.failures.clear()
        lines = lines_of(worker.stop())
        same("each line", {bool(re.search(rf"^{run.workflow_id} {run.run_id}: .*larger than max .*65536", line)) for line in lines}, {True})


def five_megabytes():
    """A page of five megabytes is taken, and so is an answer of as many."""
    with Room(options=[("grpc.max_receive_message_length", 32 << 20)]) as room:
        run = room.start("Greet", "x" * (5 << 20))
        same("lines", lines_of(room.serve(run, within=30)), [])


# The way to the server.


def server_away(times=1, seconds=1.5, within=7.0):
    """The server goes away and comes back: all runs end, whatever went down with a connection. Returns what is said to be lost."""
    with Room(speed=5) as room:
        room.workflows.milliseconds = 1_500
        worker = Worker(room, "--workers", "4")
        for _ in range(times):
            soon("polls", lambda: any(peer.polls for peer in room.server.peers), 20)
            for _ in range(4):
                room.start("Nap")
            time.sleep(0.2)
            room.way.leave(seconds)
            with room.calls.lock:
                for peer in room.server.peers:
                    peer.lose_connection()
            time.sleep(seconds)
        # The bridge connects again some seconds after the server is back, and the host polls after that.
        room.wait(within=within)
        lost = worker.stop_after_losses()
        runs = tuple(told_of(run, "") for run in room.server.runs.all)
        same("losses without a run", [line for line in lost if not line.startswith(runs)], [])
        return lost


def server_away_once():
    """The server goes away and comes back: nothing is lost."""
    same("lost", server_away(), [])


def server_away_again_and_again():
    """The server goes away for five times: an answer may find it away for ten seconds, and is lost then."""
    server_away(5, within=20.0)


def server_away_for_long(seconds=12):
    """The server is away for longer than other calls are tried as the result of an activity is sent: it is sent until it is taken,
    and no activity times out."""
    with Room(Orders, program=ORDERS, serves=True) as room:

        def leave(call):
            room.way.leave(seconds)
            return None, (UNAVAILABLE, "away")

        room.plan.add(RESULT, leave, times=1)
        worker, run = Worker(room, "--activity-workers", "1"), room.start("Order", {"cents": 5}, "order-1")
        soon("the order is held", lambda: run.timers, 40)
        same("activities that timed out", room.server.findings.counts["activities timed out"], 0)
        room.signal(run, "cancel")
        room.wait(run)
        for line in lines_of(worker.stop()):
            has("line", line, "; made again (code 14)")


def answer_lost_while_away(seconds=12):
    """The server is away for longer than the answer to a workflow task is tried: the answer is told to be lost, with its run, and the
    task comes again."""
    with Room() as room:

        def leave(call):
            room.way.leave(seconds)
            return None, (UNAVAILABLE, "away")

        room.plan.add(ANSWER, leave, times=1)
        worker, run = Worker(room, "--workers", "4"), room.start("Nap")
        room.wait(run, within=60)
        (lost,) = worker.stop_after_losses()
        what = rf"{ANSWER}: .*, tried for \d+ s; the answer is lost, and its task comes again \(code {UNAVAILABLE}\)"
        same(f"the line {lost!r}", bool(re.fullmatch(re.escape(told_of(run, "")) + what, lost)), True)


def connections_that_end(age=0.5, grace=0.3, seconds=2.0):
    """A server that ends each connection after a while (GOAWAY) holds up nothing for long."""
    options = [("grpc.max_connection_age_ms", round(age * 1000)), ("grpc.max_connection_age_grace_ms", round(grace * 1000))]
    with Room(options=options, speed=5) as room:
        room.workflows.milliseconds = 1_500
        worker = Worker(room, "--workers", "4")
        soon("polls", lambda: room.count(TASK) >= 4)
        until = time.monotonic() + seconds
        while time.monotonic() < until:
            room.start("Nap")
            time.sleep(seconds / 10)
        room.wait(within=20)
        soon("there were more connections", lambda: len(room.calls.by_connection) > 3)
        worker.stop()


def connections_that_end_for_long():
    connections_that_end(2.0, 1.0, 15.0)


def server_that_forgets():
    """The server comes back without its memory: the answers are not found, and new runs are served."""
    with Room() as room, Room() as other:
        other.faults = []

        def move(call):
            room.way.target = ("127.0.0.1", other.calls.port)
            room.way.leave(0.5)
            return None, (UNAVAILABLE, "away")

        room.plan.add(ANSWER, move, times=1)
        worker, run = Worker(room, "--workers", "4"), room.start("Nap")
        soon("the answer comes to the other server", lambda: other.count(ANSWER) == 1, 20)
        new = other.start("Nap")
        other.wait(new, within=20)
        said = worker.stop()
        same("not found", counts_in(said)["not found"], 1)
        blamed = [what.partition(": ")[2] for what in other.server.findings.wrong]
        same("blamed", blamed, ["an answer to b'task 1', which it was not given"])
        other.server.findings.wrong.clear()
        room.end(run)


# Histories.


def numbered(result):
    """A result, with numbers for the types of events that the package of the bridge does not know."""
    for event in result.get("history", {}).get("events", ()):
        found = re.fullmatch(r"EVENT_TYPE_(\d+)", event["eventType"])
        if found:
            event["eventType"] = int(found[1])
    return result


def copied(result):
    return numbered(json.loads(json.dumps(result)))


def events_of_unknown_types():
    """An event of a type that nobody knows is passed over if a worker may ignore it, and else fails the task with the number of
    the type and of the event; the bridge tells what to do."""
    with Room() as room:
        room.plan.add(f"{TASK} {PAGE}", changed(copied))
        good, bad = room.start("Nap"), room.start("Nap")
        with room.calls.lock:
            for run, more in ((good, {"workerMayIgnore": True}), (bad, {})):
                same_time = {"eventTime": run.events[-1]["eventTime"]}
                run.events.append({"eventId": str(run.next_number), "eventType": "EVENT_TYPE_55", **same_time, **more})
        worker = Worker(room, "--workers", "4")
        room.wait(good)
        soon("the other task is failed", lambda: room.server.findings.counts["failed tasks"] == 1)
        text = "event 3 has the unsupported type EVENT_TYPE_55"
        same("failures", room.world.failures, [f"a task of Nap {bad.workflow_id} was failed: {text}"])
        room.world.failures.clear()
        room.end(bad)
        room.unreplayed.add(bad)
        what = f"event 3 of {bad.workflow_id} {bad.run_id} has the type 55, which this package temporalio does not know"
        lines = lines_of(worker.stop())
        has("lines", lines, f"temporal_bridge: {what}: pip install --upgrade temporalio")
        has("lines", lines, told_of(bad, text))


def unknown_event_in_a_sticky_task():
    """So it is in a task that brings new events alone: the number of the event is the one in the history."""
    with Room() as room:
        room.plan.add(f"{TASK} {PAGE}", changed(copied))
        room.workflows.milliseconds = 60_000
        worker, run = Worker(room, "--workers", "4"), room.start("Nap")
        soon("the run is cached", lambda: run.timers and room.server.peers[0].polls == 4)
        with room.calls.lock:
            number, same_time = run.next_number, {"eventTime": run.events[-1]["eventTime"]}
            run.events.append({"eventId": str(number), "eventType": "EVENT_TYPE_55", **same_time})
        room.signal(run)
        soon("the task is failed", lambda: room.server.findings.counts["failed tasks"] == 1)
        same("histories", room.count(PAGE), 0)
        text = f"event {number} has the unsupported type EVENT_TYPE_55"
        same("failures", room.world.failures, [f"a task of Nap {run.workflow_id} was failed: {text}"])
        room.world.failures.clear()
        room.end(run)
        room.unreplayed.add(run)
        lines = lines_of(worker.stop())
        has("lines", lines, told_of(run, text))
        same("a line of the bridge", any(f"event {number} of {told_of(run, '')[:-2]} has the type 55" in line for line in lines), True)


def histories_in_pages():
    """Histories in pages of three events, with an empty page between any two, and no cache."""
    with Room(cache=0) as room:
        room.server.histories.pages.lengths = cycle([3, 0])
        for kind, values in (("Nap", []), ("Greet", ["Ada"]), ("Racer", []), ("Relay", ["one", "two"])):
            room.start(kind, *values)
        same("lines", lines_of(room.serve()), [])
        same("pages", room.count(PAGE) > 10, True)


def pages_refused_for_now():
    """The call for a page gets 14 or 8 three times: it is made again, and nothing is told."""
    with Room(cache=0) as room:
        room.server.histories.pages.lengths = cycle([4])

        def key(call):
            return call.request.get("nextPageToken")

        room.plan.add(PAGE, by_key(key, refused(UNAVAILABLE), refused(EXHAUSTED)), times=3, key=key)
        runs = [room.start("Nap") for _ in range(2)]
        said = room.serve(*runs)
        same("lines", lines_of(said), [])
        same("tasks", room.server.findings.counts["given"], 4)


def pages_refused():
    """The call for a page gets 5 or 3: the task is given up and named, the status is 1, and the task comes again."""
    with Room(cache=0, speed=10) as room:
        room.workflows.milliseconds = 3_000
        room.server.histories.pages.lengths = cycle([2])
        codes = (NOT_FOUND, INVALID)
        runs = [room.start("Nap") for _ in codes]
        ids = [run.workflow_id for run in runs]

        def key(call):
            return call.request["execution"]["workflowId"]

        room.plan.add(PAGE, lambda call: refused(codes[ids.index(key(call))], "bad token")(call), times=1, key=key)
        worker = Worker(room, "--workers", "4")
        room.wait(*runs)
        lines = lines_of(worker.stop(1))
        wanted = [told_of(run, f"{PAGE}: bad token; its task is given up, and comes again (code {code})") for run, code in zip(runs, codes)]
        same("lines", sorted(lines), wanted)


def cache_of_one_run():
    """With a cache of one run, the tasks of runs in turn fetch their histories, and are right."""
    with Room(cache=1) as room:
        runs = [room.start("Nap") for _ in range(6)]
        same("lines", lines_of(room.serve(*runs)), [])
        same("histories", room.count(PAGE) > 0, True)


def run_cached_late():
    """The task of an update is discarded before the response comes to the answer before: the run is cached once that comes, and
    the next task goes on from it."""
    with Room() as room:
        room.workflows.milliseconds = 60_000
        counts, is_read = room.server.findings.counts, threading.Event()
        room.plan.add(ANSWER, late(is_read), times=1)
        worker, run = Worker(room, "--workers", "4"), room.start("Nap")
        soon("the first answer is taken", lambda: run.timers)
        with room.calls.lock:
            run.schedule_task(is_speculative=True)
        soon("the task of the update is discarded", lambda: counts["dropped"] == 1)
        is_read.set()
        soon("the response is read", lambda: room.server.peers[0].polls == 4)
        room.signal(run)
        soon("the next answer is taken", lambda: counts["taken"] == 3)
        same("histories", room.count(PAGE), 1)
        same("lines", lines_of(worker.stop()), [])
        room.end(run)


# Queries.


def queries_of_runs():
    """Queries of an open and of a closed run, by a worker that has the run cached and by one that has not, of a type that is not
    known, and many at once."""
    with Room() as room:
        client = Client(f"127.0.0.1:{room.way.port}")
        first, closed = Worker(room, "--workers", "4"), room.start("Racer")
        room.wait(closed)
        room.workflows.milliseconds = room.world.milliseconds = 60_000
        run = room.start("Racer")
        soon("it races", lambda: run.timers)

        def see(what):
            begun = time.monotonic()
            same(f"open, {what}", client.query({"workflow_id": run.workflow_id}, "phase"), '"racing"')
            same(f"closed, {what}", client.query({"workflow_id": closed.workflow_id}, "phase"), '"done"')
            has(what, client.query({"workflow_id": run.workflow_id}, "weather"), "unknown query type weather; known: phase")
            same("before a sticky queue times out", time.monotonic() - begun < 5, True)

        see("cached")
        with ThreadPoolExecutor(10) as threads:
            same("many", set(threads.map(lambda _: client.query({"workflow_id": run.workflow_id}, "phase"), range(50))), {'"racing"'})
        first.stop()
        second = Worker(room, "--workers", "4")
        see("not cached")
        second.stop()
        room.end(run)


def query_beside_a_task():
    """A query of a run whose task is in hand is answered after the task."""
    with Room() as room:
        client = Client(f"127.0.0.1:{room.way.port}")
        room.server.queries.follow_tasks = True
        room.workflows.milliseconds = room.world.milliseconds = 60_000
        room.plan.add(ANSWER, slow(0.5))
        worker, run = Worker(room, "--workers", "4"), room.start("Racer")
        soon("the task is in hand", lambda: run.is_in_hand)
        same("answer", client.query({"workflow_id": run.workflow_id}, "phase"), '"racing"')
        worker.stop()
        room.end(run)


def query_of_a_busy_run():
    """A query of a run that always has a task is answered with one of them, long before its client gives up."""
    with Room() as room:
        client, is_over = Client(f"127.0.0.1:{room.way.port}"), threading.Event()
        room.server.queries.follow_tasks = True
        room.workflows.milliseconds = room.world.milliseconds = 60_000
        room.plan.add(ANSWER, slow(0.3))
        worker, run = Worker(room, "--workers", "4"), room.start("Racer")
        soon("it races", lambda: run.timers)

        def signal():
            while not is_over.wait(0.05):
                room.signal(run)

        signals = threading.Thread(target=signal)
        signals.start()
        try:
            time.sleep(0.5)
            begun = time.monotonic()
            found = client.query({"workflow_id": run.workflow_id}, "phase", 5)
            took = time.monotonic() - begun
        finally:
            is_over.set()
            signals.join()
        same("answer", found, '"racing"')
        same("within some tasks", took < 3, True)
        same("with a task", room.server.findings.counts["answered beside"], 1)
        worker.stop()
        room.end(run)


# Ends.


def shutdowns_with_polls():
    """SIGTERM while polls hang, and while they are refused: it ends at once, with status 0."""
    with Room() as room:
        for fault in (None, refused(UNAVAILABLE), refused(DENIED)):
            room.plan.clear()
            before = room.count(TASK)
            if fault:
                room.plan.add(TASK, fault)
            worker = Worker(room, "--workers", "4")
            soon("polls", lambda: room.count(TASK) >= before + 4)
            worker.stop(within=3)


def shutdown_with_answers():
    """SIGTERM while answers take a while: they are taken, the sticky queue is given up, though the server does not know that
    call, and it ends with status 0."""
    with Room() as room:
        room.workflows.milliseconds = 60_000
        room.plan.add(ANSWER, slow(0.6))
        room.plan.add(FAREWELL, refused(UNIMPLEMENTED, "no such call"))
        worker, runs = Worker(room, "--workers", "4"), [room.start("Nap") for _ in range(2)]
        soon("the answers are on their way", lambda: room.count(ANSWER) == 2)
        said = worker.stop(within=5)
        same("timers", [list(run.timers) for run in runs], [["nap"]] * 2)
        same("report", counts_in(said)["completed"], 2)
        for run in runs:
            room.end(run)


def shutdowns_with_answers_that_fail():
    """SIGTERM while answers hang, or get 14 or 8: it ends within some ten seconds, with status 1, and names the runs."""
    faults, on_their_way = {"hang": hangs, "away": refused(UNAVAILABLE), "busy": refused(EXHAUSTED)}, set()
    with Room(queues=tuple(faults)) as room:

        def fault(call):
            queue = room.run_of(call).queue
            on_their_way.add(queue)
            return faults[queue](call)

        room.plan.add(ANSWER, fault)
        pairs = [(Worker(room, "--workers", "4", queue=queue), room.start("Nap", queue=queue)) for queue in faults]
        soon("the answers are on their way", lambda: len(on_their_way) == 3)
        for worker, _ in pairs:
            worker.child.terminate()
        for worker, run in pairs:
            has(run.queue, worker.end(1, 20), told_of(run, f"{ANSWER}: "))
            room.end(run)


def shutdown_with_pages_that_hang():
    """SIGTERM while the pages of a task hang: it ends within some ten seconds, with status 1, and names the run."""
    with Room(cache=0) as room:
        room.server.histories.pages.lengths = cycle([2])
        room.plan.add(PAGE, hangs)
        worker, run = Worker(room, "--workers", "2"), room.start("Nap")
        soon("the page is asked for", lambda: room.count(PAGE) == 1)
        has("said", worker.stop(1, 20), told_of(run, f"{PAGE}: "))
        room.end(run)


def shutdown_with_a_farewell_that_hangs():
    """SIGTERM, and the call that gives up the sticky queue hangs: it ends within some ten seconds, with status 0."""
    with Room() as room:
        room.plan.add(FAREWELL, hangs)
        worker = Worker(room, "--workers", "2")
        soon("polls", lambda: room.count(TASK) == 2)
        worker.stop(within=20)


def shutdown_at_work():
    """SIGTERM with many runs at work: no task that the worker has got is left without an answer, and a second process ends the
    runs, also those whose tasks went down with a poll."""
    with Room(speed=5) as room:
        room.workflows.milliseconds = 1_500
        worker = Worker(room, "--workers", "8")
        soon("polls", lambda: room.count(TASK) >= 8)
        for _ in range(40):
            room.start("Nap")
        soon("some are answered", lambda: room.count(ANSWER) >= 10)
        counts = counts_in(worker.stop())
        same("tasks", counts["taken"], counts["completed"])
        same("some are left", [run for run in room.server.runs.all if not run.closed] != [], True)
        room.serve()


def bridge_killed():
    """SIGKILL of the bridge: the worker behind it is gone soon, and a second process ends the runs after the timeouts."""
    with Room(speed=10) as room:
        room.workflows.milliseconds = 3_000
        room.plan.add(ANSWER, slow(0.3))
        worker = Worker(room, "--workers", "4")
        soon("polls", lambda: room.count(TASK) >= 4)
        for _ in range(6):
            room.start("Nap")
        soon("answers are on their way", lambda: room.count(ANSWER) >= 2)
        (child,) = children_of(worker.child.pid)
        worker.child.kill()
        worker.child.wait()
        soon("the worker is gone", lambda: not is_there(child), 3)
        room.plan.clear()
        room.serve(within=20)


TRIES = [
    server_away_for_long,
    shutdown_with_pages_that_hang,
    polls_refused_once,
    polls_refused_for_good,
    polls_refused_for_seconds,
    polls_late_at_once,
    polls_empty_at_once,
    idle,
    answers_refused_twice,
    answers_refused,
    answers_taken_and_lost,
    result_taken_and_lost,
    answer_too_large,
    server_away_once,
    connections_that_end,
    events_of_unknown_types,
    unknown_event_in_a_sticky_task,
    histories_in_pages,
    pages_refused_for_now,
    pages_refused,
    cache_of_one_run,
    run_cached_late,
    queries_of_runs,
    query_beside_a_task,
    query_of_a_busy_run,
    shutdowns_with_polls,
    shutdown_with_answers,
    shutdown_at_work,
    bridge_killed,
]
LONG = [
    polls_refused_for_six_seconds,
    answers_that_take_long,
    answers_that_hang,
    five_megabytes,
    server_away_again_and_again,
    answer_lost_while_away,
    connections_that_end_for_long,
    server_that_forgets,
    shutdowns_with_answers_that_fail,
    shutdown_with_a_farewell_that_hangs,
]
LEFT_OUT = {}


def main():
    tries = Tries(__doc__, TRIES, LONG, LEFT_OUT)
    tries.parser.add_argument("--bridge", type=Path, default=support.BRIDGE, help="another bridge, a file")
    asked = tries.parser.parse_args()
    support.BRIDGE = asked.bridge
    for program in (PROGRAM, ORDERS):
        if not program.exists():
            sys.exit(f"{program} is not built")
    return tries.run(asked)


if __name__ == "__main__":
    sys.exit(main())
