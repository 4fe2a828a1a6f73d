#!/usr/bin/env python3
"""Tries the bridge and a program of this host against a Temporal server: for whoever has one.

    temporal server start-dev
    pip install temporalio grpcio
    tests/real_server.py --address localhost:7233 --runs 60
    tests/real_server.py --address localhost:7233 --orders crates/order_worker/out/order_worker

It starts runs of the samples (and of orders, if --orders names the program that has them), signals some and requests the
cancellation of some, kills the bridge and its worker meanwhile and starts them again, and waits until all runs are closed.
It reads the pages of the bridge (--listen), and asks a run of each type for what a Web UI asks for. Then it tries the bridge alone,
as its worker: a namespace that is not there, a retry policy that no server takes, and the result of an activity while the way to
the server is away for a quarter of a minute. And it tries the program behind a proxy that makes trouble: polls that are refused or
late, responses that are lost, pages that are refused, events of unknown types, and connections that end; and in a namespace that
is not there, where it has to end by itself.
It asks for what only a server can tell: whether the details of a heartbeat come back in a later attempt, which the bridge hands on
and the program's handler reads; whether queries come with the tasks of a busy run, whose answers have to be of the state that the
task leaves; what becomes of payloads of a codec, which go to an activity and to a child workflow and back, of the headers of a run's
start and of a signal, of an update and of an answer that is too large; what it says of a policy that only it can refuse, and with
--api-key-file of a bad key.
Then it fetches each history by GetWorkflowExecutionHistory, writes it to a file in the form of the Temporal CLI, and
replays the folder with the program. The last line is `N runs, N closed, 0 wrong`, and the exit status is 1 if anything is
wrong. Children, and runs that continue others as new, count as runs too. It uses task queues and workflow ids of its own,
terminates the runs that are still open at its end, also after Ctrl-C, and takes no more than --minutes.

With --stand-in it starts the stand-in of standin/ in place of a server. It has been tried against that only. With it
--program may be 'python3 tests/small_worker.py'.
"""

import argparse
import json
import os
import random
import re
import signal
import subprocess
import sys
import tempfile
import threading
import time
import uuid
from collections import Counter
from pathlib import Path

import support
from rows import PROGRAM, Wrong, soon
from support import ANSWER, CALL_SECONDS, HEARTBEAT, NOT_FOUND, PAGE, RESULT, STAND_IN, TASK, Client, free_port, page_of, payloads

from history import CARRIED_OVER
from messages import attributes_name
from processes import children_of, kill
from workflows import OPENINGS

END_SECONDS, REPLAY_SECONDS = 30, 600
# How long the way to the server is away, and how long a poll of the bridge alone may take.
AWAY_SECONDS, TASK_SECONDS = 15, 90
INVALID, DEADLINE, DENIED, UNAUTHENTICATED = 3, 4, 7, 16
NORMAL = 1  # The kind of a Task Queue that is not sticky.
# A retry policy that no server takes, and the name of a Task Queue that is too long for one.
BAD_POLICY = {"initialInterval": "60s", "maximumInterval": "10s", "maximumAttempts": 2}
LONG_NAME = "x" * 1_001
# What the stand-in says against what this trial itself does.
OWN_FAULTS = ("MaximumInterval cannot be ", "one more answer to ", "EVENT_TYPE_999", "larger than max", f"the task queue is {LONG_NAME}")
SAMPLES = ("Nap", "Greet", "Branch", "Family", "Racer", "Caller", "Relay")
# The signals and the cancels that some runs of a type get: how often, and which signal.
SIGNALS = {"Family": (0.5, "stop"), "Order": (1.0, "cancel"), "Nap": (0.3, "noise"), "Relay": (0.3, "noise")}
CANCELS = {"Greet": 0.3}
# The queries that runs of a type answer, with all answers, of which the last one is that of a closed run.
QUERIES = {"Order": ("status", ['"charging"', '"held"', '"shipping"', '"closed"']), "Racer": ("phase", ['"racing"', '"late"', '"done"'])}
# The signals that runs of a type declare.
DECLARED = {"Order": ["cancel"]}
# The queries that are reserved, and what the second of them gives.
METADATA, TRACE, NO_TRACE = "__temporal_workflow_metadata", "__stack_trace", "There is no stack trace: "
# The options that the bridge is given as they are, beside --tls.
BRIDGE_OPTIONS = ("--tls-cert", "--tls-key", "--tls-ca", "--tls-server-name", "--api-key", "--api-key-file")
CHILD = "childWorkflowExecutionStartedEventAttributes"
STARTED, CONTINUED = "workflowExecutionStartedEventAttributes", "workflowExecutionContinuedAsNewEventAttributes"
# The event of a signal, the number of a type that no package knows, and what a query gives of a type that no run knows.
SIGNALED, UNKNOWN_TYPE, UNKNOWN_QUERY = 26, 999, "unknown query type weather; known: none"
# What such a query gives of a table, and the states of the table that counts.
UNKNOWN_OF_TABLE, STATES = "unknown query type weather; known: state", ('"even"', '"odd"')
# The trouble that a proxy makes, in this order; and what is left out, and why.
TROUBLES = ("refused_polls", "late_polls", "lost_responses", "refused_pages", "unknown_events", "busy_runs", "payloads_of_a_codec",
            "children_of_a_codec", "discarded_tasks", "large_answers")
LEFT_OUT = {}
# A payload of a codec; the same after its key has turned; and one of another encoding that has more metadata.
CODED = {"metadata": {"encoding": b"binary/encrypted", "encryption-key-id": b"key-7"}, "data": b"\0\1secret"}
TURNED = {**CODED, "metadata": {**CODED["metadata"], "encryption-key-id": b"key-8"}}
TYPED = {"metadata": {"encoding": b"json/protobuf", "messageType": b"shop.Order"}, "data": b'{"cents":5}'}
# Tables: one that hands its input on to an activity that nobody knows, and as its result; one that gives its input back; one whose
# first answer has its input three times; and one that counts signals, in its way.
HANDS_ON = [["asked", "start", "", "activity a Nobody input"], ["asked", "failed a", "", "complete input"]]
GIVES_BACK = [["asked", "start", "", "complete input"]]
THREE_TIMES = [["asked", "start", "", [f"activity {name} Nobody input" for name in "abc"]]]
COUNTS = [["even", "start", "", "timer end 86400"], ["even", "signal noise", "", "", "odd"], ["odd", "signal noise", "", "", "even"]]
# The bytes of an input of which a server's message does not hold three, nor one of the stand-in; and how many labels are printed.
LARGE_INPUT, LARGE_FOR_STAND_IN, LABELS = 3 << 19, 3 << 17, 200
# What is asked of a server with the activities of the tables, by the Task Queue of the trial, and of Greet: the last is refused by it
# alone. This script serves the activity Keep.
POLICIES = """
[activity.PrintLabels]
task_queue = "{0}-labels"
start_to_close = 60
heartbeat = 30

[activity.ChargeCard]
task_queue = "{0}-labels"

[activity.Keep]
task_queue = "{0}-keep"

[activity.greet]
task_queue = "{1}"
"""
# What the bridge of the samples has counted when its runs are closed.
METRICS_OF_CLOSED = ("temporal_workflow_completed_total{", "temporal_workflow_task_queue_poll_succeed_total{",
                     "temporal_workflow_task_schedule_to_start_latency_seconds_count{")
# The ends of the names of all Task Queues.
QUEUES = ("", "-orders", "-bridge", "-trouble", "-policies", "-labels", "-keep")
# The failure of an attempt that another one follows.
LATER = {"message": "later", "source": "trial", "applicationFailureInfo": {"type": "Later"}}
# Each channel has a connection of its own, and takes messages of any size.
CHANNEL_OPTIONS = (("grpc.use_local_subchannel_pool", 1), ("grpc.max_receive_message_length", -1))
# For how many seconds the proxy lets a poll wait; after how many milliseconds it ends a connection, and its calls.
POLL_SECONDS = 2
PROXY_OPTIONS = (("grpc.max_connection_age_ms", 10_000), ("grpc.max_connection_age_grace_ms", 2_000))


def channel_of(asked, address):
    """A channel, with TLS where the bridge uses it too: where it or something of it is asked for, or a key is shown."""
    import grpc

    files = asked.tls_ca, asked.tls_key, asked.tls_cert
    if not (asked.tls or any(files) or asked.tls_server_name or asked.api_key or asked.api_key_file):
        return grpc.insecure_channel(address, CHANNEL_OPTIONS)
    held = [Path(file).read_bytes() if file else None for file in files]
    given = [("grpc.ssl_target_name_override", asked.tls_server_name)] if asked.tls_server_name else []
    return grpc.secure_channel(address, grpc.ssl_channel_credentials(*held), [*CHANNEL_OPTIONS, *given])


def beside_of(asked):
    """What goes beside each call."""
    key = Path(asked.api_key_file).read_text() if asked.api_key_file else asked.api_key
    return [("temporal-namespace", asked.namespace), *([("authorization", f"Bearer {key.strip()}")] if key else [])]


def table_of(rows):
    """The table of a run."""
    return {"version": 1, "rows": rows}


def asks_for(kind):
    """The table of a run that hands its input on to an activity, and has the activity's result."""
    return table_of([["asked", "start", "", f"activity a {kind} input"], ["asked", "done a", "", "complete brought"]])


def has_child(name):
    """The table of a run that hands its input on to a child of this id when a signal comes, and has the child's result."""
    waits, asks = ["asked", "start", "", "timer end 86400"], ["asked", "signal go", "", f"child {name} Table input"]
    return table_of([waits, asks, ["asked", f"child-done {name}", "", "complete brought"]])


def tells_of(told, kind, queries):
    """Whether what is told for a Web UI is of a run of this type, which answers these queries."""
    found = json.loads(told)["definition"] if told.startswith("{") else {}
    names = [[one["name"] for one in found.get(f"{what}Definitions", [])] for what in ("query", "signal")]
    return [found.get("type"), *names] == [kind, queries, DECLARED.get(kind, [])]


def header_of(client, **values):
    """The header of a run or a signal that is traced, with a field for each value."""
    header = client.messages.StartWorkflowExecutionRequest().header
    for name, value in values.items():
        header.fields[name].metadata["encoding"], header.fields[name].data = b"json/plain", json.dumps(value).encode()
    return header


def with_memo(client):
    """What a run begins with beside its input: a memo of one value, and a retry policy by which it is not tried again."""
    memo = client.messages.StartWorkflowExecutionRequest().memo
    memo.fields["team"].metadata["encoding"], memo.fields["team"].data = b"json/plain", b'"shop"'
    return {"memo": memo, "retry_policy": {"maximum_attempts": 1}}


def options_of(asked):
    """The options that the bridge is given as they are."""
    values = [(option, getattr(asked, option[2:].replace("-", "_"))) for option in BRIDGE_OPTIONS]
    return ["--namespace", asked.namespace, *["--tls"] * asked.tls, *(word for pair in values if pair[1] for word in pair)]


class Worker:
    """A bridge with a worker behind it."""

    def __init__(self, asked, address, program, queue, options=None, cache=10, more=()):
        """`options` are those of the bridge, if they are not those for the server, and `more` are options of the worker."""
        self.room, self.port = tempfile.TemporaryDirectory(), free_port()
        metrics = f"{self.room.name}/worker.prom"
        words = [sys.executable, str(asked.bridge), "--address", address, *(options or options_of(asked))]
        words += ["--listen", f"127.0.0.1:{self.port}", "--worker-metrics", metrics]
        words += ["--", *program, "work", "--task-queue", queue, "--namespace", asked.namespace, "--identity", "{identity}"]
        words += ["--activity-workers", "2", "--cache", str(cache), "--sticky-timeout", "5", "--metrics", metrics, *more]
        self.words, self.said, self.child = words, tempfile.TemporaryFile(), None

    def start(self):
        # In a session of its own, so that it can be killed with all that it has started.
        # The environment asks the bridge for nothing that the client of this trial does not know of.
        environment = {name: value for name, value in os.environ.items() if not name.startswith("TEMPORAL_")}
        self.child = subprocess.Popen(
            self.words, stdin=subprocess.DEVNULL, stderr=self.said, start_new_session=True, env=environment
        )

    def kill(self):
        """Kills the bridge, and the worker that it has started, at once."""
        children = children_of(self.child.pid)
        self.child.kill()
        for child in children:
            kill(child)
        self.child.wait()

    def stop(self):
        """Ends it as an operator does: its status, or none where it had to be killed."""
        self.child.terminate()
        try:
            return self.child.wait(END_SECONDS)
        except subprocess.TimeoutExpired:
            self.kill()
            return None

    def faults_of_pages(self, *more):
        """What is wrong with the pages of a worker that polls, whose metrics have these names too."""
        until, pages = time.monotonic() + TASK_SECONDS, {}
        while time.monotonic() < until and pages.get("/ready", (0, ""))[0] != 200:
            time.sleep(0.5)
            pages = {path: page_of(self.port, path) for path in ("/live", "/ready", "/metrics")}
        faults = [f"{path} gives {status} {text!r}" for path, (status, text) in pages.items() if status != 200]
        names = ('temporal_request_total{', 'temporal_long_request_latency_seconds_count{', 'operation="GetSystemInfo"', *more)
        return faults + [f"/metrics is without {name}" for name in names if name not in pages["/metrics"][1]]

    def calls_of(self, method):
        """How often its bridge has made a call."""
        text = page_of(self.port, "/metrics")[1]
        return sum(float(line.rpartition(" ")[2]) for line in text.splitlines() if re.match(rf'temporal_request_total{{.*"{method}"', line))

    def report(self):
        """What it has said on standard error."""
        self.said.seek(0)
        return self.said.read().decode(errors="replace")


class Service:
    """Some workflow types on a task queue, and the worker that serves them."""

    def __init__(self, asked, address, program, queue, types):
        self.program, self.queue, self.types = program, queue, types
        self.worker = Worker(asked, address, program, queue)


class Alone:
    """The bridge alone. This script is its worker, which has the code of Greet, over a way to the server that can be away."""

    def __init__(self, asked, address, client, queue):
        from forwarder import Forwarder

        host, _, port = address.rpartition(":")
        self.client, self.queue, self.way, self.wrong = client, queue, Forwarder(int(port), host), []
        self.same = {"namespace": asked.namespace, "identity": f"{queue}-alone"}
        self.may_repeat = not asked.stand_in  # It takes a second answer for a fault.
        self.sticky = {"kind": "TASK_QUEUE_KIND_STICKY", "name": f"{queue}-alone:{queue}", "normalName": queue}
        self.room = tempfile.TemporaryDirectory()
        self.port, self.key, words = free_port(), None, options_of(asked)
        if asked.api_key_file:
            self.key, at = Path(self.room.name, "api-key"), words.index("--api-key-file") + 1
            self.key.write_text(Path(words[at]).read_text())
            words[at] = str(self.key)
        if len(words) > 2 and not asked.tls_server_name:
            words += ["--tls-server-name", host]
        words += ["--poll-grace", "2", "--listen", f"127.0.0.1:{self.port}"]
        self.bridge = support.Bridge(self.way.port, *words, path=os.environ.get("PYTHONPATH", ""), script=asked.bridge)

    def run(self):
        """The trial: the execution of the run, which is closed then."""
        execution = self.client.start("Greet", f"{self.queue}-greet", self.queue, payloads("bridge"), **with_memo(self.client))
        with self.bridge:
            try:
                self.refuse()
                self.schedule()
                self.end_activity()
                self.complete()
                self.beat()
                if self.key:
                    self.turn_keys()
                for path in ("/live", "/ready"):
                    self.see(path, page_of(self.port, path)[0], 200)
                failed = 'temporal_request_failure_total{namespace="%s",operation="RespondActivityTaskCompleted",status_code="UNAVAILABLE"}'
                self.see("the calls that failed are counted", failed % self.same["namespace"] in page_of(self.port, "/metrics")[1], True)
            except Exception as why:
                self.wrong.append(f"the bridge alone: {type(why).__name__}: {why}")
        return execution

    def see(self, what, found, wanted):
        if found != wanted:
            self.wrong.append(f"the bridge alone: {what}: {found!r}, not {wanted!r}")

    def poll(self, kind, queue=None):
        """The next task of a Task Queue, the normal one if none is given."""
        queue, until = queue or {"kind": "TASK_QUEUE_KIND_NORMAL", "name": self.queue}, time.monotonic() + TASK_SECONDS
        while time.monotonic() < until:
            found = self.bridge.answered(f"Poll{kind}TaskQueue", {**self.same, "taskQueue": queue})
            if isinstance(found, dict) and found:
                return found
            time.sleep(0.2)
        raise Wrong(f"no {kind.lower()} task comes: {found}")

    def answer(self, task, kind, attributes):
        """Answers a workflow task by one command."""
        params = {
            "commands": [{"commandType": f"COMMAND_TYPE_{kind}", attributes_name(kind): attributes}],
            "queryResults": {},
            "stickyAttributes": {"scheduleToStartTimeout": "60s", "workerTaskQueue": self.sticky},
            "taskToken": task["taskToken"],
        }
        return self.bridge.answered(ANSWER, {**self.same, **params})

    def refuse(self):
        """A namespace that is not there: the poll is refused, after --poll-grace."""
        queue, begun = {"kind": "TASK_QUEUE_KIND_NORMAL", "name": self.queue}, time.monotonic()
        self.bridge.ask(1, TASK, {**self.same, "namespace": f"no-{uuid.uuid4().hex}", "taskQueue": queue})
        self.bridge.talk.settimeout(TASK_SECONDS)
        error = self.bridge.next().get("error", {})
        self.see("the code of a namespace that is not there", error.get("code") in (NOT_FOUND, DENIED), True)
        self.see("it was tried for a while", time.monotonic() - begun > 1, True)

    def schedule(self):
        """The first task, of whose events each type has a name. An answer with a retry policy that no server takes is refused,
        and the task comes again."""
        task = self.poll("Workflow")
        types = [event["eventType"] for event in task["history"]["events"]]
        self.see("types of events", [kind for kind in types if not kind.startswith("EVENT_TYPE_")], [])
        self.input = task["history"]["events"][0][STARTED]["input"]
        attributes = {"activityId": "1", "activityType": {"name": "greet"}, "input": self.input, "taskQueue": {"name": self.queue}}
        attributes["startToCloseTimeout"] = "60s"
        refused = self.answer(task, "SCHEDULE_ACTIVITY_TASK", {**attributes, "retryPolicy": BAD_POLICY})
        self.see("the code of a retry policy that no server takes", refused[:1] if isinstance(refused, tuple) else refused, (INVALID,))
        good = {**attributes, "retryPolicy": {"maximumAttempts": 1}}
        self.see("an answer", self.answer(self.poll("Workflow"), "SCHEDULE_ACTIVITY_TASK", good), {})

    def end_activity(self):
        """The result of the activity, while the way to the server is away. A second one is refused at once."""
        task = self.poll("Activity")
        self.see("the timeout of the activity", task.get("startToCloseTimeout"), "60s")
        self.see("its attempts", task.get("retryPolicy", {}).get("maximumAttempts"), 1)
        params = {**self.same, "result": self.input, "taskToken": task["taskToken"]}
        self.way.leave(AWAY_SECONDS)
        begun = time.monotonic()
        self.see("the result of the activity", self.bridge.answered(RESULT, params), {})
        self.see("it is taken once the server is back", AWAY_SECONDS - 1 < time.monotonic() - begun < 2 * AWAY_SECONDS, True)
        if self.may_repeat:
            begun = time.monotonic()
            self.see("a second result", self.bridge.answered(RESULT, params)[:1], (NOT_FOUND,))
            self.see("it is refused at once", time.monotonic() - begun < CALL_SECONDS / 2, True)

    def beat(self):
        """An activity of a run of its own, which sends heartbeats: a later attempt gets the details of the last one, and a cancel
        comes as the response to one."""
        execution = self.client.start("Greet", f"{self.queue}-heartbeats", self.queue, payloads("bridge"))
        attributes = {"activityId": "1", "activityType": {"name": "PrintLabels"}, "input": self.input, "taskQueue": {"name": self.queue}}
        attributes.update(startToCloseTimeout="60s", heartbeatTimeout="30s", retryPolicy={"initialInterval": "1s", "maximumAttempts": 3})
        self.see("an answer", self.answer(self.poll("Workflow"), "SCHEDULE_ACTIVITY_TASK", attributes), {})
        task = self.poll("Activity")
        self.see("the heartbeat timeout", task.get("heartbeatTimeout"), "30s")
        self.see("a heartbeat", self.end(task, HEARTBEAT, details=self.input), {})
        self.see("a failure", self.end(task, "RespondActivityTaskFailed", failure=LATER), {})
        task = self.poll("Activity")
        self.see("the second attempt", [task.get(name) for name in ("attempt", "heartbeatDetails")], [2, self.input])
        self.client.signal(execution, "noise")
        cancel = {"scheduledEventId": self.number_of(execution, "ACTIVITY_TASK_SCHEDULED")}
        self.see("an answer", self.answer(self.poll("Workflow", self.sticky), "REQUEST_CANCEL_ACTIVITY_TASK", cancel), {})
        self.see("the heartbeat after a cancel", self.end(task, HEARTBEAT), {"cancelRequested": True})
        self.see("the activity is canceled", self.end(task, "RespondActivityTaskCanceled"), {})
        self.answer(self.poll("Workflow", self.sticky), "COMPLETE_WORKFLOW_EXECUTION", {})

    def turn_keys(self):
        """Where the bridge's copy of the key turns bad, its calls are refused, and once it is good again they are not."""
        good = self.key.read_text()

        def outcome():
            found = self.bridge.answered("GetSystemInfo", {})
            return found[0] if isinstance(found, tuple) else "taken"

        self.key.write_text("no-key")
        soon("a bad key is refused", lambda: outcome() in (DENIED, UNAUTHENTICATED), TASK_SECONDS)
        self.key.write_text(good)
        soon("the good key is taken again", lambda: outcome() == "taken", TASK_SECONDS)

    def end(self, task, method, **more):
        """What comes of a call for an activity's task."""
        return self.bridge.answered(method, {**self.same, "taskToken": task["taskToken"], **more})

    def number_of(self, execution, kind):
        """The number of the first event of a type."""
        return next(event["eventId"] for event in self.client.history(execution) if event["eventType"] == f"EVENT_TYPE_{kind}")

    def complete(self):
        """The second task of the run, after which it is closed."""
        self.see("the end", self.answer(self.poll("Workflow", self.sticky), "COMPLETE_WORKFLOW_EXECUTION", {"result": self.input}), {})


class Part:
    """A part of the trial that starts runs on a Task Queue of its own. They count as runs of the samples."""

    def __init__(self, trial, name, end):
        self.trial, self.client, self.name, self.queue = trial, trial.client, name, trial.queue + end
        self.wrong, self.count = [], 0

    def see(self, what, found, wanted):
        if found != wanted:
            self.wrong.append(f"{self.name}: {what}: {found!r}, not {wanted!r}")

    def start(self, kind, *values, coded=(), **more):
        """Starts a run, with payloads of a codec after the JSON values."""
        self.count += 1
        workflow_id = f"{self.queue}-{self.count}"
        input = {"payloads": [*payloads(*values)["payloads"], *coded]}
        execution = self.client.start(kind, workflow_id, self.queue, input, **with_memo(self.client), **more)
        self.trial.executions[workflow_id] = (self.trial.services[0], kind, execution)
        return execution

    def wait(self, what, condition):
        soon(what, condition, TASK_SECONDS)

    def are_closed(self, runs):
        self.wait(f"{len(runs)} runs are closed", lambda: not any(map(self.client.is_open, runs)))

    def types(self, execution):
        return [event["eventType"].removeprefix("EVENT_TYPE_") for event in self.client.history(execution)]

    def attributes(self, execution, kind):
        """The attributes of the first event of a type."""
        name, found = attributes_name(kind).replace("Command", "Event"), self.client.history(execution)
        return next((event.get(name, {}) for event in found if event["eventType"] == f"EVENT_TYPE_{kind}"), {})

    def result(self, execution):
        """The result of a run that has completed."""
        return self.attributes(execution, "WORKFLOW_EXECUTION_COMPLETED").get("result")

    def in_json(self, *some):
        """Payloads as JSON has them."""
        return self.client.json.MessageToDict(self.client.messages.StartWorkflowExecutionRequest(input={"payloads": some}).input)


class Trouble(Part):
    """The program and its bridge behind a proxy that makes trouble, and that ends each connection after a while."""

    def __init__(self, trial):
        from plans import changed, in_turn, lost, refused, slow
        from proxy import Proxy

        super().__init__(trial, "behind a proxy", "-trouble")
        asked = trial.asked
        self.proxy = Proxy(channel_of(asked, trial.address), beside_of(asked), PROXY_OPTIONS, POLL_SECONDS)
        self.plan, self.begun, self.beside = self.proxy.plan, {}, {}
        self.changed, self.in_turn, self.lost, self.refused, self.slow = changed, in_turn, lost, refused, slow
        self.worker = Worker(asked, f"127.0.0.1:{self.proxy.port}", asked.program, self.queue, ["--namespace", asked.namespace], cache=1)

    def run(self):
        """Tries each trouble: what is wrong."""
        status = None
        try:
            for name in TROUBLES:
                if name not in LEFT_OUT:
                    getattr(self, name)()
                    self.plan.clear()
        except Wrong as why:
            self.wrong.append(f"behind a proxy: {why}")
        finally:
            if self.worker.child is not None:
                status = self.worker.stop()
            self.proxy.listener.stop(0)
        self.see("the status", status, 1)
        self.judge(self.worker.report())
        for name, why in LEFT_OUT.items():
            print(f"behind a proxy {name} is left out: {why}", flush=True)
        return self.wrong

    def judge(self, said):
        """Notes what is wrong with what the worker and its bridge have said."""
        failed = [line for line in said.splitlines() if re.search(r"\(code \d+\)", line)]
        named = [line for line in failed if self.queue in line]
        self.see("lines without the Task Queue or the run", [line for line in failed if line not in named], [])
        self.see("a line of the poll that was refused", f"{TASK} of {self.queue} is refused: not now (code {NOT_FOUND})" in said, True)
        self.see("a line of the task that was given up", "bad token; its task is given up, and comes again (code 5)" in said, True)

    def is_normal(self, call):
        """Whether a poll is one of the normal queue."""
        request = self.client.messages.PollWorkflowTaskQueueRequest.FromString(call.request)
        return request.task_queue.name == self.queue

    # What a proxy, or a server that starts or ends, may do.

    def refused_polls(self):
        """Polls that are refused once, by each code that would end a worker: runs that begin later are served."""
        codes = (NOT_FOUND, DENIED, UNAUTHENTICATED, INVALID)
        self.plan.add(TASK, self.in_turn(*map(self.refused, codes)), times=len(codes), picks=self.is_normal)
        self.worker.start()
        self.wait("the polls are made again", lambda: self.plan.calls[TASK] > len(codes) + 1)
        self.are_closed([self.start("Greet", "Ada") for _ in range(3)])

    def late_polls(self):
        """Polls that are late at once are no busy loop."""
        self.plan.add(TASK, self.refused(DEADLINE))
        time.sleep(2 * POLL_SECONDS)  # Earlier polls are over.
        self.see("at most 15 polls a second", self.proxy.calls_of(TASK, 4) <= 60, True)

    def lost_responses(self):
        """Answers that are taken, whose responses are lost."""
        self.plan.add(ANSWER, self.lost, times=2)
        self.are_closed([self.start("Greet", "Ada") for _ in range(2)])

    def refused_pages(self):
        """The history of a run that is not cached any more can't be fetched: its task is named, and comes again."""
        self.plan.add(PAGE, self.refused(NOT_FOUND, "bad token"), times=1)
        before, until = self.plan.calls[PAGE], time.monotonic() + TASK_SECONDS
        while self.plan.calls[PAGE] == before and time.monotonic() < until:
            self.are_closed([self.start("Greet", "Ada") for _ in range(6)])
        self.see("a history is fetched", self.plan.calls[PAGE] > before, True)

    def unknown_events(self):
        """An event of a type that no package knows is passed over if a worker may ignore it, and else fails the task once."""
        for may_ignore in (True, False):
            execution = self.start("Nap")
            self.wait("the nap begins", lambda: "TIMER_STARTED" in self.types(execution))
            before = len(self.types(execution))
            self.plan.add(TASK, self.changed(lambda result: self.with_unknown(result, may_ignore)))
            time.sleep(2 * POLL_SECONDS)  # Earlier polls are over.
            self.client.signal(execution, "noise")
            self.wait("the task after the signal", lambda: "WORKFLOW_TASK_COMPLETED" in self.types(execution)[before:])
            self.plan.clear()
            failures = [event for event in self.client.history(execution) if event["eventType"] == "EVENT_TYPE_WORKFLOW_TASK_FAILED"]
            told = [one["workflowTaskFailedEventAttributes"]["failure"]["message"].rpartition(" ")[2] for one in failures]
            self.see("failures", told, [] if may_ignore else [f"EVENT_TYPE_{UNKNOWN_TYPE}"])
            self.client.terminate(execution)

    def with_unknown(self, result, may_ignore):
        """The task of a first attempt, in which the last signal is an event of a type that nobody knows."""
        task = self.client.messages.PollWorkflowTaskQueueResponse.FromString(result or b"")
        signals = [event for event in task.history.events if event.event_type == SIGNALED]
        if not signals or task.attempt > 1:
            return result
        signals[-1].event_type, signals[-1].worker_may_ignore = UNKNOWN_TYPE, may_ignore
        return task.SerializeToString()

    def busy_runs(self):
        """Queries of a run that always has a task are answered with its tasks, each in the state that its task leaves."""
        self.plan.add(TASK, self.changed(self.note_task))
        self.plan.add(ANSWER, self.note_answer)
        time.sleep(2 * POLL_SECONDS)  # Earlier polls are over.
        execution, is_over = self.start("Table", table_of(COUNTS)), threading.Event()
        self.wait("the run begins", lambda: "TIMER_STARTED" in self.types(execution))

        def signal_on():
            while not is_over.wait(0.05):
                self.client.signal(execution, "noise")

        signals = threading.Thread(target=signal_on)
        signals.start()
        try:
            time.sleep(1)
            self.ask_busy(execution)
        finally:
            is_over.set()
            signals.join()
        self.see_states(execution)
        self.client.terminate(execution)

    def ask_busy(self, execution):
        """Asks a busy run, some times, for what it does not know, for what is reserved, and for its state."""
        for kind, times, is_right in (
            ("weather", 1, lambda given: UNKNOWN_OF_TABLE in given),
            (TRACE, 3, lambda given: NO_TRACE in given),
            (METADATA, 3, lambda given: tells_of(given, "Table", ["state"])),
            ("state", 5, lambda given: given in STATES),
        ):
            given = [self.client.query(execution, kind, 5) for _ in range(times)]
            self.see(f"the query {kind} of a busy run", [one for one in given if not is_right(one)], [])

    def note_task(self, result):
        """Notes with which event a task begins."""
        task = self.client.messages.PollWorkflowTaskQueueResponse.FromString(result or b"")
        self.begun[task.task_token] = task.started_event_id
        return result

    def note_answer(self, call):
        """Notes what the answer to a task, which takes a while, gives to its queries."""
        answer = self.client.messages.RespondWorkflowTaskCompletedRequest.FromString(call.request)
        found = [one.answer.payloads[0].data.decode() for one in answer.query_results.values() if one.answer.payloads]
        self.beside[answer.task_token] = [one for one in found if one in STATES]
        return self.slow(0.3)(call)

    def see_states(self, execution):
        """The states that were given with tasks are those after the signals of their tasks."""
        types, seen = self.types(execution), self.begun.keys() & self.beside.keys()
        for token in seen:
            signals = types[: self.begun[token]].count("WORKFLOW_EXECUTION_SIGNALED")
            self.see(f"the states after {signals} signals", [one for one in self.beside[token] if one != STATES[signals % 2]], [])
        self.see("queries for the state came with a task", any(self.beside[token] for token in seen), True)

    # What a server makes of what is sent.

    def payloads_of_a_codec(self):
        """A payload of a codec goes through a table with all its metadata, and the header of the start to an activity. That one is of
        a type that nobody knows: it fails with a failure of a type, and is not tried again."""
        header = header_of(self.client, trace="00-1a2b")
        execution = self.start("Table", table_of(HANDS_ON), coded=[CODED], header=header)
        self.are_closed([execution])
        coded = self.in_json(CODED)
        scheduled = self.attributes(execution, "ACTIVITY_TASK_SCHEDULED")
        self.see("the input of an activity", scheduled.get("input"), coded)
        self.see("its header", scheduled.get("header"), self.client.json.MessageToDict(header))
        self.see("the result of the run", self.result(execution), coded)
        failure = self.attributes(execution, "ACTIVITY_TASK_FAILED").get("failure", {})
        self.see("the failure", failure.get("applicationFailureInfo"), {"type": "NotFoundError", "nonRetryable": True})

    def children_of_a_codec(self):
        """A child workflow gets payloads of a codec with all their metadata, and the header: of each field the value that came last,
        with the start or with a signal. Its result comes back."""
        first, name = header_of(self.client, trace="00-1a2b", tenant="shop"), f"{self.queue}-child"
        execution = self.start("Table", has_child(name), table_of(GIVES_BACK), coded=[CODED, TYPED], header=first)
        self.wait("the run waits for a signal", lambda: "TIMER_STARTED" in self.types(execution))
        self.client.signal(execution, "go", header=header_of(self.client, trace="00-3c4d", baggage="spring"))
        self.are_closed([execution])
        header = header_of(self.client, trace="00-3c4d", tenant="shop", baggage="spring")
        ids = self.attributes(execution, "CHILD_WORKFLOW_EXECUTION_STARTED").get("workflowExecution", {})
        begun = self.attributes({"workflow_id": name, "run_id": ids.get("runId", "")}, "WORKFLOW_EXECUTION_STARTED")
        self.see("the header of a child", begun.get("header"), self.client.json.MessageToDict(header))
        coded = self.in_json(CODED, TYPED)
        self.see("the input of a child", begun.get("input", {}).get("payloads", [])[1:], coded["payloads"])
        self.see("the result of its parent", self.result(execution), coded)

    def discarded_tasks(self):
        """An update, which no program here knows, gives an idle run a task that the server discards: the run goes on without it."""
        numbers = []

        def note(result):
            numbers.append(self.client.messages.RespondWorkflowTaskCompletedResponse.FromString(result or b"").reset_history_event_id)
            return result

        self.plan.add(ANSWER, self.changed(note))
        execution = self.start("Nap")
        self.wait("the nap begins", lambda: "TIMER_STARTED" in self.types(execution))
        before = self.types(execution)
        try:
            self.client.update(execution, "nothing")
        except Wrong as why:
            print(f"behind a proxy discarded_tasks: the server refuses updates: {why}", flush=True)
        else:
            self.wait("a task is discarded", lambda: any(numbers))
            self.see("the events after that", self.types(execution), before)
            self.client.signal(execution, "noise")
            self.wait("the task after a signal", lambda: "WORKFLOW_TASK_COMPLETED" in self.types(execution)[len(before) :])
            self.see("a query after that", NO_TRACE in self.client.query(execution, TRACE), True)
        self.client.terminate(execution)

    def large_answers(self):
        """An answer that is too large for the server fails its task once. What the server makes of the run then is printed."""
        size = LARGE_FOR_STAND_IN if self.trial.asked.stand_in else LARGE_INPUT
        execution = self.start("Table", table_of(THREE_TIMES), "x" * size)
        # Each look at its history is a large one.
        self.wait("the task is failed", lambda: time.sleep(1) or "WORKFLOW_TASK_FAILED" in self.types(execution))
        cause = self.attributes(execution, "WORKFLOW_TASK_FAILED").get("cause")
        self.see("the cause", cause, "WORKFLOW_TASK_FAILED_CAUSE_GRPC_MESSAGE_TOO_LARGE")
        time.sleep(POLL_SECONDS)
        is_open = self.client.is_open(execution)
        print(f"after an answer that is too large the run is {'open' if is_open else self.types(execution)[-1]}", flush=True)
        if is_open:
            self.client.terminate(execution)


class Policies(Part):
    """The program with policies: activities that this script serves, or the program of orders, and a policy that only a server can
    refuse."""

    def __init__(self, trial):
        super().__init__(trial, "with policies", "-policies")
        asked, self.room = trial.asked, tempfile.TemporaryDirectory()
        file = Path(self.room.name, "policies.toml")
        file.write_text(POLICIES.format(trial.queue, LONG_NAME))
        self.worker = Worker(asked, trial.address, asked.program, self.queue, more=["--policies", str(file), "--activity-attempts", "2"])
        self.till = Worker(asked, trial.address, asked.orders, trial.queue + "-labels") if asked.orders else None
        # A worker's calls have a connection of their own.
        self.own = Client(trial.address, asked.namespace, channel_of(asked, trial.address), beside_of(asked))

    def run(self):
        """Tries them: what is wrong."""
        self.worker.start()
        try:
            self.keep_metadata()
            if self.till:
                self.resume_labels()
                self.print_labels()
                self.give_back()
            self.refuse()
        except Wrong as why:
            self.wrong.append(f"{self.name}: {why}")
        finally:
            started = [worker for worker in (self.worker, self.till) if worker and worker.child]
            self.see("the statuses", [worker.stop() for worker in started], [0] * len(started))
        return self.wrong

    def poll(self, queue):
        """The next activity task of a Task Queue."""
        until = time.monotonic() + TASK_SECONDS
        while time.monotonic() < until:
            task = self.call("PollActivityTaskQueue", TASK_SECONDS, task_queue={"name": queue, "kind": NORMAL})
            if task and task.task_token:
                return task
        raise Wrong(f"no task of {queue} comes")

    def call(self, method, seconds=CALL_SECONDS, **params):
        """Makes a call of a worker."""
        return self.own.call(method, seconds, identity=f"{self.queue}-script", **params)

    def end(self, what, method, task, **params):
        """Makes a call of a worker for a task, which has to be taken."""
        self.see(what, self.call(method, task_token=task.task_token, **params) is not None, True)

    def keep_metadata(self):
        """An activity gets a payload of a codec with all its metadata, and the header of the run's start. Its result comes back with
        the metadata that it has: also the data that it was given, under a key that has turned."""
        header = header_of(self.client, trace="00-1a2b")
        execution = self.start("Table", asks_for("Keep"), coded=[CODED], header=header)
        task = self.poll(f"{self.trial.queue}-keep")
        self.see("the input of an activity", [{"metadata": dict(one.metadata), "data": one.data} for one in task.input.payloads], [CODED])
        self.see("its header", self.client.json.MessageToDict(task.header), self.client.json.MessageToDict(header))
        self.end("the result of an activity", RESULT, task, result={"payloads": [TURNED, TYPED]})
        self.are_closed([execution])
        self.see("the result of the run", self.result(execution), self.in_json(TURNED, TYPED))

    def resume_labels(self):
        """The first attempt, which is served here, tells that all labels are printed, and fails. The handler of the second reads that:
        it prints none, so it sends no heartbeat."""
        execution = self.start("Table", asks_for("PrintLabels"), *range(LABELS))
        task = self.poll(self.trial.queue + "-labels")
        self.end("a heartbeat", HEARTBEAT, task, details=payloads(LABELS))
        failure = self.client.json.ParseDict(LATER, self.client.messages.RespondActivityTaskFailedRequest().failure)
        self.end("a failure", "RespondActivityTaskFailed", task, failure=failure)
        self.till.start()
        self.are_closed([execution])
        self.see("the result of the second attempt", self.result(execution), self.in_json(*payloads(LABELS)["payloads"]))
        self.see("its heartbeats", self.till.calls_of(HEARTBEAT), 0)

    def print_labels(self):
        """A handler that prints many labels at once, and tells of each, sends few heartbeats, but some."""
        before = self.till.calls_of(HEARTBEAT)
        execution = self.start("Table", asks_for("PrintLabels"), *range(LABELS))
        self.are_closed([execution])
        self.see("the last event", self.types(execution)[-1], "WORKFLOW_EXECUTION_COMPLETED")
        count = self.till.calls_of(HEARTBEAT) - before
        self.see(f"{count:.0f} heartbeats of {LABELS} labels are some, and few", 0 < count <= LABELS / 10, True)

    def give_back(self):
        """A handler whose result is its input gives payloads of a codec with all their metadata."""
        execution = self.start("Table", asks_for("ChargeCard"), coded=[CODED, TYPED])
        self.are_closed([execution])
        self.see("the result of a handler", self.result(execution), self.in_json(CODED, TYPED))

    def refuse(self):
        """An activity for a Task Queue whose name is too long: the server refuses the answer, and that is told with the run."""
        execution = self.start("Greet", "Ada")
        line = rf"{re.escape(execution['workflow_id'])} {execution['run_id']}: .+ \(code {INVALID}\)"
        self.wait("the refusal is told", lambda: re.search(line, self.worker.report()))
        self.client.terminate(execution)


class Trial:
    """The whole trial."""

    def __init__(self, asked, address):
        self.asked, self.dice = asked, random.Random(asked.seed)
        self.client = Client(address, asked.namespace, channel_of(asked, address), beside_of(asked))
        self.name = f"wfhost-{uuid.uuid4().hex[:8]}"
        queue = asked.task_queue or self.name
        self.services = [Service(asked, address, asked.program, queue, SAMPLES)]
        if asked.orders:
            self.services.append(Service(asked, address, asked.orders, queue + "-orders", ("Order",)))
        self.address, self.queue = address, queue
        self.executions, self.wrong, self.done = {}, [], Counter()
        self.until = time.monotonic() + asked.minutes * 60

    def say(self, text):
        print(text, flush=True)

    # Runs.

    def start(self, number):
        """Starts a run."""
        if time.monotonic() > self.until:
            raise Wrong(f"the time is over after {number} runs")
        service = self.services[number % len(self.services)]
        kind = service.types[number // len(self.services) % len(service.types)]
        workflow_id = f"{self.name}-{kind.lower()}-{number}"
        execution = self.client.start(kind, workflow_id, service.queue, self.input(kind, number, workflow_id), **with_memo(self.client))
        self.executions[workflow_id] = (service, kind, execution)

    def input(self, kind, number, workflow_id):
        """What a run is started with."""
        if kind == "Order":
            return payloads({"cents": number}, workflow_id)
        return payloads(*range(self.dice.randrange(4))) if kind == "Relay" else payloads(f"person {number}")

    def disturb(self):
        """Signals some runs, and asks for the cancel of some."""
        for kind, execution in self.open_ones():
            chance, name = SIGNALS.get(kind, (0, ""))
            if self.dice.random() < chance and self.may_be_called_off(kind, execution):
                self.client.signal(execution, name)
                self.done["signals"] += 1
            if self.dice.random() < CANCELS.get(kind, 0) and self.may_be_called_off(kind, execution):
                self.client.request_cancel(execution)
                self.done["cancels"] += 1

    def may_be_called_off(self, kind, execution):
        """Whether a run still closes after a signal or a cancel: a Greet and a Family that get one in their first task start
        nothing, and wait for ever."""
        events = self.client.history(execution) if kind in ("Greet", "Family") else [OPENINGS]
        return any(name in event for event in events for name in OPENINGS)

    def ask(self, are_closed=False):
        """Asks a run of each type for what a Web UI asks for, and where each run is to be asked, those of some types for what they
        answer, and all others for what they don't know."""
        for kind, workflow_id in {kind: workflow_id for workflow_id, (_, kind, _) in self.executions.items()}.items():
            self.ask_reserved(kind, {"workflow_id": workflow_id})
        if not self.asked.queries:
            return
        for workflow_id, (_, kind, execution) in self.executions.items():
            name, right = QUERIES.get(kind, ("weather", [UNKNOWN_QUERY]))
            given = self.client.query({"workflow_id": workflow_id}, name)
            if not any(one in given for one in (right[-1:] if are_closed else right)):
                self.wrong.append(f"the query {name} of {workflow_id} gives {given}")
            self.done["queries"] += 1

    def ask_reserved(self, kind, execution):
        """Asks a run for what a Web UI asks for."""
        told, trace = (self.client.query(execution, name) for name in (METADATA, TRACE))
        if not tells_of(told, kind, [QUERIES[kind][0]] if kind in QUERIES else []):
            self.wrong.append(f"the query {METADATA} of a {kind} gives {told}")
        if NO_TRACE not in trace:
            self.wrong.append(f"the query {TRACE} of a {kind} gives {trace}")

    def kill_workers(self):
        """Kills each bridge with its worker, and starts them again a little later."""
        for service in self.services:
            service.worker.kill()
            self.done["kills"] += 1
        time.sleep(1)
        for service in self.services:
            service.worker.start()

    def try_alone(self):
        """Tries the bridge alone, by a run that is one of the samples then."""
        alone = Alone(self.asked, self.address, self.client, self.queue + "-bridge")
        execution = alone.run()
        self.executions[execution["workflow_id"]] = (self.services[0], "Greet", execution)
        self.wrong += alone.wrong

    def try_policies(self):
        """Tries the program with policies, by runs that are some of the samples then."""
        self.wrong += Policies(self).run()

    def try_trouble(self):
        """Tries the program behind a proxy that makes trouble, by runs that are some of the samples then."""
        self.wrong += Trouble(self).run()

    def try_nowhere(self):
        """Tries the program in a namespace that is not there: it ends by itself, and says that it polls no more."""
        nowhere = argparse.Namespace(**{**vars(self.asked), "namespace": f"no-{uuid.uuid4().hex}"})
        worker = Worker(nowhere, self.address, self.asked.program, self.queue, [*options_of(nowhere), "--poll-grace", "2"])
        worker.start()
        try:
            status = worker.child.wait(TASK_SECONDS)
        except subprocess.TimeoutExpired:
            status = None
        finally:
            worker.stop()
        if status != 1 or not re.search(rf"{TASK} of .*; not made again \(code ({NOT_FOUND}|{DENIED})\)", worker.report()):
            self.wrong.append(f"in a namespace that is not there: status {status}: {worker.report()[-500:]}")

    def open_ones(self):
        """The types and the executions of the runs that are open: of a run that was continued as new, the last one."""
        last = [(kind, {"workflow_id": workflow_id}) for workflow_id, (_, kind, _) in self.executions.items()]
        return [(kind, execution) for kind, execution in last if self.client.is_open(execution)]

    def wait(self):
        """Waits until all runs are closed, or the time is over. A signal that always comes to runs of a type comes again and
        again: an order that is not charged for yet can't be called off, and one that is would be held for a day."""
        while time.monotonic() < self.until:
            left = self.open_ones()
            if not left:
                return
            if any(service.worker.child.poll() is not None for service in self.services):
                raise Wrong("a bridge has ended by itself")
            for kind, execution in left:
                chance, name = SIGNALS.get(kind, (0, ""))
                if chance == 1:
                    self.client.signal(execution, name)
            time.sleep(5)

    def run(self):
        """Does all of it; what it takes is ended whatever comes."""
        try:
            # Before the workers, which are not started where the server refuses the first run.
            for number in range(self.asked.runs):
                self.start(number)
            for service in self.services:
                service.worker.start()
            self.say(f"{len(self.executions)} runs started on {', '.join(service.queue for service in self.services)}")
            time.sleep(self.asked.pause)
            self.disturb()
            self.ask()
            self.wrong += [f"{service.queue}: {fault}" for service in self.services for fault in service.worker.faults_of_pages()]
            self.kill_workers()
            time.sleep(self.asked.pause)
            self.disturb()
            self.ask()
            self.wait()
            self.ask(are_closed=True)
            self.wrong += self.services[0].worker.faults_of_pages(*METRICS_OF_CLOSED)
            self.try_alone()
            self.try_nowhere()
            self.try_trouble()
            self.try_policies()
            self.say(", ".join(f"{count} {what}" for what, count in self.done.items()))
        except (Wrong, KeyboardInterrupt) as why:
            self.wrong.append(str(why) or "interrupted")
        finally:
            self.clean_up()

    def clean_up(self):
        """Ends the workers, and terminates the runs that are open still."""
        for service in self.services:
            if service.worker.child is not None:
                status = service.worker.stop()
                if status != 0:
                    self.wrong.append(f"the worker of {service.queue} ended with {status}: {service.worker.report()[-500:]}")
        try:
            left = self.open_ones()
            self.wrong += [f"not closed: {execution['workflow_id']}" for _, execution in left]
            for _, execution in left:
                self.client.terminate(execution)
        except Wrong as why:
            self.wrong.append(f"cannot terminate what is open: {why}")

    # Histories.

    def judge(self, folder):
        """Writes the histories, and replays them: how many there are, and how many of them are closed."""
        count = closed = 0
        for at, service in enumerate(self.services):
            place = Path(folder, str(at))
            place.mkdir(parents=True, exist_ok=True)
            histories = dict(self.histories(service))
            for workflow_id, events in histories.items():
                Path(place, f"{workflow_id}.json").write_text(json.dumps({"events": events}))
            count += len(histories)
            closed += sum(is_closed(events) for events in histories.values())
            self.replay(service, place, len(histories))
        return count, closed

    def histories(self, service):
        """The histories of all runs of a service, of those that continue them, and of their children that its worker has
        code for."""
        for workflow_id, (own, _, execution) in self.executions.items():
            if own is service:
                events = self.client.history(execution)
                yield workflow_id, events
                yield from self.continuations(workflow_id, execution, events)
                for number, child in enumerate((event[CHILD] for event in events if CHILD in event), 1):
                    if child["workflowType"]["name"] in (*service.types, "Table"):
                        ids = child["workflowExecution"]
                        found = {"workflow_id": ids["workflowId"], "run_id": ids["runId"]}
                        yield f"{workflow_id}-child-{number}", self.client.history(found)

    def continuations(self, workflow_id, execution, events):
        """The histories of the runs that continue one with these events as new, of which each has to begin with what the one
        before hands on."""
        number = 0
        while events and CONTINUED in events[-1]:
            number, before = number + 1, carried_over(events)
            events = self.client.history({**execution, "run_id": events[-1][CONTINUED]["newExecutionRunId"]})
            if carried_over(events) != before:
                self.wrong.append(f"{workflow_id} hands {before} on, and run {number} after it begins with {carried_over(events)}")
            yield f"{workflow_id}-run-{number + 1}", events

    def replay(self, service, folder, count):
        """Notes what replay has to say against the histories of a folder."""
        ran = subprocess.run([*service.program, "replay", str(folder)], capture_output=True, text=True, timeout=REPLAY_SECONDS)
        lines = ran.stdout.splitlines()
        self.wrong += [line for line in lines if not re.search(r": ok, \d+ tasks$|^\d+ files, \d+ ok$", line)]
        if lines[-1:] != [f"{count} files, {count} ok"]:
            self.wrong.append(f"replay ends with {lines[-1:]} {ran.stderr[-300:]}")


def carried_over(events):
    """What a run with these events begins with and hands on."""
    started = events[0][STARTED] if events else {}
    return {name: started.get(name) for name in CARRIED_OVER}


def is_closed(events):
    """Whether the last event of a history closes its run."""
    ends = ("COMPLETED", "FAILED", "CANCELED", "TERMINATED", "TIMED_OUT", "CONTINUED_AS_NEW")
    return bool(events) and events[-1]["eventType"] in [f"EVENT_TYPE_WORKFLOW_EXECUTION_{end}" for end in ends]


class StandIn:
    """The stand-in as a server. With --api-key-file it asks for that key, over TLS."""

    def __init__(self, asked, queues):
        # So fast that its timers are short, and so slow that no activity times out while the way to it is away.
        words = [sys.executable, str(STAND_IN / "serve.py"), "--task-queues", ",".join(queues), "--speed", "2", "--policies"]
        self.room = tempfile.TemporaryDirectory()
        if asked.api_key_file:
            words += ["--tls", *self.certify(asked), "--api-key", Path(asked.api_key_file).read_text().strip()]
        self.child = subprocess.Popen(words, stdout=subprocess.PIPE, stderr=subprocess.PIPE, text=True)
        self.address = "127.0.0.1:" + self.child.stdout.readline().strip()

    def certify(self, asked):
        """Makes a private key and its certificate, which the bridge and the client take for the server's."""
        key, cert = (f"{self.room.name}/{name}" for name in ("key.pem", "cert.pem"))
        words = "req -x509 -newkey rsa:2048 -nodes -days 2 -subj /CN=localhost -addext subjectAltName=DNS:localhost"
        subprocess.run(["openssl", *words.split(), "-keyout", key, "-out", cert], check=True, capture_output=True)
        asked.tls_ca, asked.tls_server_name = cert, "localhost"
        return key, cert

    def stop(self):
        """What it has to say against the workers."""
        self.child.terminate()
        _, said = self.child.communicate(timeout=END_SECONDS)
        kept, is_own = [], False
        for line in said.splitlines():
            # What came of the last tasks of a run follows a fault in lines of its own.
            is_own = any(fault in line for fault in OWN_FAULTS) or is_own and line.startswith(" ")
            kept += [] if is_own else [line]
        return kept


def options():
    """The command line."""
    parser = argparse.ArgumentParser(description=__doc__, formatter_class=argparse.RawDescriptionHelpFormatter)
    where = parser.add_mutually_exclusive_group(required=True)
    where.add_argument("--address", help="host and port of the server")
    where.add_argument("--stand-in", action="store_true", help="start the stand-in in place of a server")
    parser.add_argument("--runs", type=int, default=60, help="runs to start (60)")
    parser.add_argument("--namespace", default="default", help="namespace of the runs and the workers (default)")
    parser.add_argument("--task-queue", help="task queue of the samples (otherwise one with a name of its own)")
    parser.add_argument("--minutes", type=float, default=10, help="how long it may take (10)")
    parser.add_argument("--pause", type=float, default=3, help="seconds before and after the kill (3)")
    parser.add_argument("--program", type=str.split, default=[str(PROGRAM)], help="another program with the samples, as words")
    parser.add_argument("--orders", type=str.split, help="the program of orders, as words, of which runs are started too")
    parser.add_argument("--bridge", default=support.BRIDGE, help="another bridge")
    parser.add_argument("--queries", action="store_true", help="asks each run three times, with the workers at work, again and after the end")
    parser.add_argument("--keep", help="a folder for the histories")
    parser.add_argument("--seed", type=int, default=1, help="which runs are signaled and asked to be canceled (1)")
    parser.add_argument("--tls", action="store_true", help="as for the bridge, as are the following")
    for name in BRIDGE_OPTIONS:
        parser.add_argument(name, metavar={"--api-key": "KEY", "--tls-server-name": "NAME"}.get(name, "FILE"))
    return parser.parse_args()


def try_all(asked, address):
    """The trial: its runs, and what is wrong."""
    try:
        trial = Trial(asked, address)
    except ImportError as missing:
        sys.exit(f"{missing}; install it by: pip install temporalio grpcio")
    except OSError as why:
        sys.exit(f"cannot read {why.filename}: {why.strerror}")
    trial.run()
    with tempfile.TemporaryDirectory() as room:
        try:
            return (*trial.judge(asked.keep or room), trial.wrong)
        except Wrong as why:
            return len(trial.executions), 0, [*trial.wrong, str(why)]


def main():
    signal.signal(signal.SIGTERM, signal.default_int_handler)
    asked, stand_in = options(), None
    if asked.stand_in:
        support.use_trimmed()
        asked.task_queue = asked.task_queue or "trial"
        stand_in = StandIn(asked, [asked.task_queue + end for end in QUEUES])
    runs, closed, wrong = try_all(asked, stand_in.address if stand_in else asked.address)
    wrong += stand_in.stop() if stand_in else []
    for what in wrong:
        print(f"  {what}")
    print(f"{runs} runs, {closed} closed, {len(wrong)} wrong")
    return 1 if wrong or closed < runs else 0


if __name__ == "__main__":
    sys.exit(main())
