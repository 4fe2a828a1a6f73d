"""The calls of the server: how long each is tried, and what its failure means."""

from __future__ import annotations

import json
import math
import threading
import time
from argparse import Namespace
from functools import lru_cache
from typing import Any, Dict, Optional, Tuple

import grpc
from google.protobuf import json_format
from temporalio.api.workflowservice import v1 as messages

from connections import Connections
from counts import Counts, Readiness
from report import say
from task_counts import TaskCounts

# The server answers a poll without a task within a minute. One that ends after more than LATE_SECONDS got no response.
POLL_SECONDS, LATE_SECONDS = 70, 69
CALL_SECONDS = 10
# How long a heartbeat waits for its response. It is made once, since a handler waits meanwhile, and its next one tells more.
HEARTBEAT, HEARTBEAT_SECONDS = "RecordActivityTaskHeartbeat", 5
# How long the answer of an activity is tried: until its timeout, and for a minute at least; after a stop, for a minute at most.
ACTIVITY_SECONDS = 60
# The waits before a call is made again: the first one, and the longest of a poll, of an activity's answer, of others.
FIRST_WAIT, POLL_WAIT, ACTIVITY_WAIT, LONGEST_WAIT = 0.1, 5.0, 5.0, 2.0
# After a poll that ends without a task in less than QUICK_SECONDS comes a pause, of LONGEST_PAUSE at most.
QUICK_SECONDS, LONGEST_PAUSE = 1.0, 1.0
# A poll that is refused, or hangs, is reported once in so many seconds.
REPORT_SECONDS = 60
# Above so many activity tasks, those whose time is over are forgotten.
MANY_TASKS = 1_000
# How many poll requests are kept parsed.
MOST_POLLS = 80
CANCELLED, INVALID, DEADLINE, NOT_FOUND, DENIED, EXHAUSTED = 1, 3, 4, 5, 7, 8
UNIMPLEMENTED, INTERNAL, UNAVAILABLE, UNAUTHENTICATED = 12, 13, 14, 16
# The codes after which a call is retried: those after which Temporal's own workers retry, and that of a call which was
# canceled by a proxy, or by a server that shuts down.
PASSING = (CANCELLED, 2, EXHAUSTED, 10, 11, INTERNAL, UNAVAILABLE, 15)
# The answer of an activity is retried too where its response was late, or the key or certificate is being changed.
PASSING_OF_ACTIVITIES = (*PASSING, DEADLINE, DENIED, UNAUTHENTICATED)
# How gRPC says, in C and Go or in Java, that a message is too large: a retry would not help.
TOO_LARGE = ("larger than max", "exceeds maximum size")
# The codes that end the worker if polls keep getting them, and what to do about each. A proxy, or a server that starts, gives
# them in passing.
REFUSALS = {
    INVALID: "check the names of the Task Queue and of the namespace {namespace}",
    NOT_FOUND: "check that {address} has the namespace {namespace}",
    DENIED: "check that the key or the certificate may use the namespace {namespace}",
    UNAUTHENTICATED: "check that the key or the certificate is one of {address}, and has not expired",
}
# What is lost with a call, by the beginning of its name.
LOSSES = {
    "GetWorkflowExecutionHistory": "its task is given up, and comes again",
    "RespondWorkflowTask": "the answer is lost, and its task comes again",
    "RespondActivityTask": "the answer is lost, and the activity times out",
    "RespondQueryTask": "the answer is lost",
    "ShutdownWorker": "the sticky queue is not given up",
    HEARTBEAT: "the heartbeat is lost",
}

Error = Tuple[int, str]
Outcome = Tuple[Optional[Dict[str, Any]], Optional[Error]]
SHUTDOWN: Outcome = (None, (CANCELLED, "shutdown"))


@lru_cache(maxsize=MOST_POLLS)
def poll_message(made: type, params: str) -> Any:
    """Returns the message of a poll, by the JSON text of its params, which are mostly those of an earlier one."""
    return json_format.ParseDict(json.loads(params), made(), ignore_unknown_fields=True)


def tells_of_discarded_tasks() -> bool:
    """Returns whether the package knows the field that says that a task was discarded. Without it the host would cache a run
    whose last events are in no history."""
    return "reset_history_event_id" in messages.RespondWorkflowTaskCompletedResponse.DESCRIPTOR.fields_by_name


def run_of(execution: Dict[str, Any]) -> str:
    """Returns the ids of a run."""
    return f"{execution.get('workflowId')} {execution.get('runId')}"


def seconds_of(duration: str) -> float:
    """Returns the seconds of a duration as JSON, such as `1.500s`."""
    return float(duration[:-1])


class Pauses:
    """The pauses after polls that end at once without a task. Those of a Task Queue grow, until it has a task."""

    def __init__(self) -> None:
        self.lock = threading.Lock()
        # The pause after the last poll of a Task Queue, and since when.
        self.held: Dict[str, Tuple[float, float]] = {}

    def next(self, queue: str) -> float:
        """Returns the next pause: twice the last one, or the last one again while it is not over, so that many polls at once
        count as one."""
        now = time.monotonic()
        with self.lock:
            pause, since = self.held.get(queue, (FIRST_WAIT / 2, 0))
            if now - since >= pause:
                pause, since = min(2 * pause, LONGEST_PAUSE), now
                self.held[queue] = pause, since
            return pause

    def reset(self, queue: str) -> None:
        """Lets the pauses of a Task Queue begin anew."""
        with self.lock:
            self.held.pop(queue, None)


class Reports:
    """What was reported, and when."""

    def __init__(self) -> None:
        self.lock = threading.Lock()
        self.last: Dict[Tuple[str, Any], float] = {}

    def add(self, what: Tuple[str, Any], text: str, longest: float = REPORT_SECONDS) -> None:
        """Reports something, unless the same was reported in so many seconds."""
        now = time.monotonic()
        with self.lock:
            is_new = what not in self.last or now - self.last[what] >= longest
            if is_new:
                self.last[what] = now
        if is_new:
            say(text)


class Tokens:
    """The tasks of activities that are in hand, by their tokens: what each is called, and until when its answer may be
    tried."""

    def __init__(self) -> None:
        self.lock = threading.Lock()
        self.tasks: Dict[str, Tuple[str, float]] = {}

    def add(self, task: Dict[str, Any]) -> None:
        """Notes a task that a poll gave. A server writes a timeout that is not set as 0."""
        timeouts = [seconds_of(task.get(name, "0s")) for name in ("startToCloseTimeout", "scheduleToCloseTimeout")]
        now = time.monotonic()
        until = now + max(ACTIVITY_SECONDS, min(filter(None, timeouts), default=0))
        name = f"{task.get('activityType', {}).get('name')} of {run_of(task.get('workflowExecution', {}))}"
        with self.lock:
            if len(self.tasks) >= MANY_TASKS:
                self.tasks = {token: held for token, held in self.tasks.items() if held[1] > now}
            self.tasks[task["taskToken"]] = name, until

    def of(self, token: Any) -> Tuple[str, float]:
        """Returns the name of a task, and until when it may be answered: a minute from now at least."""
        now = time.monotonic()
        with self.lock:
            name, until = self.tasks.get(token, ("", now))
        return name, max(until, now + ACTIVITY_SECONDS)

    def remove(self, token: Any) -> None:
        """Forgets a task that was answered."""
        with self.lock:
            self.tasks.pop(token, None)


class Calls:
    """Makes the calls."""

    def __init__(self, found: Namespace):
        self.found, self.connections = found, Connections(found)
        self.counts, self.tasks, self.readiness = Counts(), TaskCounts(), Readiness()
        # Nobody sees the counts unless they are served.
        self.is_counted = bool(found.listen)
        self.pauses, self.tokens, self.reports = Pauses(), Tokens(), Reports()
        self.is_stopped, self.stopped = threading.Event(), 0.0

    def stop(self) -> None:
        """Cancels the polls, and lets no more be made."""
        self.stopped = time.monotonic()
        self.is_stopped.set()
        self.connections.close_polls()

    def watch(self) -> None:
        """Takes the files of certificates and of the key again when they change."""
        self.connections.watch(self.is_stopped)

    def is_ready(self) -> bool:
        """Returns whether the bridge goes on, and its polls succeed."""
        return not self.is_stopped.is_set() and self.readiness.is_ready()

    def greet(self, longest: float) -> bool:
        """Returns whether the server answers within this many seconds, or at once; reports why if it does not."""
        until = time.monotonic() + longest
        while True:
            _, error = self.ask("GetSystemInfo", messages.GetSystemInfoRequest(), CALL_SECONDS)
            if error is None or error[0] in (INVALID, UNIMPLEMENTED):
                return True
            if error[0] not in (*PASSING, DEADLINE) or time.monotonic() >= until:
                say(f"no connection to {self.found.address}: {error[1]}")
                return False
            time.sleep(FIRST_WAIT)

    def outcome(self, method: str, params: Any) -> Outcome:
        """Makes the call of a request. Returns its result, or a code and a message."""
        made = getattr(messages, method + "Request", None)
        if made is None:
            return None, (UNIMPLEMENTED, f"no call {method}")
        if not isinstance(params, dict):
            return None, (INTERNAL, "the params are no object")
        if method.startswith("Poll"):
            return self.poll(method, poll_message(made, json.dumps(params)))
        return self.insist(method, json_format.ParseDict(params, made(), ignore_unknown_fields=True), params)

    def ask(self, method: str, request: Any, longest: float) -> Outcome:
        """Makes one call. Returns its result, or a code and a message."""
        connections, namespace = self.connections, getattr(request, "namespace", "")
        call = connections.now.stub(method, type(request), getattr(messages, method + "Response"))
        begun, response, failure = time.monotonic(), None, None
        try:
            response = call(request, timeout=longest, metadata=connections.beside(namespace))
        except grpc.RpcError as why:
            failure = why
        if self.is_counted:
            self.count(method, namespace or self.found.namespace, time.monotonic() - begun, failure and failure.code())
        if failure is not None:
            return None, (failure.code().value[0], failure.details() or failure.code().name)
        if self.is_counted:
            self.tasks.add(method, namespace or self.found.namespace, request, response)
        result = json_format.MessageToDict(response)
        self.name_events(result, request)
        return result, None

    def count(self, method: str, namespace: str, took: float, code: Optional[grpc.StatusCode]) -> None:
        """Counts a call, with its code if it has failed."""
        has_failed = code and not (method.startswith("Poll") and self.is_normal(code.value[0], took))
        self.counts.add(namespace, method, took, code.name if code and has_failed else None)

    def is_normal(self, code: int, took: float) -> bool:
        """Returns whether a poll that ends with this code after so many seconds has not failed: the bridge stops, or the poll
        was empty. One that ends with DEADLINE_EXCEEDED at once, or gets no response, may
        be one that no server saw."""
        return code == CANCELLED and self.is_stopped.is_set() or code == DEADLINE and QUICK_SECONDS <= took <= LATE_SECONDS

    def name_events(self, result: Dict[str, Any], request: Any) -> None:
        """Gives a name to each type of event that the package does not know and gives as a number. Reports the first event of
        each such type that a worker may not ignore."""
        for event in result.get("history", {}).get("events", ()):
            kind = event.get("eventType")
            if isinstance(kind, int):
                event["eventType"] = f"EVENT_TYPE_{kind}"
                if not event.get("workerMayIgnore"):
                    run = run_of(result.get("workflowExecution") or json_format.MessageToDict(request.execution))
                    has = f"event {event.get('eventId')} of {run} has the type {kind}"
                    what = "which this package temporalio does not know: pip install --upgrade temporalio"
                    self.reports.add(("event", kind), f"{has}, {what}", math.inf)

    # Polls.

    def poll(self, method: str, request: Any) -> Outcome:
        """Makes a poll, again and again while it is refused in passing."""
        queue = getattr(request, "task_queue", None)
        name, wait = f"{method} of {queue.name}" if queue else method, FIRST_WAIT
        begun: Optional[float] = None
        while True:
            result, error = self.poll_once(name, method, request)
            if error is None or error == SHUTDOWN[1]:
                return result, error
            if error[0] not in REFUSALS:
                return None, (error[0], f"{name}: {error[1]}; made again")
            now = time.monotonic()
            begun = begun or now
            left = begun + self.found.poll_grace - now
            self.report_refusal(name, request, error, left > 0)
            if left <= 0:
                return None, (error[0], f"{name}: {error[1]}; not made again")
            if self.is_stopped.wait(min(wait, left)):
                return SHUTDOWN
            wait = min(2 * wait, POLL_WAIT)

    def report_refusal(self, name: str, request: Any, error: Error, is_made_again: bool) -> None:
        """Reports a refusal, once a minute for the polls of a Task Queue."""
        (code, text), grace = error, f"{self.found.poll_grace:g} s"
        line = f"{name} is refused: {text} (code {code}); made again for {grace}"
        if not is_made_again:
            namespace = request.namespace or self.found.namespace
            what = REFUSALS[code].format(address=self.found.address, namespace=namespace)
            line = f"{name} was refused for {grace}: {text} (code {code}); {what}"
        self.reports.add((name, is_made_again), line)

    def poll_once(self, name: str, method: str, request: Any) -> Outcome:
        """Makes a poll once. One that gets no task in time is an empty one. One that is canceled, but not by a shutdown,
        was canceled by a proxy, or by a server that shuts down: a later one may get a task."""
        begun, number, is_good = time.monotonic(), self.readiness.begin(name), False
        try:
            result, error = self.ask(method, request, POLL_SECONDS)
            is_good = error is None or self.is_normal(error[0], time.monotonic() - begun)
        except ValueError:
            if not self.is_stopped.is_set():
                raise
            return SHUTDOWN  # The channel was closed.
        finally:
            self.readiness.end(number, is_good, time.monotonic() - begun > LATE_SECONDS)
        if error is not None and error[0] == CANCELLED:
            return SHUTDOWN if self.is_stopped.is_set() else (None, (UNAVAILABLE, error[1]))
        if error is not None and error[0] != DEADLINE:
            return None, error
        self.take(name, method, result, time.monotonic() - begun)
        return result or {}, None

    def take(self, name: str, method: str, task: Optional[Dict[str, Any]], took: float) -> None:
        """Notes a task; without one, pauses if the poll ended at once."""
        if task:
            self.pauses.reset(name)
            if method == "PollActivityTaskQueue" and "taskToken" in task:
                self.tokens.add(task)
        elif took < QUICK_SECONDS:
            self.is_stopped.wait(self.pauses.next(name))
        elif took > LATE_SECONDS:
            what = f"got no response in {POLL_SECONDS} s, and a server gives one in a minute; made again"
            self.reports.add((name, "hangs"), f"{name} {what}")

    # Other calls.

    def insist(self, method: str, request: Any, params: Dict[str, Any]) -> Outcome:
        """Makes any other call, and retries it for a while after each code that may pass. A heartbeat is not retried."""
        if method == HEARTBEAT:
            result, error = self.ask(method, request, HEARTBEAT_SECONDS)
            return result, error and self.told(method, "", error, None)
        of_activity, token = method.startswith("RespondActivityTask"), params.get("taskToken")
        name, until = self.tokens.of(token) if of_activity else ("", time.monotonic() + CALL_SECONDS)
        passing = PASSING_OF_ACTIVITIES if of_activity else PASSING
        longest_wait = ACTIVITY_WAIT if of_activity else LONGEST_WAIT
        begun, wait = time.monotonic(), FIRST_WAIT
        while True:
            result, error = self.ask(method, request, CALL_SECONDS)
            is_final = error is None or error[0] not in passing or any(words in error[1] for words in TOO_LARGE)
            if is_final or time.monotonic() + wait > self.end_of(begun, until):
                break
            time.sleep(wait)
            wait = min(2 * wait, longest_wait)
        if of_activity:
            self.tokens.remove(token)
        return result, error and self.told(method, name, error, None if is_final else time.monotonic() - begun)

    def end_of(self, begun: float, until: float) -> float:
        """Returns when a call is given up: once the bridge was told to stop no later than a minute after that, or after the
        call began."""
        return min(until, max(self.stopped, begun) + ACTIVITY_SECONDS) if self.is_stopped.is_set() else until

    def told(self, method: str, name: str, error: Error, tried: Optional[float]) -> Error:
        """Returns an error whose text says which call failed, of which activity, for how many seconds it was tried, and what
        is lost. The host names the run of a workflow task, and reads the texts of answers with code 3 or 5, and of messages
        that are too large; these stay as they are."""
        code, text = error
        if code in (INVALID, NOT_FOUND) and method.startswith("Respond") or any(words in text for words in TOO_LARGE):
            return error
        loss = next((loss for begin, loss in LOSSES.items() if method.startswith(begin)), "")
        parts = [f"{text}, tried for {tried:.0f} s" if tried else text, *filter(None, [loss])]
        return code, f"{method}{' of ' if name else ''}{name}: {'; '.join(parts)}"
