#!/usr/bin/env python3
"""A worker of some lines for the workflows that tests/loops.py follows beside a worker: it replays each history by
standin/courses.py, so it shows that the stand-in works, before there is a worker to be tried, and nothing about one.

    tests/loops.py --tables --queries --trouble all --program 'python3 tests/small_worker.py'
    tests/loops.py --orders --activity-workers 1 --program 'python3 tests/small_worker.py'

Its options are those of `work` that tests/loops.py gives. `--wrong KIND` makes a mistake now and then, which the stand-in
has to find (tests/stand_in.py): a state that the run is not in, commands without the first one, a query without an answer
(`silent`), payloads without a codec's `metadata`, the `header` of a run's start alone, a retry `policy` that no server takes, a
beat by the token of another task (`beat`) or of none (`token`), and one that hears of a cancel and goes on (`taken`)."""

import argparse
import base64
import json
import random
import re
import sys
from pathlib import Path

TOP = Path(__file__).resolve().parent.parent
sys.path[:0] = [str(TOP / "standin"), str(TOP / "tests")]
sys.dont_write_bytecode = True

from courses import Course, Fault, built_in, handed_on, noted_in, payloads_in  # noqa: E402
from history import header_after  # noqa: E402
from programs import PROGRAMS  # noqa: E402
from table_runs import TableProgram  # noqa: E402

PLAIN = base64.b64encode(b"json/plain").decode()
FAILED, ANSWERED = "QUERY_RESULT_TYPE_FAILED", "QUERY_RESULT_TYPE_ANSWERED"
NON_DETERMINISTIC = "WORKFLOW_TASK_FAILED_CAUSE_NON_DETERMINISTIC_ERROR"
UNHANDLED = "WORKFLOW_TASK_FAILED_CAUSE_WORKFLOW_WORKER_UNHANDLED_FAILURE"
TOO_LARGE = "WORKFLOW_TASK_FAILED_CAUSE_GRPC_MESSAGE_TOO_LARGE"
NOT_FOUND, INVALID, CANCELLED = 5, 3, 1
# Above so many labels a heartbeat is sent after each tenth alone.
MANY_LABELS = 50
# The codes of a poll that end the worker.
REFUSALS = (INVALID, NOT_FOUND, 7, 16)


class Unknown(Exception):
    """There is no code for the type of a run."""


def begin(kind, payloads):
    if kind in PROGRAMS:
        return PROGRAMS[kind]()
    if kind == "Table" or kind.startswith("Table:"):
        return TableProgram(kind, payloads)
    raise Unknown


def payload(content, metadata=None):
    return {"data": base64.b64encode(content).decode(), "metadata": {"encoding": PLAIN} if metadata is None else metadata}


def failure(message, **info):
    return {"applicationFailureInfo": info, "message": message, "source": "wfhost"}


def is_unknown(event):
    """Whether an event is of a type without a name, which is not to be passed over."""
    return re.fullmatch(r"EVENT_TYPE_\d+", event["eventType"]) and not event.get("workerMayIgnore")


def queues_in(path):
    """The Task Queues of activities in a file of policies, by their types, of which the empty one stands for all others."""
    text = Path(path).read_text() if path else ""
    return dict(re.findall(r'^\[activit(?:ies|y\.(\w+))\]\ntask_queue = "(.*)"', text, re.MULTILINE))


def mark(value):
    return {"payloads": [payload(json.dumps(value).encode())]}


class Worker:
    """All of it: polls, and what comes of their results."""

    def __init__(self, options):
        self.options, self.last_id, self.waiting = options, 0, {}
        self.dice = random.Random(options.identity)
        self.cached, self.beating, self.is_stopped, self.counts = {}, set(), False, dict.fromkeys(NAMES, 0)
        self.status = 0
        self.sticky = f"{options.identity}:{options.task_queue}" if options.cache else None
        self.queues = queues_in(options.policies)

    def call(self, method, params, then):
        self.last_id += 1
        self.waiting[self.last_id] = then
        request = {"id": self.last_id, "jsonrpc": "2.0", "method": method, "params": params | {"namespace": self.options.namespace}}
        line = json.dumps(request, sort_keys=True, separators=(",", ":"), ensure_ascii=False)
        sys.stdout.buffer.write(line.encode() + b"\n")
        sys.stdout.buffer.flush()

    def run(self):
        for number in range(self.options.workers):
            self.poll("Workflow", bool(self.sticky) and number % 5 != 0)
        for _ in range(self.options.activity_workers):
            self.poll("Activity", False)
        for line in sys.stdin.buffer:
            self.take(line)
            if self.is_stopped and not self.waiting:
                break
        # What its input's end left in hand counts as failed.
        self.counts["failed"] = self.counts["taken"] - sum(self.counts[name] for name in ("completed", "not found", "refused"))
        print("taken %d, completed %d, failed %d, in hand 0" % tuple(self.counts[name] for name in NAMES[:3]), file=sys.stderr)
        print("polls %d, empty polls %d, answers not found %d, answers refused %d" % tuple(self.counts[name] for name in NAMES[3:]),
              file=sys.stderr)

    def take(self, line):
        try:
            value = json.loads(line)
        except (ValueError, RecursionError):
            return
        if not isinstance(value, dict):
            return
        if value.get("method") == "shutdown":
            self.is_stopped = True
            if self.sticky:
                self.call("ShutdownWorker", {"identity": self.options.identity, "stickyTaskQueue": self.sticky}, lambda *_: None)
            return
        number = value.get("id")
        if type(number) is not int or number not in self.waiting or ("result" in value) == ("error" in value):
            return
        if "error" in value and not (isinstance(value["error"], dict) and type(value["error"].get("code")) is int):
            return
        self.waiting.pop(number)(value.get("result"), value.get("error"))

    # Polls.

    def poll(self, kind, is_sticky):
        if self.is_stopped:
            return
        queue = {"kind": "TASK_QUEUE_KIND_NORMAL", "name": self.options.task_queue}
        if is_sticky:
            queue = {"kind": "TASK_QUEUE_KIND_STICKY", "name": self.sticky, "normalName": self.options.task_queue}

        def again():
            self.poll(kind, is_sticky)

        def then(result, error):
            if error and error["code"] == CANCELLED:
                return
            self.counts["polls"] += 1
            self.counts["empty"] += result == {}
            if error and error["code"] in REFUSALS:
                print(f"{error['message']} (code {error['code']})", file=sys.stderr)
                self.is_stopped, self.status = True, 1
                return
            if not result:
                return again()
            getattr(self, kind.lower())(result, again)

        self.call(f"Poll{kind}TaskQueue", {"identity": self.options.identity, "taskQueue": queue}, then)

    # Histories.

    def workflow(self, task, again):
        """A workflow task, or a query."""
        if "query" not in task:
            self.counts["taken"] += 1
        key = task["workflowExecution"]["workflowId"], task["workflowExecution"]["runId"]
        events, token = list(task.get("history", {}).get("events", [])), task.get("nextPageToken")

        def more(result, error):
            if error:
                return self.give_up(task, error, again)
            events.extend(result.get("history", {}).get("events", []))
            if result.get("nextPageToken"):
                return self.fetch(task, result["nextPageToken"], more)
            self.whole(key, task, events, again)

        if token:
            return self.fetch(task, token, more)
        self.whole(key, task, events, again)

    def fetch(self, task, token, then):
        params = {"execution": task["workflowExecution"]}
        self.call("GetWorkflowExecutionHistory", params | ({"nextPageToken": token} if token else {}), then)

    def whole(self, key, task, events, again):
        """Replays the task, once its history is there from the first event on."""
        if events and events[0]["eventId"] == "1":
            return self.answer(key, task, events, again)
        held = self.cached.get(key)
        if "query" in task and held and len(held) == int(task.get("previousStartedEventId", 0)):
            # A task in hand counts as completed here.
            done = {"eventId": str(len(held) + 1), "eventType": "EVENT_TYPE_WORKFLOW_TASK_COMPLETED"}
            return self.answer(key, task, [*held, done], again)
        if held and events and int(events[0]["eventId"]) == len(held) + 1:
            return self.answer(key, task, held + events, again)
        found, last = [], list(events)

        def then(result, error):
            if error:
                return self.give_up(task, error, again)
            found.extend(result.get("history", {}).get("events", []))
            if result.get("nextPageToken"):
                return self.fetch(task, result["nextPageToken"], then)
            rest = [event for event in last if int(event["eventId"]) > len(found)]
            self.answer(key, task, found + rest, again)

        self.fetch(task, None, then)

    def give_up(self, task, error, again):
        if "query" in task:
            return self.respond_query(task, False, "the history can't be fetched", again)
        self.counts["failed"] += 1
        self.status = 1
        self.tell(task, error)
        again()

    # Answers.

    def answer(self, key, task, events, again):
        if "query" in task:
            return self.query(task, events, again)
        self.cached.pop(key, None)
        unknown = next(filter(is_unknown, events), None)
        if unknown:
            return self.fail(task, f"event {unknown['eventId']} has the unsupported type {unknown['eventType']}", again)
        try:
            course = Course(begin)
            if events[-1]["eventType"] != "EVENT_TYPE_WORKFLOW_TASK_STARTED":
                return self.fail(task, "not a task", again)
            course.read(events)
            commands = course.activated()
        except Unknown:
            return self.fail(task, "task at 1: UnknownWorkflow", again)
        except Fault as fault:
            return self.fail(task, f"task at {events[-1]['eventId']}: {fault}", again)
        if self.is_wrong("commands") and commands:
            commands = commands[1:]
        results = {}
        for name, query in task.get("queries", {}).items():
            if self.dice.random() < 0.2:
                continue
            is_answered, given = self.given(course, query)
            if is_answered:
                results[name] = {"resultType": ANSWERED, "answer": {"payloads": [payload(json.dumps(given).encode())]}}
            else:
                results[name] = {"resultType": FAILED, "errorMessage": given}
        params = {
            "commands": [self.written(command, events) for command in commands], "identity": self.options.identity,
            "queryResults": results, "taskToken": task["taskToken"],
        }
        if self.sticky:
            params["stickyAttributes"] = {"scheduleToStartTimeout": "10s", "workerTaskQueue": {
                "kind": "TASK_QUEUE_KIND_STICKY", "name": self.sticky, "normalName": self.options.task_queue}}

        def then(result, error):
            if error and "larger than max" in error["message"]:
                return self.fail(task, error["message"], again, TOO_LARGE)
            self.note(error, "completed")
            if error and error["code"] == INVALID:
                self.tell(task, error)
            if error is None and self.sticky and "resetHistoryEventId" not in result:
                self.cached[key] = events
                if len(self.cached) > self.options.cache:
                    del self.cached[next(iter(self.cached))]
            again()

        self.call("RespondWorkflowTaskCompleted", params, then)

    def tell(self, task, error):
        """Says why a call for a task has failed."""
        ids = task["workflowExecution"]
        print(f"{ids['workflowId']} {ids['runId']}: {error['message']} (code {error['code']})", file=sys.stderr)

    def is_wrong(self, kind):
        return self.options.wrong == kind and self.dice.random() < 0.05

    def given(self, course, query):
        """What a query gives at a course."""
        kind = query["queryType"]
        if kind == "__temporal_workflow_metadata":
            known = getattr(course.program, "known", "state")
            queries, signals = [known] if known != "none" else [], getattr(course.program, "signals", ())
            named = {f"{what}Definitions": [{"name": name} for name in names] for what, names in (("query", queries), ("signal", signals))}
            return True, {"definition": {**named, "type": course.kind}}
        if kind.startswith("__"):
            return built_in(kind)
        is_answered, given = course.program.query(kind, payloads_in(query, "queryArgs"))
        return is_answered, "elsewhere" if is_answered and self.is_wrong("state") else given

    def query(self, task, events, again):
        try:
            course = Course(begin)
            course.read(events)
            found = self.given(course, task["query"])
        except Unknown:
            found = False, "task at 1: UnknownWorkflow"
        if self.is_wrong("silent"):
            return again()
        self.respond_query(task, *found, again)

    def respond_query(self, task, is_answered, given, again):
        params = {"taskToken": task["taskToken"], "completedType": ANSWERED if is_answered else FAILED}
        if is_answered:
            params["queryResult"] = {"payloads": [payload(json.dumps(given).encode())]}
        else:
            params["errorMessage"] = given
        self.call("RespondQueryTaskCompleted", params, lambda *_: again())

    def note(self, error, outcome):
        """Counts a task that ended so, if the server took its answer."""
        self.counts[outcome if error is None else "not found" if error["code"] == NOT_FOUND else "refused"] += 1

    def fail(self, task, message, again, cause=UNHANDLED):
        if int(task.get("attempt", 1)) > 1:
            self.counts["failed"] += 1
            return again()
        params = {"cause": cause, "failure": failure(message), "identity": self.options.identity, "taskToken": task["taskToken"]}

        def then(_, error):
            self.note(error, "failed")
            again()

        self.call("RespondWorkflowTaskFailed", params, then)

    def listed(self, payloads):
        """Payloads as they came, with all their metadata."""
        is_wrong = self.is_wrong("metadata")
        kept = [{name: value for name, value in one.metadata.items() if name == "encoding" or not is_wrong} for one in payloads]
        return {"payloads": [payload(*one) for one in zip(payloads, kept)]}

    def queue_of(self, kind):
        """The Task Queue of activities of a type."""
        return {"name": self.queues.get(kind, self.queues.get("", self.options.task_queue))}

    def policy(self):
        policy = {"maximumAttempts": self.options.activity_attempts}
        return {"initialInterval": "60s", "maximumInterval": "10s"} if self.is_wrong("policy") else policy

    def written(self, command, events):
        """A command as JSON."""
        kind, words = command[0], command[1:]
        queue = {"name": self.options.task_queue}
        found = header_after(events[:1] if self.is_wrong("header") else events)
        header = {"header": found} if found else {}
        kinds = {
            "StartActivity": lambda: ("SCHEDULE_ACTIVITY_TASK", {
                "activityId": words[0], "activityType": {"name": words[1]}, "input": self.listed(words[2]), "retryPolicy": self.policy(),
                "startToCloseTimeout": f"{self.options.activity_timeout}s", "taskQueue": self.queue_of(words[1]),
                **header}),
            "CancelActivity": lambda: ("REQUEST_CANCEL_ACTIVITY_TASK", {"scheduledEventId": str(words[0])}),
            "StartTimer": lambda: ("START_TIMER", {"timerId": words[0], "startToFireTimeout": words[1]}),
            "CancelTimer": lambda: ("CANCEL_TIMER", {"timerId": words[0]}),
            "StartChild": lambda: ("START_CHILD_WORKFLOW_EXECUTION", {
                "workflowId": words[0], "workflowType": {"name": words[1]}, "input": self.listed(words[2]), "taskQueue": queue,
                "namespace": self.options.namespace, **header}),
            "CancelChild": lambda: ("REQUEST_CANCEL_EXTERNAL_WORKFLOW_EXECUTION", {
                "childWorkflowOnly": True, "namespace": self.options.namespace, "workflowId": words[0]}),
            "SignalExternal": lambda: ("SIGNAL_EXTERNAL_WORKFLOW_EXECUTION", {
                "execution": {"workflowId": words[0]}, "signalName": words[1], "input": self.listed(words[2]),
                "namespace": self.options.namespace}),
            "Marker": lambda: ("RECORD_MARKER", {"markerName": "Version", "details": {
                "change-id": mark(words[0]), "version": mark(words[1])}}),
            "Complete": lambda: ("COMPLETE_WORKFLOW_EXECUTION", {"result": self.listed(words[0])}),
            "Fail": lambda: ("FAIL_WORKFLOW_EXECUTION", {"failure": failure(words[0])}),
            "Cancel": lambda: ("CANCEL_WORKFLOW_EXECUTION", {}),
            "ContinueAsNew": lambda: ("CONTINUE_AS_NEW_WORKFLOW_EXECUTION", {
                "workflowType": {"name": words[0]}, "input": self.listed(words[1]), "taskQueue": queue,
                **started(events, "memo", "retryPolicy", "searchAttributes")}),
        }
        name, attributes = kinds[kind]()
        parts = [word.capitalize() for word in name.split("_")]
        member = parts[0].lower() + "".join(parts[1:]) + "CommandAttributes"
        return {"commandType": "COMMAND_TYPE_" + name, member: attributes}

    # Activities.

    def activity(self, task, again):
        self.counts["taken"] += 1
        kind, input = task["activityType"]["name"], task.get("input", {"payloads": []})
        if kind in ("ChargeCard", "Charge"):
            given = [handed_on(one, noted_in(input)) for one in payloads_in(task, "input")]
            return self.end(task, "completed", "Completed", {"result": self.listed(given)}, again)
        if kind != "PrintLabels":
            unknown = failure("no such activity", type="NotFoundError", nonRetryable=True)
            return self.end(task, "completed", "Failed", {"failure": unknown}, again)
        told = task.get("heartbeatDetails", {}).get("payloads", [])
        self.beat(task, int(base64.b64decode(told[0]["data"])) if told else 0, again)

    def beat(self, task, beats, again):
        """Beats after each payload from the one of this number on, and then completes the activity, unless it is to be given
        up."""
        params = {"identity": self.options.identity, "taskToken": task["taskToken"]}
        labels = len(task.get("input", {}).get("payloads", []))
        if beats == labels:
            return self.end(task, "completed", "Completed", {"result": {"payloads": [payload(f"{labels}".encode())]}}, again)

        def then(result, error):
            if error is not None and error["code"] == NOT_FOUND:
                return self.end(task, "completed", "Failed", {"failure": failure("called off")}, again)
            if result and result.get("cancelRequested") and not self.options.wrong == "taken":
                details = {"payloads": [payload(b'"called off"')]}
                return self.end(task, "completed", "Canceled", {"details": details}, again)
            self.beat(task, told, again)

        told = beats + 1 if labels <= MANY_LABELS else min(beats + 10, labels)
        details = {"payloads": [payload(str(told).encode())]}
        if self.is_wrong("token"):
            params["taskToken"] = base64.b64encode(b"activity 1000000").decode()
        if self.is_wrong("beat"):
            others = [one for one in self.beating if one != task["taskToken"]]
            params["taskToken"] = self.dice.choice(others or [task["taskToken"]])
        self.beating.add(task["taskToken"])
        self.call("RecordActivityTaskHeartbeat", params | {"details": details}, then)

    def end(self, task, count, kind, more, again):
        def then(_, error):
            self.beating.discard(task["taskToken"])
            self.note(error, count)
            again()

        self.call("RespondActivityTask" + kind, {"identity": self.options.identity, "taskToken": task["taskToken"], **more}, then)


NAMES = ("taken", "completed", "failed", "polls", "empty", "not found", "refused")


def started(events, *names):
    """Those of these members that the first event has."""
    first = events[0]["workflowExecutionStartedEventAttributes"]
    return {name: first[name] for name in names if name in first}


def main():
    if sys.argv[1:2] == ["replay"]:
        count = len(list(Path(sys.argv[2]).iterdir()))
        print(f"{count} files, {count} ok")
        return 0
    parser = argparse.ArgumentParser(description=__doc__, formatter_class=argparse.RawDescriptionHelpFormatter)
    parser.add_argument("work", choices=["work"])
    for name in ("task-queue", "namespace", "identity", "wrong", "policies", "metrics"):
        parser.add_argument("--" + name)
    defaults = {"workers": 4, "activity-workers": 0, "cache": 10, "activity-timeout": 60, "activity-attempts": 1, "sticky-timeout": 10}
    for name, default in defaults.items():
        parser.add_argument("--" + name, type=int, default=default)
    worker = Worker(parser.parse_args())
    worker.run()
    return worker.status


if __name__ == "__main__":
    sys.exit(main())
