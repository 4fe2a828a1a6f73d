"""What a run has to do, found from its own history: which commands each of its tasks has to give, or with which fault it
fails, and in which state it leaves the run.

docs/judge/DEFINITIONS.md says what the jobs of a task are, which commands are faults and which are sent. This is written from
that page alone. What a workflow does for a job is computed by a program:

    program.step(job)   returns the commands for a job, as `commands_in` below has them, and enters the state after it
    program.copy()      returns a program in the same state
    program.query(type, values)   returns the result of a query: `(True, JSON value)`, or `(False, text)`

A job is a tuple: ("start", payloads), ("signal", name, payloads), ("cancel",), ("activity", id, end, payloads),
("fired", id), ("child-started", id), ("child", id, end, payloads), ("version", change, number), ("sent",) and
("unsent",), which say what became of a signal. An end is `completed`, `failed`, `timed-out`, `canceled`, `terminated` or
`not-started`.
"""

import base64
import json

from messages import command_in

MOST_COMMANDS = 4_096
CLOSING = ("Complete", "Fail", "Cancel", "ContinueAsNew")
OPENING = {"StartActivity": "activity", "StartTimer": "timer", "StartChild": "child"}
CANCELLING = {"CancelActivity": "activity", "CancelTimer": "timer", "CancelChild": "child"}
# What a worker answers to the query type `__stack_trace`.
STACK_TRACE = "There is no stack trace: this worker runs a workflow as steps of a state, without coroutines."


class Payload(bytes):
    """The content of a payload, with its metadata."""

    metadata = {}

    def __repr__(self):
        more = {name: value for name, value in self.metadata.items() if name != "encoding"}
        return super().__repr__() + (f" with {more}" if more else "")

    def __eq__(self, other):
        return bytes(self) == bytes(other) and self.metadata == other.metadata

    def __ne__(self, other):
        return not self == other

    __hash__ = bytes.__hash__


def payloads_in(attributes, name):
    """Returns the payloads of a member."""
    found = []
    for one in (attributes.get(name) or {}).get("payloads", []):
        payload = Payload(base64.b64decode(one.get("data", "")))
        payload.metadata = {key: value for key, value in one.get("metadata", {}).items() if value}
        found.append(payload)
    return found


def lists_of_payloads(value):
    """Returns all lists named `payloads` in a JSON value."""
    if isinstance(value, list):
        return [found for one in value for found in lists_of_payloads(one)]
    if not isinstance(value, dict):
        return []
    own = [value] if isinstance(value.get("payloads"), list) else []
    return own + [found for one in value.values() for found in lists_of_payloads(one)]


def noted_in(value):
    """Returns the metadata that a worker notes of what came, under the data of the payload, where there are more than the
    encoding: of the same data those that came last."""
    found = [one for payloads in lists_of_payloads(value) for one in payloads_in({"all": payloads}, "all")]
    return {bytes(one): one.metadata for one in found if len(one.metadata) > 1}


def handed_on(payload, noted):
    """Returns a payload as it goes out, with what is noted under its data if that names its encoding."""
    metadata = noted.get(bytes(payload), {})
    if metadata.get("encoding") == payload.metadata.get("encoding"):
        payload = Payload(payload)
        payload.metadata = metadata
    return payload


def command_handed_on(command, noted):
    """Returns a command as it goes out."""
    return tuple([handed_on(one, noted) for one in part] if isinstance(part, list) else part for part in command)


def built_in(kind):
    """Returns what a query of a type that SDKs reserve gives."""
    if kind == "__stack_trace":
        return True, STACK_TRACE
    return False, f"built-in query types are not supported: {kind}"


def value_in(payloads):
    """Returns the JSON value of a marker's only payload."""
    (payload,) = payloads
    return json.loads(payload)


def commands_in(values):
    """Returns the commands of an answer, as programs give them, except that the cancellation of an activity has the
    number of the event that scheduled it."""
    return [READERS[kind](attributes) for kind, attributes, _ in map(command_in, values)]


READERS = {
    "SCHEDULE_ACTIVITY_TASK": lambda one: ("StartActivity", one["activityId"], one["activityType"]["name"], payloads_in(one, "input")),
    "REQUEST_CANCEL_ACTIVITY_TASK": lambda one: ("CancelActivity", int(one["scheduledEventId"])),
    "START_TIMER": lambda one: ("StartTimer", one["timerId"], one["startToFireTimeout"]),
    "CANCEL_TIMER": lambda one: ("CancelTimer", one["timerId"]),
    "START_CHILD_WORKFLOW_EXECUTION": lambda one: (
        "StartChild", one["workflowId"], one["workflowType"]["name"], payloads_in(one, "input")
    ),
    "REQUEST_CANCEL_EXTERNAL_WORKFLOW_EXECUTION": lambda one: ("CancelChild", one["workflowId"]),
    "SIGNAL_EXTERNAL_WORKFLOW_EXECUTION": lambda one: (
        "SignalExternal", one["execution"]["workflowId"], one["signalName"], payloads_in(one, "input")
    ),
    "RECORD_MARKER": lambda one: (
        "Marker", *(value_in(payloads_in(one["details"], name)) for name in ("change-id", "version"))
    ),
    "COMPLETE_WORKFLOW_EXECUTION": lambda one: ("Complete", payloads_in(one, "result")),
    "FAIL_WORKFLOW_EXECUTION": lambda one: ("Fail", one["failure"].get("message", "")),
    "CANCEL_WORKFLOW_EXECUTION": lambda one: ("Cancel",),
    "CONTINUE_AS_NEW_WORKFLOW_EXECUTION": lambda one: (
        "ContinueAsNew", one["workflowType"]["name"], payloads_in(one, "input")
    ),
}


class Fault(Exception):
    """Why a task fails."""


class Thing:
    """An activity, a timer or a child."""

    def __init__(self, number, kind, name):
        self.number, self.kind, self.name = number, kind, name
        self.is_open, self.is_cancelling = True, False

    def copy(self):
        other = Thing(self.number, self.kind, self.name)
        other.is_open, other.is_cancelling = self.is_open, self.is_cancelling
        return other


class Activation:
    """One task: it is given its jobs, and keeps the commands that result."""

    def __init__(self, course):
        self.program, self.versions = course.program, course.versions
        self.open = {(one.kind, one.name): one for one in course.things.values() if one.is_open}
        self.late = course.ended[: course.ends_before]
        self.issued, self.opened, self.canceled, self.is_closed = [], {}, set(), False

    def run(self, jobs):
        """Returns the commands that are sent. Raises a Fault if one of them is invalid."""
        for job in jobs:
            while job is not None:
                job = self.take(self.program.step(job))
        return [command for command in self.issued if command is not None]

    def take(self, commands):
        """Adds the commands of a step. If the last one asks for a version, returns the job that answers it."""
        for command in commands:
            if self.is_closed:
                raise Fault("AfterClosing")
            if len(self.issued) >= MOST_COMMANDS:
                raise Fault("TooManyCommands")
            if command[0] == "Ask":
                return self.ask(*command[1:])
            self.issue(command)
        return None

    def issue(self, command):
        kind, name = command[0], command[1] if len(command) > 1 else None
        if kind in OPENING:
            return self.start((OPENING[kind], name), command)
        if kind in CANCELLING:
            return self.cancel((CANCELLING[kind], name), kind)
        self.is_closed = kind in CLOSING
        self.issued.append(command)

    def start(self, thing, command):
        is_open = thing in self.open and not (thing[0] == "timer" and thing in self.canceled)
        if thing in self.opened:
            raise Fault("IdInUse" if self.opened[thing] is not None else "IdReused")
        if is_open:
            raise Fault("IdInUse")
        self.opened[thing] = len(self.issued)
        if thing[0] == "timer":
            seconds = command[2]
            command = (command[0], command[1], f"{seconds}s" if seconds else "0.001s")
        self.issued.append(command)

    def cancel(self, thing, kind):
        # What this task opened is withdrawn, and then not sent at all.
        if thing in self.opened:
            if self.opened[thing] is None:
                raise Fault("NotOpen")
            self.issued[self.opened[thing]] = None
            self.opened[thing] = None
            return self.issued.append(None)
        if thing not in self.open:
            if thing not in self.late:
                raise Fault("NotOpen")
            return self.issued.append(None)
        if thing in self.canceled or self.open[thing].is_cancelling:
            raise Fault("NotOpen" if thing[0] == "timer" else "AlreadyCancelling")
        self.canceled.add(thing)
        self.issued.append((kind, self.open[thing].number if thing[0] == "activity" else thing[1]))

    def ask(self, change, least, greatest):
        if greatest < least or least < -1 or greatest < 0:
            raise Fault("BadRange")
        version = self.versions.get(change, greatest)
        if not least <= version <= greatest:
            raise Fault("VersionOutOfRange")
        self.issued.append(None if change in self.versions else ("Marker", change, version))
        self.versions[change] = version
        return ("version", change, version)


class Course:
    """A run, followed by its history."""

    def __init__(self, begin):
        """`begin(kind, payloads)` makes a program."""
        self.begin, self.program, self.kind = begin, None, None
        self.count, self.things, self.versions, self.requests = 0, {}, {}, {}
        # The jobs since the last task that was completed, and what ended since then. The last task that was started is
        # given this many of both.
        self.jobs, self.ended, self.jobs_before, self.ends_before = [], [], 0, 0
        self.started, self.is_live = 0, False
        # What is noted of the payloads in its events.
        self.noted = {}

    def copy(self):
        other = Course(self.begin)
        other.__dict__.update(self.__dict__)
        other.program = self.program.copy()
        other.things = {number: thing.copy() for number, thing in self.things.items()}
        other.versions, other.jobs, other.ended = dict(self.versions), list(self.jobs), list(self.ended)
        other.noted = dict(self.noted)
        return other

    def read(self, events):
        """Continues with the events after those that were read. The list is the whole history."""
        for event in events[self.count :]:
            name = "".join(word.capitalize() for word in event["eventType"].split("_")[2:])
            attributes = event.get(name[0].lower() + name[1:] + "EventAttributes", {})
            self.noted.update(noted_in(attributes))
            getattr(self, "on_" + name, lambda *_: None)(int(event["eventId"]), attributes)
            self.count += 1

    def answered(self, events):
        """Returns the commands that a task has to give, by the events of its run from the first one. Raises a Fault if
        the task has to fail."""
        other = self.copy()
        other.read(events)
        return other.activated()

    def activated(self):
        commands = Activation(self).run(self.jobs[: self.jobs_before])
        return [command_handed_on(command, self.noted) for command in commands] if self.noted else commands

    def queried(self, kind, values):
        """Returns the result of a query after the last completed task: `(True, JSON value)` or `(False, text)`."""
        return built_in(kind) if kind.startswith("__") else self.program.query(kind, values)

    def queried_beside(self, kind, values):
        """Does the same after the task that is being processed. Nothing more can be read then."""
        try:
            self.activated()
        except Fault as fault:
            return False, f"task at {self.started}: {fault}"
        return self.queried(kind, values)

    # Tasks.

    def on_WorkflowTaskStarted(self, number, _):
        self.started, self.is_live = number, True
        self.jobs_before, self.ends_before = len(self.jobs), len(self.ended)

    def on_WorkflowTaskCompleted(self, *_):
        """The task was completed: the workflow has advanced by its jobs."""
        self.is_live = False
        self.activated()
        del self.jobs[: self.jobs_before], self.ended[: self.ends_before]

    def on_WorkflowTaskFailed(self, *_):
        self.is_live = False

    on_WorkflowTaskTimedOut = on_WorkflowTaskFailed

    # What comes to the run.

    def on_WorkflowExecutionStarted(self, _, attributes):
        self.kind, input = attributes["workflowType"]["name"], payloads_in(attributes, "input")
        self.program = self.begin(self.kind, input)
        self.jobs.append(("start", input))

    def on_WorkflowExecutionSignaled(self, _, attributes):
        """Adds a signal: signals come before everything else but the start."""
        place = next((at for at, job in enumerate(self.jobs) if job[0] not in ("start", "signal")), len(self.jobs))
        self.jobs.insert(place, ("signal", attributes["signalName"], payloads_in(attributes, "input")))

    def on_WorkflowExecutionCancelRequested(self, *_):
        self.jobs.append(("cancel",))

    # Activities, timers, children.

    def opened(self, number, kind, name):
        self.things[number] = Thing(number, kind, name)

    def ends(self, number):
        thing = self.things[int(number)]
        thing.is_open = False
        return thing

    def over(self, number, *job):
        """Notes that a thing has ended from outside."""
        thing = self.ends(number)
        self.ended.append((thing.kind, thing.name))
        self.jobs.append((job[0], thing.name, *job[1:]))

    def on_ActivityTaskScheduled(self, number, attributes):
        self.opened(number, "activity", attributes["activityId"])

    def on_ActivityTaskCancelRequested(self, _, attributes):
        self.things[int(attributes["scheduledEventId"])].is_cancelling = True

    def on_ActivityTaskCompleted(self, _, attributes):
        self.over(attributes["scheduledEventId"], "activity", "completed", payloads_in(attributes, "result"))

    def on_ActivityTaskFailed(self, _, attributes):
        self.over(attributes["scheduledEventId"], "activity", "failed", [])

    def on_ActivityTaskTimedOut(self, _, attributes):
        self.over(attributes["scheduledEventId"], "activity", "timed-out", [])

    def on_ActivityTaskCanceled(self, _, attributes):
        self.over(attributes["scheduledEventId"], "activity", "canceled", [])

    def on_TimerStarted(self, number, attributes):
        self.opened(number, "timer", attributes["timerId"])

    def on_TimerFired(self, _, attributes):
        self.over(attributes["startedEventId"], "fired")

    def on_TimerCanceled(self, _, attributes):
        self.ends(attributes["startedEventId"])

    def on_StartChildWorkflowExecutionInitiated(self, number, attributes):
        self.opened(number, "child", attributes["workflowId"])

    def on_RequestCancelExternalWorkflowExecutionInitiated(self, _, attributes):
        name = attributes["workflowExecution"]["workflowId"]
        for thing in self.things.values():
            if thing.is_open and (thing.kind, thing.name) == ("child", name):
                thing.is_cancelling = True

    def on_ExternalWorkflowExecutionSignaled(self, *_):
        self.jobs.append(("sent",))

    def on_SignalExternalWorkflowExecutionFailed(self, *_):
        self.jobs.append(("unsent",))

    def on_ChildWorkflowExecutionStarted(self, _, attributes):
        self.jobs.append(("child-started", self.things[int(attributes["initiatedEventId"])].name))

    def child_over(self, attributes, end):
        given = payloads_in(attributes, "result") if end == "completed" else []
        self.over(attributes["initiatedEventId"], "child", end, given)

    def on_ChildWorkflowExecutionCompleted(self, _, attributes):
        self.child_over(attributes, "completed")

    def on_ChildWorkflowExecutionFailed(self, _, attributes):
        self.child_over(attributes, "failed")

    def on_ChildWorkflowExecutionCanceled(self, _, attributes):
        self.child_over(attributes, "canceled")

    def on_ChildWorkflowExecutionTimedOut(self, _, attributes):
        self.child_over(attributes, "timed-out")

    def on_ChildWorkflowExecutionTerminated(self, _, attributes):
        self.child_over(attributes, "terminated")

    def on_StartChildWorkflowExecutionFailed(self, _, attributes):
        self.child_over(attributes, "not-started")


def fault_of(course, events, started, commands):
    """Returns what is wrong with the commands of the task that the event of this number started, or an empty text."""
    try:
        wanted = course.answered(events)
    except Fault as fault:
        return f"it gives {commands_in(commands)}, and not the fault task at {started}: {fault}"
    given = commands_in(commands)
    return "" if given == wanted else f"it gives {given}, and not {wanted}"
