"""Commands of a completed workflow task: which of them a server refuses, and what it does for the others."""

import base64
import json

from history import CARRIED_OVER, LAST_OF_ALL, Activity, Child, header_after, left_out
from messages import command_in, milliseconds_of

CLOSINGS = {
    "COMPLETE_WORKFLOW_EXECUTION": "WorkflowExecutionCompleted",
    "FAIL_WORKFLOW_EXECUTION": "WorkflowExecutionFailed",
    "CANCEL_WORKFLOW_EXECUTION": "WorkflowExecutionCanceled",
    "CONTINUE_AS_NEW_WORKFLOW_EXECUTION": "WorkflowExecutionContinuedAsNew",
}
# The timeouts of an activity that need not be set, as a server writes those that are not.
NO_TIMEOUTS = {name: "0s" for name in ("scheduleToCloseTimeout", "scheduleToStartTimeout", "heartbeatTimeout")}


def policy_fault(policy):
    """Returns why a server refuses a retry policy, or an empty text. A server does not look at one of a single attempt."""
    first, most = (milliseconds_of(policy.get(name, "0s")) for name in ("initialInterval", "maximumInterval"))
    if policy.get("maximumAttempts") == 1:
        return ""
    if policy.get("backoffCoefficient", 1) < 1:
        return "BackoffCoefficient cannot be less than 1 on retry policy."
    return "MaximumInterval cannot be less than InitialInterval on retry policy." if 0 < most < first else ""


class Check:
    """What is open while the commands of one answer are checked in their order."""

    def __init__(self, run, settings):
        self.run, self.settings = run, settings
        self.activities = {activity.id for activity in run.activities.values()}
        self.timers = set(run.timers)
        self.closed = False

    def fault(self, value):
        """Returns what is wrong with the next command, or an empty text."""
        kind, attributes, fault = command_in(value)
        if fault:
            return fault
        if self.closed:
            return f"{kind} stands after a closing command"
        self.closed = kind in CLOSINGS
        look = getattr(self, kind.lower(), None)
        return look(attributes) if look else ""

    def schedule_activity_task(self, attributes):
        name = attributes["activityId"]
        if name in self.activities:
            return f"the activity {name} is open already"
        self.activities.add(name)
        fault = policy_fault(attributes.get("retryPolicy", {})) if self.settings.has_policies else self.unasked(attributes)
        return fault or self.queue(attributes) or self.header(attributes)

    def unasked(self, attributes):
        """Returns which option differs from what a worker without policies sets, or an empty text."""
        if attributes.get("startToCloseTimeout") != self.settings.activity_timeout:
            return f"startToCloseTimeout is {attributes.get('startToCloseTimeout')}"
        most = self.settings.activity_attempts
        if attributes.get("retryPolicy", {}) != ({"maximumAttempts": most} if most else {}):
            return f"retryPolicy is {attributes.get('retryPolicy')}"
        strange = [name for name in ("heartbeatTimeout", "scheduleToStartTimeout", "scheduleToCloseTimeout") if name in attributes]
        return f"it has a {strange[0]}" if strange else ""

    def queue(self, attributes):
        name = attributes["taskQueue"]["name"]
        is_good = name in self.settings.queues if self.settings.has_policies else name == self.run.queue
        return "" if is_good else f"the task queue is {name}"

    def header(self, attributes):
        """Returns an empty text if the header is that which the run's start and its signals give."""
        found, wanted = attributes.get("header"), header_after(self.run.events)
        return "" if found == wanted else f"the header is {found}, not {wanted}"

    def first(self):
        return self.run.events[0]["workflowExecutionStartedEventAttributes"]

    def request_cancel_activity_task(self, attributes):
        scheduled = int(attributes["scheduledEventId"])
        activity = self.run.activities.get(scheduled)
        if activity is None and not has_held_end(self.run, scheduled):
            return f"no activity is open that the event {scheduled} scheduled"
        return "the activity is canceled already" if activity and activity.canceled else ""

    def start_timer(self, attributes):
        name = attributes["timerId"]
        if name in self.timers:
            return f"the timer {name} is open already"
        self.timers.add(name)
        return ""

    def cancel_timer(self, attributes):
        name = attributes["timerId"]
        if name not in self.timers and not has_held_timer(self.run, name):
            return f"the timer {name} is not open"
        self.timers.discard(name)
        return ""

    def start_child_workflow_execution(self, attributes):
        return self.queue(attributes) or self.namespace(attributes) or self.header(attributes)

    def namespace(self, attributes):
        name = attributes["namespace"]
        return "" if name == self.settings.namespace else f"the namespace is {name}"

    def request_cancel_external_workflow_execution(self, attributes):
        name = attributes["workflowId"]
        if not any(child.workflow_id == name for child in self.run.children.values()) and not self.run.held:
            return f"no child {name} is open"
        return self.namespace(attributes)

    def signal_external_workflow_execution(self, attributes):
        return self.namespace(attributes)

    def record_marker(self, attributes):
        try:
            change, version = (lone(attributes["details"][name]) for name in ("change-id", "version"))
        except ValueError:
            return "a marker's details are no JSON"
        good = isinstance(change, str) and change and type(version) is int
        return "" if good else f"a marker has {change!r} and {version!r}"

    def continue_as_new_workflow_execution(self, attributes):
        """Returns what is wrong with a Continue-As-New, or an empty text: the next run gets what this one carries
        over."""
        first = self.first()
        changed = [name for name in CARRIED_OVER if attributes.get(name) != first.get(name)]
        return self.queue(attributes) or (f"{changed[0]} is not that of the run" if changed else "")


def lone(payloads):
    """Returns the JSON value of the only payload."""
    (payload,) = payloads.get("payloads", [])
    return json.loads(base64.b64decode(payload.get("data", "")))


def has_held_end(run, scheduled):
    """Returns whether the end of an activity was held back."""
    ends = [attributes for kind, attributes, _, _ in run.held if kind in LAST_OF_ALL]
    return any(attributes_of(one).get("scheduledEventId") == str(scheduled) for one in ends)


def attributes_of(attributes):
    return attributes() if callable(attributes) else attributes


def has_held_timer(run, name):
    """Returns whether the firing of a timer was held back."""
    return any(kind == "TimerFired" and attributes["timerId"] == name for kind, attributes, _, _ in run.held)


def fault_of(run, commands, settings):
    """Returns what is wrong with the first command that has a fault, or an empty text."""
    check = Check(run, settings)
    faults = (check.fault(command) for command in commands)
    return next((fault for fault in faults if fault), "")


def closes(commands):
    """Returns whether one of the commands closes the run."""
    return any(command_in(command)[0] in CLOSINGS for command in commands)


def left_held(run, commands):
    """Returns what is held back and not removed by the cancellation of a timer."""
    kinds = [command_in(command)[:2] for command in commands]
    canceled = {attributes["timerId"] for kind, attributes in kinds if kind == "CANCEL_TIMER"} - set(run.timers)
    return [one for one in run.held if one[0] != "TimerFired" or one[1]["timerId"] not in canceled]


class Effects:
    """What the commands of a completed task do, one after another."""

    def __init__(self, run):
        self.run, self.server = run, run.server
        self.completed = str(run.next_number - 1)
        self.has_more = False

    def do(self, value):
        kind, attributes, _ = command_in(value)
        getattr(self, kind.lower())({**attributes, "workflowTaskCompletedEventId": self.completed})

    def schedule_activity_task(self, attributes):
        filled = {**NO_TIMEOUTS, **attributes}
        number = self.run.append("ActivityTaskScheduled", filled)
        activity = self.run.activities[number] = Activity(number, filled)
        self.server.activities.schedule(self.run, activity)

    def request_cancel_activity_task(self, attributes):
        scheduled = int(attributes["scheduledEventId"])
        number = self.run.append("ActivityTaskCancelRequested", attributes)
        activity = self.run.activities.get(scheduled)
        if activity is None:
            return
        activity.canceled, activity.cancel_requested = True, number
        if activity.started_at is None:
            del self.run.activities[scheduled]
            self.run.append("ActivityTaskCanceled", {"scheduledEventId": str(scheduled)})
            self.has_more = True

    def start_timer(self, attributes):
        number = self.run.append("TimerStarted", attributes)
        self.run.timers[attributes["timerId"]] = number
        delay = milliseconds_of(attributes["startToFireTimeout"])
        self.server.runs.start_timer(self.run, attributes["timerId"], number, delay)

    def cancel_timer(self, attributes):
        name = attributes["timerId"]
        number = self.run.timers.pop(name, None)
        if number is None:
            fired = next(one for one in self.run.held if one[0] == "TimerFired" and one[1]["timerId"] == name)
            self.run.held.remove(fired)
            number = int(fired[1]["startedEventId"])
            self.server.findings.counts["timers taken back"] += 1
        self.run.append("TimerCanceled", {**attributes, "startedEventId": str(number)})

    def start_child_workflow_execution(self, attributes):
        number = self.run.append("StartChildWorkflowExecutionInitiated", attributes)
        child = self.run.children[number] = Child(number, attributes["workflowId"])
        self.server.relations.start_child(self.run, child, attributes)

    def request_cancel_external_workflow_execution(self, attributes):
        made = {**attributes, "workflowExecution": {"workflowId": attributes["workflowId"]}}
        del made["workflowId"]
        number = self.run.append("RequestCancelExternalWorkflowExecutionInitiated", made)
        self.server.relations.cancel_child(self.run, number, attributes["workflowId"])

    def signal_external_workflow_execution(self, attributes):
        made = {**attributes, "workflowExecution": attributes["execution"]}
        del made["execution"]
        number = self.run.append("SignalExternalWorkflowExecutionInitiated", made)
        self.server.relations.signal_external(self.run, number, attributes)

    def record_marker(self, attributes):
        self.run.append("MarkerRecorded", attributes)

    def complete_workflow_execution(self, attributes):
        self.run.close("WorkflowExecutionCompleted", attributes)

    def fail_workflow_execution(self, attributes):
        self.run.close("WorkflowExecutionFailed", attributes)

    def cancel_workflow_execution(self, attributes):
        self.run.close("WorkflowExecutionCanceled", attributes)

    def continue_as_new_workflow_execution(self, attributes):
        self.run.close("WorkflowExecutionContinuedAsNew", left_out(attributes))


def apply(run, commands):
    """Writes the events of the commands of a task that was just completed, and then what was held back."""
    effects = Effects(run)
    for command in commands:
        effects.do(command)
    if run.closed is None and (run.flush() or effects.has_more):
        run.need_task()
