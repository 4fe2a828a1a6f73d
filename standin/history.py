"""Runs: their histories, what is open in them, and their workflow tasks.

A run writes its events as a Temporal server does. What comes in from outside while a workflow task is being processed
is held back, and is written after the events of the task's commands, with its own earlier time. A task that directly
follows a failed one is written only once it is completed: until then only the worker is shown its two events. So is a
speculative task, which an update gives to a run that has no task: it is written once it is completed with commands, or
something else is written; completed without commands, it leaves no event.
"""

from datetime import datetime, timedelta, timezone

from findings import Account

FIRST = datetime(2024, 5, 1, 10, 0, 0, tzinfo=timezone.utc)
# Ends of activities and children are written after all else that was held back.
LAST_OF_ALL = ("ActivityTaskCompleted", "ActivityTaskFailed", "ActivityTaskTimedOut", "ActivityTaskCanceled")
LAST_OF_ALL += tuple(f"ChildWorkflowExecution{end}" for end in ("Completed", "Failed", "Canceled", "TimedOut", "Terminated"))
# The attributes of the events that bring a header.
BRINGS_HEADER = ("workflowExecutionStartedEventAttributes", "workflowExecutionSignaledEventAttributes")
# What a run carries over to the one that continues it.
CARRIED_OVER = ("memo", "retryPolicy", "searchAttributes")


def time_text(now):
    """Returns a time in milliseconds from the beginning, in the form of RFC 3339."""
    moment = FIRST + timedelta(milliseconds=now)
    return f"{moment:%Y-%m-%dT%H:%M:%S}.{now % 1000:03}Z"


def type_name(kind):
    """Returns the name of an event's type, as in proto3 JSON."""
    return "EVENT_TYPE" + "".join("_" + letter.upper() if letter.isupper() else letter.upper() for letter in kind)


def event_of(number, time, kind, attributes):
    """Returns an event in proto3 JSON."""
    name = kind[0].lower() + kind[1:] + "EventAttributes"
    return {"eventId": str(number), "eventTime": time_text(time), "eventType": type_name(kind), name: attributes}


def left_out(members):
    """Returns the members without those that have no value, which proto3 JSON omits."""
    return {name: value for name, value in members.items() if value not in (None, "", [], 0)}


def carried_over(members):
    """Returns those of a run's first members with which the run that continues it begins too."""
    return {name: members[name] for name in CARRIED_OVER if name in members}


def header_after(events):
    """Returns the header that these events of a run give: of each field the value that came last. Without a field there is none."""
    headers = [event[name].get("header", {}) for event in events for name in BRINGS_HEADER if name in event]
    fields = {name: value for header in headers for name, value in header.get("fields", {}).items()}
    return {"fields": fields} if fields else None


class Activity:
    """An activity that has not ended."""

    def __init__(self, scheduled, attributes):
        self.scheduled = scheduled
        self.id = attributes["activityId"]
        self.kind = attributes["activityType"]["name"]
        self.queue = attributes["taskQueue"]["name"]
        self.input, self.header = attributes.get("input"), attributes.get("header")
        # What a worker sets, over what a server takes otherwise.
        self.policy = {"initialInterval": "1s", "backoffCoefficient": 2, "maximumInterval": "100s", **attributes.get("retryPolicy", {})}
        self.whole_timeout, self.heartbeat = attributes["scheduleToCloseTimeout"], attributes["heartbeatTimeout"]
        self.timeout = attributes.get("startToCloseTimeout", "60s")
        self.attempt = 1
        self.token = None
        self.first_scheduled_at = self.scheduled_at = self.started_at = None
        self.started = None
        self.canceled = False
        # The number of the event that requests its cancellation, the details of its last heartbeat, those with which this
        # attempt was given to a worker, and when the last heartbeat came.
        self.cancel_requested = 0
        self.details = self.given_details = self.beaten_at = None

    def may_be_tried_again(self, failure):
        """Returns whether there are attempts left, and the failure allows one."""
        info, most = failure.get("applicationFailureInfo", {}), self.policy.get("maximumAttempts", 0)
        is_last = info.get("nonRetryable") or info.get("type") in self.policy.get("nonRetryableErrorTypes", [])
        return not (is_last or self.canceled or (most and self.attempt >= most))


class Child:
    """A child workflow that has not ended, started or not."""

    def __init__(self, initiated, workflow_id):
        self.initiated = initiated
        self.workflow_id = workflow_id
        self.run = None
        self.started = 0


class Task:
    """A workflow task that is scheduled or being processed."""

    def __init__(self, scheduled, attempt, time, queue, is_speculative):
        self.scheduled = scheduled
        self.is_speculative = is_speculative
        self.attempt = attempt
        self.time = time
        self.queue = queue
        self.started = None
        self.started_time = None
        self.token = None
        self.queries = {}

    @property
    def is_written(self):
        return self.attempt == 1 and not self.is_speculative


class Run:
    """One run of a workflow."""

    def __init__(self, server, workflow_id, run_id, kind, queue, parent=None, input=None, continued=None, carried=None):
        self.server = server
        self.workflow_id, self.run_id, self.kind, self.queue = workflow_id, run_id, kind, queue
        self.parent = parent
        self.events, self.held = [], []
        self.closed = None
        self.task, self.attempt = None, 1
        self.sticky = None
        self.before = 0
        self.activities, self.timers, self.due, self.children = {}, {}, {}, {}
        self.is_canceled = False
        self.account = Account(server.clock)
        started = {
            "workflowType": {"name": kind},
            "taskQueue": {"name": queue, "kind": "TASK_QUEUE_KIND_NORMAL"},
            "input": input,
            "originalExecutionRunId": run_id,
            "continuedExecutionRunId": continued,
            "attempt": 1,
            "workflowId": workflow_id,
            **(carried or {}),
        }
        if parent:
            started["parentWorkflowExecution"] = parent[0].execution
            started["parentInitiatedEventId"] = str(parent[1])
        self.append("WorkflowExecutionStarted", left_out(started))

    @property
    def execution(self):
        return {"workflowId": self.workflow_id, "runId": self.run_id}

    @property
    def next_number(self):
        return len(self.events) + 1

    @property
    def is_in_hand(self):
        return self.task is not None and self.task.started is not None

    # Events.

    def append(self, kind, attributes, time=None):
        """Writes an event and returns its number."""
        number = self.next_number
        self.events.append(event_of(number, self.server.clock.now if time is None else time, kind, attributes))
        return number

    def come_in(self, kind, attributes, note=None):
        """Adds an event from outside: it is written, or held back while a task is being processed. The attributes may
        be a function, which is called when the event is written; then `note` is called with its number."""
        self.write_speculative()
        if self.is_in_hand:
            self.held.append((kind, attributes, note, self.server.clock.now))
            return
        self.write_down(kind, attributes, note, self.server.clock.now)
        self.need_task()

    def write_down(self, kind, attributes, note, time):
        number = self.append(kind, attributes() if callable(attributes) else attributes, time)
        if note:
            note(number)

    def flush(self):
        """Writes what was held back, and returns whether there was something."""
        held, self.held = self.held, []
        for last in (False, True):
            for kind, attributes, note, time in held:
                if (kind in LAST_OF_ALL) == last:
                    self.write_down(kind, attributes, note, time)
        return bool(held)

    # Workflow tasks.

    def need_task(self):
        """Schedules a workflow task if there is none."""
        if self.task is None and self.closed is None:
            self.schedule_task()

    def schedule_task(self, is_speculative=False):
        queue = self.sticky[0] if self.sticky else self.queue
        self.task = Task(self.next_number, self.attempt, self.server.clock.now, queue, is_speculative)
        if self.task.is_written:
            self.append("WorkflowTaskScheduled", self.scheduled_attributes(queue, 1))
        self.server.tasks.offer(self)

    def write_speculative(self):
        """Turns a speculative task into an ordinary one, since something else is written; its events come before
        that."""
        task = self.task
        if task is None or not task.is_speculative:
            return
        events = self.unwritten()
        task.is_speculative = False
        if events:
            self.events += events
        else:
            self.append("WorkflowTaskScheduled", self.scheduled_attributes(task.queue, 1), task.time)

    def scheduled_attributes(self, queue, attempt):
        return {"taskQueue": {"name": queue}, "startToCloseTimeout": "10s", "attempt": attempt}

    def start_task(self, token, identity):
        """Starts the task for a worker. Returns the events that the worker is shown beyond the written ones."""
        task = self.task
        if not task.is_written and task.scheduled != self.next_number:
            # Something came in since it was scheduled, so it is like a first attempt.
            self.attempt = task.attempt = 1
            task.scheduled = self.append("WorkflowTaskScheduled", self.scheduled_attributes(task.queue, 1), task.time)
        started = {"scheduledEventId": str(task.scheduled), "identity": identity}
        task.token, task.started_time = token, self.server.clock.now
        if task.is_written:
            task.started = self.append("WorkflowTaskStarted", started)
            return []
        task.started = task.scheduled + 1
        return self.unwritten()

    def unwritten(self):
        """Returns the events of the task being processed that are not written yet."""
        task = self.task
        if not self.is_in_hand or task.is_written:
            return []
        attributes = self.scheduled_attributes(task.queue, task.attempt)
        return [
            event_of(task.scheduled, task.time, "WorkflowTaskScheduled", attributes),
            event_of(task.started, task.started_time, "WorkflowTaskStarted", {"scheduledEventId": str(task.scheduled)}),
        ]

    def complete_task(self):
        """Completes the task: its events are written, and there is no task."""
        task = self.task
        self.events += self.unwritten()
        completed = {"scheduledEventId": str(task.scheduled), "startedEventId": str(task.started)}
        self.append("WorkflowTaskCompleted", completed)
        self.before = task.started
        self.task, self.attempt = None, 1
        self.server.queries.ask_again(self, task)

    def drop_task(self):
        """Completes a speculative task that did nothing: no trace of it is left."""
        task, self.task, self.attempt = self.task, None, 1
        self.server.queries.ask_again(self, task)

    def end_task(self, kind, attributes):
        """Ends a task that failed or timed out: what was held back is written, and the run is no longer sticky."""
        self.write_speculative()
        task = self.task
        self.task, self.sticky = None, None
        numbers = {"scheduledEventId": str(task.scheduled), "startedEventId": str(task.started)}
        if task.is_written:
            self.append(kind, {**numbers, **attributes})
        self.attempt = 1 if self.flush() else task.attempt + 1
        self.server.queries.ask_again(self, task)

    def leave_sticky(self, is_recorded):
        """Moves the task from a sticky queue, from which nobody takes it, to the normal queue, with a timeout's event
        or without."""
        task = self.task
        self.sticky = None
        if is_recorded:
            self.write_speculative()
            self.task = None
            timeout = {"scheduledEventId": str(task.scheduled), "timeoutType": "TIMEOUT_TYPE_SCHEDULE_TO_START"}
            self.append("WorkflowTaskTimedOut", timeout)
            self.schedule_task()
        else:
            task.queue = self.queue
            self.server.tasks.offer(self)

    # The end of a run.

    def close(self, kind, attributes):
        """Closes the run, by a command or from outside."""
        self.write_speculative()
        if self.is_in_hand:
            self.end_task("WorkflowTaskFailed", {"cause": "WORKFLOW_TASK_FAILED_CAUSE_FORCE_CLOSE_COMMAND"})
        self.append(kind, attributes)
        self.task = None
        self.closed = kind
        self.server.queries.settle(self)
        self.server.runs.closed(self, attributes)
