"""What the bridge counts of tasks: how long they waited, polls with and without one, and the runs that they closed."""

from __future__ import annotations

import threading
from collections import Counter, defaultdict
from typing import Any, Dict, List, Optional, Tuple

from counts import Tally, headed, label, latencies

# The names are those under which Temporal's Java SDK exports the same to Prometheus: first histograms, in seconds.
HISTOGRAMS = {
    "temporal_workflow_task_schedule_to_start_latency_seconds": "Workflow tasks: how long each waited for a worker.",
    "temporal_activity_schedule_to_start_latency_seconds": "Activity tasks: how long each attempt waited for a worker.",
}
COUNTERS = {
    "temporal_workflow_task_queue_poll_succeed": "Polls for workflow tasks that got one, or a query.",
    "temporal_workflow_task_queue_poll_empty": "Polls for workflow tasks to which the server gave an empty response.",
    "temporal_activity_poll_no_task": "Polls for activity tasks to which the server gave an empty response.",
    "temporal_workflow_completed": "Runs that were completed.",
    "temporal_workflow_failed": "Runs that failed.",
    "temporal_workflow_canceled": "Runs that were canceled.",
    "temporal_workflow_continue_as_new": "Runs that were continued as new.",
}
# The types of commands that close a run (temporal.api.enums.v1.CommandType), each with its counter.
CLOSES = {
    4: "temporal_workflow_completed",
    5: "temporal_workflow_failed",
    7: "temporal_workflow_canceled",
    10: "temporal_workflow_continue_as_new",
}
# A sticky Task Queue (temporal.api.enums.v1.TaskQueueKind).
STICKY = 2
# How many workflow tasks are known at most. Beyond that the oldest, which was perhaps never answered, is forgotten.
MOST_OPEN = 1_000

Labels = Tuple[Tuple[str, str], ...]


def label_of_queue(queue: Any) -> str:
    """Returns a Task Queue as a label: a sticky one by the queue that it stands beside, as the SDK names it, since each process
    has its own."""
    name: str = queue.name
    return f"{queue.normal_name}:sticky" if queue.kind == STICKY else name


def seconds_between(begin: Any, end: Any) -> float:
    """Returns the seconds from one timestamp to another, 0 if the clocks of two servers say that it was before."""
    seconds: float = end.seconds - begin.seconds + (end.nanos - begin.nanos) / 1e9
    return max(0.0, seconds)


def text_of(labels: Labels) -> str:
    return ",".join(f'{name}="{label(value)}"' for name, value in labels)


class TaskCounts:
    """The counts of tasks."""

    def __init__(self) -> None:
        self.lock = threading.Lock()
        self.waits: Dict[str, Dict[Labels, Tally]] = {name: defaultdict(Tally) for name in HISTOGRAMS}
        self.counters: Dict[str, Counter[Labels]] = {name: Counter() for name in COUNTERS}
        # The labels of the runs of workflow tasks that are in hand, by the tokens of the tasks.
        self.open: Dict[bytes, Labels] = {}

    def add(self, method: str, namespace: str, request: Any, response: Any) -> None:
        """Counts what the server's response to a call says of a task."""
        if method == "PollWorkflowTaskQueue":
            self.add_workflow_poll(namespace, request.task_queue, response)
        elif method == "PollActivityTaskQueue":
            self.add_activity_poll(namespace, request.task_queue, response)
        elif method == "RespondWorkflowTaskCompleted":
            self.add_close(request, response)
        elif method in ("RespondWorkflowTaskFailed", "RespondQueryTaskCompleted"):
            with self.lock:
                self.open.pop(request.task_token, None)

    def add_workflow_poll(self, namespace: str, queue: Any, task: Any) -> None:
        of = (("namespace", namespace), ("task_queue", label_of_queue(queue)), ("worker_type", "WorkflowWorker"))
        with self.lock:
            if not task.task_token:
                self.counters["temporal_workflow_task_queue_poll_empty"][of] += 1
                return
            self.counters["temporal_workflow_task_queue_poll_succeed"][of] += 1
            if task.HasField("scheduled_time") and task.HasField("started_time"):
                waited = seconds_between(task.scheduled_time, task.started_time)
                self.waits["temporal_workflow_task_schedule_to_start_latency_seconds"][of].add(waited, None)
            name = queue.normal_name if queue.kind == STICKY else queue.name
            of_run = (("namespace", namespace), ("task_queue", name), ("workflow_type", task.workflow_type.name))
            self.open[task.task_token] = of_run
            if len(self.open) > MOST_OPEN:
                del self.open[next(iter(self.open))]

    def add_activity_poll(self, namespace: str, queue: Any, task: Any) -> None:
        of = (("namespace", namespace), ("task_queue", label_of_queue(queue)), ("worker_type", "ActivityWorker"))
        with self.lock:
            if not task.task_token:
                self.counters["temporal_activity_poll_no_task"][of] += 1
            elif task.HasField("current_attempt_scheduled_time") and task.HasField("started_time"):
                waited = seconds_between(task.current_attempt_scheduled_time, task.started_time)
                self.waits["temporal_activity_schedule_to_start_latency_seconds"][of].add(waited, None)

    def add_close(self, request: Any, response: Any) -> None:
        """Counts the run that a completed workflow task closes, if it does: its last command says so, and the server did not
        discard the task."""
        with self.lock:
            of_run: Optional[Labels] = self.open.pop(request.task_token, None)
            name = CLOSES.get(request.commands[-1].command_type) if request.commands else None
            if of_run and name and not response.reset_history_event_id:
                self.counters[name][of_run] += 1

    def text(self) -> str:
        """Returns the counts in the text format of Prometheus."""
        with self.lock:
            return "".join(line + "\n" for line in [*self.histogram_lines(), *self.counter_lines()])

    def histogram_lines(self) -> List[str]:
        lines = []
        for name, what in HISTOGRAMS.items():
            tallies = sorted(self.waits[name].items())
            samples = [line for of, tally in tallies for line in latencies(name, text_of(of), tally)]
            lines += headed(name, "histogram", what, samples)
        return lines

    def counter_lines(self) -> List[str]:
        lines = []
        for name, what in COUNTERS.items():
            samples = [f"{name}_total{{{text_of(of)}}} {count}" for of, count in sorted(self.counters[name].items())]
            lines += headed(f"{name}_total", "counter", what, samples)
        return lines
