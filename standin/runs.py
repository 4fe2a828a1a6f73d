"""Runs from outside: how they start, what comes to them, and what follows when one closes."""

from findings import token_of
from history import Run, carried_over, left_out
from workflows import TRACES, header_of

# What a client with a codec adds to the metadata of payloads.
OF_CODEC = {"encryption-key-id": token_of("key-7"), "messageType": token_of("shop.Order")}


class Runs:
    """All runs, by their ids."""

    def __init__(self, server):
        self.server = server
        self.all, self.by_id, self.open = [], {}, set()

    def start(self, kind, workflow_id, input=None, parent=None, queue=None, continued=None, carried=None):
        """Starts a run, or returns None if one of this id is open."""
        if self.open_one(workflow_id) is not None:
            return None
        input = input if parent or continued else self.coded(input)
        run_id = f"{len(self.all) + 1:08x}-0000-4000-8000-{self.server.troubles.dice.getrandbits(48):012x}"
        queue = queue or (parent[0].queue if parent else self.server.settings.queues[0])
        run = Run(self.server, workflow_id, run_id, kind, queue, parent, input, continued, carried)
        self.by_id.setdefault(workflow_id, []).append(run)
        self.all.append(run)
        self.open.add(run)
        run.need_task()
        return run

    def open_one(self, workflow_id):
        """Returns the open run of an id, or None."""
        runs = self.by_id.get(workflow_id)
        return runs[-1] if runs and runs[-1].closed is None else None

    def find(self, execution):
        """Returns the run of an execution, the last one of its id if it names none, or None if there is no such run."""
        runs, run_id = self.by_id.get(execution["workflowId"], []), execution.get("runId")
        return next((run for run in reversed(runs) if run_id in (None, run.run_id)), None)

    def coded(self, input):
        """Returns payloads as clients send them, some of which have a codec."""
        return {"payloads": [self.coded_one(one) for one in input.get("payloads", [])]} if input else input

    def coded_one(self, one):
        has_codec = self.server.troubles.happens("metadata")
        return {**one, "metadata": {**one.get("metadata", {}), **OF_CODEC}} if has_codec else one

    def traced(self, value):
        """Returns the header of a client that traces what it asks for, as some do, or None."""
        troubles = self.server.troubles
        return header_of(troubles.dice.choice(TRACES), value) if troubles.happens("metadata") else None

    # What comes to a run.

    def signal(self, run, name, input=None, header=None):
        """Sends the signal of a client."""
        self.send_signal(run, name, self.coded(input), header or self.traced(f"signal {len(run.events)}"))

    def send_signal(self, run, name, input, header=None):
        if run.closed is None:
            run.come_in("WorkflowExecutionSignaled", left_out({"signalName": name, "input": input, "header": header}))

    def request_cancel(self, run):
        if run.closed is None and not run.is_canceled:
            run.is_canceled = True
            run.come_in("WorkflowExecutionCancelRequested", {"cause": "asked"})

    def update(self, run):
        """Sends an update. If the run has no task it gets a speculative one, whose events are not written."""
        if run.closed is None and run.task is None and self.server.troubles.happens("speculative"):
            run.schedule_task(is_speculative=True)

    def terminate(self, run):
        if run.closed is None:
            run.close("WorkflowExecutionTerminated", {"reason": "terminated"})

    def time_out(self, run):
        if run.closed is None:
            run.close("WorkflowExecutionTimedOut", {"retryState": "RETRY_STATE_TIMEOUT"})

    # Timers.

    def start_timer(self, run, name, number, delay):
        """Starts a timer of this many milliseconds. The world decides after what time it fires, or that it never
        does."""
        delay = self.server.world.timer(name, delay)
        if delay is not None:
            run.due[name] = self.server.clock.now + delay
            self.server.clock.at(delay, lambda: self.fire(run, name, number))

    def fire(self, run, name, number):
        if run.closed is None and run.timers.get(name) == number:
            del run.timers[name]
            run.come_in("TimerFired", {"timerId": name, "startedEventId": str(number)})

    # The end.

    def closed(self, run, attributes):
        """Handles the end of a run: its children are terminated, the next run of its id starts, and its parent is sent
        the event."""
        self.open.discard(run)
        for child in list(run.children.values()):
            if child.run is not None:
                self.terminate(child.run)
        if run.closed == "WorkflowExecutionContinuedAsNew":
            self.go_on(run, attributes)
        else:
            self.server.relations.child_closed(run, attributes)
        self.server.world.closed(run)

    def go_on(self, run, attributes):
        """Starts the run that follows one which continued as new."""
        kind = attributes["workflowType"]["name"]
        same = {"parent": run.parent, "queue": run.queue, "carried": carried_over(attributes)}
        new = self.start(kind, run.workflow_id, attributes.get("input"), continued=run.run_id, **same)
        shown = run.events[-1]["workflowExecutionContinuedAsNewEventAttributes"]
        shown["newExecutionRunId"] = new.run_id
        shown.pop("retryPolicy", None)  # It is only in the next run's first event.
        parent, number = run.parent or (None, 0)
        if parent and number in parent.children:
            parent.children[number].run = new
        self.server.world.continued(new)
