"""What runs do to one another: children, their cancellation, and signals to external workflows."""

CAUSES = {
    "child": "START_CHILD_WORKFLOW_EXECUTION_FAILED_CAUSE_WORKFLOW_ALREADY_EXISTS",
    "cancel": "CANCEL_EXTERNAL_WORKFLOW_EXECUTION_FAILED_CAUSE_EXTERNAL_WORKFLOW_EXECUTION_NOT_FOUND",
    "signal": "SIGNAL_EXTERNAL_WORKFLOW_EXECUTION_FAILED_CAUSE_EXTERNAL_WORKFLOW_EXECUTION_NOT_FOUND",
}


class Relations:
    """What the server passes on from one run to another, each after a short time."""

    def __init__(self, server):
        self.server = server

    def soon(self, run, action):
        """Runs an action a little later, unless the run that asked for it is closed by then."""
        self.server.clock.at(self.server.world.short(), lambda: run.closed is None and action())

    def start_child(self, run, child, attributes):
        self.soon(run, lambda: self.start_child_now(run, child, attributes))

    def start_child_now(self, run, child, attributes):
        kind, parent = attributes["workflowType"], (run, child.initiated)
        numbers = {"initiatedEventId": str(child.initiated), "workflowType": kind}
        carried = {"header": attributes["header"]} if "header" in attributes else None
        child.run = self.server.runs.start(kind["name"], child.workflow_id, attributes.get("input"), parent, carried=carried)
        if child.run is None:
            del run.children[child.initiated]
            made = {**numbers, "workflowId": child.workflow_id, "cause": CAUSES["child"]}
            return run.come_in("StartChildWorkflowExecutionFailed", made)

        def note(number):
            child.started = number

        run.come_in("ChildWorkflowExecutionStarted", {**numbers, "workflowExecution": child.run.execution}, note)
        self.server.world.watch(child.run)

    def cancel_child(self, run, number, workflow_id):
        self.soon(run, lambda: self.cancel_child_now(run, number, workflow_id))

    def cancel_child_now(self, run, number, workflow_id):
        child = self.server.runs.open_one(workflow_id)
        made = {"initiatedEventId": str(number), "workflowExecution": {"workflowId": workflow_id}}
        if child is None or not child.parent or child.parent[0] is not run:
            return run.come_in("RequestCancelExternalWorkflowExecutionFailed", {**made, "cause": CAUSES["cancel"]})
        self.server.runs.request_cancel(child)
        run.come_in("ExternalWorkflowExecutionCancelRequested", made)

    def signal_external(self, run, number, attributes):
        self.soon(run, lambda: self.signal_external_now(run, number, attributes))

    def signal_external_now(self, run, number, attributes):
        other = self.server.runs.open_one(attributes["execution"]["workflowId"])
        made = {"initiatedEventId": str(number), "workflowExecution": attributes["execution"]}
        if other is None:
            return run.come_in("SignalExternalWorkflowExecutionFailed", {**made, "cause": CAUSES["signal"]})
        self.server.runs.send_signal(other, attributes["signalName"], attributes.get("input"))
        run.come_in("ExternalWorkflowExecutionSignaled", made)

    def child_closed(self, run, attributes):
        """Sends the parent of a closed run, if it has one, the event of its end."""
        parent, number = run.parent or (None, 0)
        if parent is None or parent.closed is not None or number not in parent.children:
            return
        child = parent.children.pop(number)
        made = {name: attributes[name] for name in ("result", "failure") if name in attributes}
        made["workflowExecution"], made["workflowType"] = run.execution, {"name": run.kind}
        made["initiatedEventId"] = str(number)
        parent.come_in("Child" + run.closed, lambda: {**made, "startedEventId": str(child.started)})
