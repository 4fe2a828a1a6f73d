"""The calls of clients: runs to start, signals, cancellations and terminations, and what became of a run."""

from findings import text_of, token_of
from history import carried_over, left_out
from peers import INVALID, NOT_FOUND, Refused

ALREADY_EXISTS = 6
STATUSES = {
    None: "RUNNING",
    "WorkflowExecutionCompleted": "COMPLETED",
    "WorkflowExecutionFailed": "FAILED",
    "WorkflowExecutionCanceled": "CANCELED",
    "WorkflowExecutionTerminated": "TERMINATED",
    "WorkflowExecutionContinuedAsNew": "CONTINUED_AS_NEW",
    "WorkflowExecutionTimedOut": "TIMED_OUT",
}


class Clients:
    """The calls of clients. Each returns a result, or raises `Refused`."""

    def __init__(self, server):
        self.server = server
        self.calls = {
            "StartWorkflowExecution": self.start,
            "SignalWorkflowExecution": self.signal,
            "RequestCancelWorkflowExecution": self.request_cancel,
            "TerminateWorkflowExecution": self.terminate,
            "UpdateWorkflowExecution": self.update,
            "DescribeWorkflowExecution": self.describe,
            "GetWorkflowExecutionHistory": self.history,
        }
        # Calls whose response comes later, through the callback that is passed with the request.
        self.later = {"QueryWorkflow": self.query}

    def call(self, method, params):
        self.server.clock.now += 1
        if params.get("namespace") != self.server.settings.namespace:
            raise Refused(NOT_FOUND, f"no namespace {params.get('namespace')}")
        return self.calls[method](params)

    def call_later(self, method, params, reply):
        self.server.clock.now += 1
        self.later[method](params, reply)

    def query(self, params, reply):
        """Queries a run, open or closed. A query that fails is refused with its text."""
        run, query = self.run_of(params["execution"], is_open=False), params["query"]

        def then(is_answered, given):
            reply({"queryResult": given} if is_answered else None, None if is_answered else (INVALID, given))

        self.server.queries.ask_for(run, query["queryType"], query.get("queryArgs"), then)

    def start(self, params):
        queue = params["taskQueue"]["name"]
        if queue not in self.server.settings.queues:
            raise Refused(INVALID, f"no task queue {queue}")
        runs, kind = self.server.runs, params["workflowType"]["name"]
        carried = {**carried_over(params), **({"header": params["header"]} if "header" in params else {})}
        run = runs.start(kind, params["workflowId"], params.get("input"), queue=queue, carried=carried)
        if run is None:
            raise Refused(ALREADY_EXISTS, "a run of this id is open")
        return {"runId": run.run_id}

    def run_of(self, execution, is_open=True):
        """Returns the run of an execution, which has to be open if that is required."""
        run = self.server.runs.find(execution)
        if run is None or is_open and run.closed is not None:
            raise Refused(NOT_FOUND, "no such run, or it is closed")
        return run

    def signal(self, params):
        run = self.run_of(params["workflowExecution"])
        self.server.runs.signal(run, params["signalName"], params.get("input"), params.get("header"))
        return {}

    def request_cancel(self, params):
        self.server.runs.request_cancel(self.run_of(params["workflowExecution"]))
        return {}

    def update(self, params):
        """Gives a run that has no task a speculative one. No worker here knows updates: a server says so after the task."""
        run = self.run_of(params["workflowExecution"])
        if run.task is None:
            run.schedule_task(is_speculative=True)
        return {"outcome": {"failure": {"message": "the update was not processed"}}}

    def terminate(self, params):
        self.server.runs.terminate(self.run_of(params["workflowExecution"]))
        return {}

    def describe(self, params):
        run = self.run_of(params["execution"], is_open=False)
        info = {
            "execution": run.execution,
            "type": {"name": run.kind},
            "status": "WORKFLOW_EXECUTION_STATUS_" + STATUSES[run.closed],
            "historyLength": str(len(run.events)),
        }
        return {"workflowExecutionInfo": info}

    def history(self, params):
        """Returns the history in pages of the requested size. A token is the number of events before the page."""
        run = self.run_of(params["execution"], is_open=False)
        token = params.get("nextPageToken", "")
        first = int(text_of(token)) if token else 0
        last = first + int(params.get("maximumPageSize", 0) or len(run.events))
        rest = token_of(str(last)) if last < len(run.events) else ""
        return left_out({"history": {"events": run.events[first:last]}, "nextPageToken": rest})
