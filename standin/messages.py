"""The requests of a worker: which members each may and must have, and what the values have to be.

They are the proto3 JSON forms of the requests of `temporal.api.workflowservice.v1.WorkflowService`, as far as a worker of
this host uses them. A form is a dictionary of members, of which those with a `?` may be absent; a list with the form of
its items; a dictionary with the one member `*` for the values of a map; or a function that says whether a value will do.
"""

import base64
import binascii
import re


def is_text(value):
    return isinstance(value, str) and value != ""


def is_any_text(value):
    return isinstance(value, str)


def is_base64(value):
    try:
        return isinstance(value, str) and base64.b64encode(base64.b64decode(value, validate=True)).decode() == value
    except binascii.Error:
        return False


def is_number_text(value):
    return isinstance(value, str) and re.fullmatch(r"[1-9][0-9]{0,18}", value) is not None


def is_duration(value):
    return isinstance(value, str) and re.fullmatch(r"(0|[1-9][0-9]*)(\.[0-9]{1,9})?s", value) is not None


def is_count(value):
    return type(value) is int and 0 < value < 2**31


def is_true(value):
    return value is True


def is_number(value):
    return type(value) in (int, float)


def is_object(value):
    return isinstance(value, dict)


def one_of(*texts):
    return lambda value: value in texts


PAYLOAD = {"data?": is_base64, "metadata?": {"*": is_base64}}
PAYLOADS = {"payloads?": [PAYLOAD]}
HEADER = {"fields?": {"*": PAYLOAD}}
QUEUE = {"name": is_text}
NAMED = {"name": is_text}
FAILURE = {
    "applicationFailureInfo": {"nonRetryable?": is_true, "type?": is_text},
    "message": is_any_text,
    "source": is_text,
}
POLL = {
    "identity": is_text,
    "namespace": is_text,
    "taskQueue": {
        "kind": one_of("TASK_QUEUE_KIND_NORMAL", "TASK_QUEUE_KIND_STICKY"),
        "name": is_text,
        "normalName?": is_text,
    },
}
QUERY_RESULT_TYPE = one_of("QUERY_RESULT_TYPE_ANSWERED", "QUERY_RESULT_TYPE_FAILED")
QUERY_RESULT = {"answer?": PAYLOADS, "errorMessage?": is_text, "resultType": QUERY_RESULT_TYPE}
STICKY = {
    "scheduleToStartTimeout": is_duration,
    "workerTaskQueue": {"kind": one_of("TASK_QUEUE_KIND_STICKY"), "name": is_text, "normalName": is_text},
}
ANSWER = {"identity": is_text, "namespace": is_text, "taskToken": is_base64}
CAUSES = (
    "WORKFLOW_TASK_FAILED_CAUSE_GRPC_MESSAGE_TOO_LARGE",
    "WORKFLOW_TASK_FAILED_CAUSE_NON_DETERMINISTIC_ERROR",
    "WORKFLOW_TASK_FAILED_CAUSE_WORKFLOW_WORKER_UNHANDLED_FAILURE",
)

REQUESTS = {
    "PollWorkflowTaskQueue": POLL,
    "PollActivityTaskQueue": POLL,
    "GetWorkflowExecutionHistory": {
        "execution": {"runId": is_text, "workflowId": is_text},
        "namespace": is_text,
        "nextPageToken?": is_base64,
    },
    "RespondWorkflowTaskCompleted": {
        **ANSWER,
        "commands?": [lambda value: True],
        "queryResults?": {"*": QUERY_RESULT},
        "stickyAttributes?": STICKY,
    },
    "RespondWorkflowTaskFailed": {**ANSWER, "cause": one_of(*CAUSES), "failure": FAILURE},
    "RespondQueryTaskCompleted": {
        "completedType": QUERY_RESULT_TYPE,
        "errorMessage?": is_text,
        "namespace": is_text,
        "queryResult?": PAYLOADS,
        "taskToken": is_base64,
    },
    "RespondActivityTaskCompleted": {**ANSWER, "result?": PAYLOADS},
    "RespondActivityTaskFailed": {**ANSWER, "failure": FAILURE},
    "RespondActivityTaskCanceled": {**ANSWER, "details?": PAYLOADS},
    "RecordActivityTaskHeartbeat": {**ANSWER, "details?": PAYLOADS},
    "ShutdownWorker": {"identity": is_text, "namespace": is_text, "stickyTaskQueue": is_text},
}

RETRY_POLICY = {
    "backoffCoefficient?": is_number,
    "initialInterval?": is_duration,
    "maximumAttempts?": is_count,
    "maximumInterval?": is_duration,
    "nonRetryableErrorTypes?": [is_text],
}

COMMANDS = {
    "SCHEDULE_ACTIVITY_TASK": {
        "activityId": is_text,
        "activityType": NAMED,
        "header?": HEADER,
        "heartbeatTimeout?": is_duration,
        "input?": PAYLOADS,
        "retryPolicy?": RETRY_POLICY,
        "scheduleToCloseTimeout?": is_duration,
        "scheduleToStartTimeout?": is_duration,
        "startToCloseTimeout?": is_duration,
        "taskQueue": QUEUE,
    },
    "REQUEST_CANCEL_ACTIVITY_TASK": {"scheduledEventId": is_number_text},
    "START_TIMER": {"startToFireTimeout": is_duration, "timerId": is_text},
    "CANCEL_TIMER": {"timerId": is_text},
    "START_CHILD_WORKFLOW_EXECUTION": {
        "header?": HEADER,
        "input?": PAYLOADS,
        "namespace": is_text,
        "parentClosePolicy?": is_text,
        "retryPolicy?": RETRY_POLICY,
        "taskQueue": QUEUE,
        "workflowExecutionTimeout?": is_duration,
        "workflowId": is_text,
        "workflowIdReusePolicy?": is_text,
        "workflowRunTimeout?": is_duration,
        "workflowTaskTimeout?": is_duration,
        "workflowType": NAMED,
    },
    "REQUEST_CANCEL_EXTERNAL_WORKFLOW_EXECUTION": {
        "childWorkflowOnly": is_true,
        "namespace": is_text,
        "workflowId": is_text,
    },
    "SIGNAL_EXTERNAL_WORKFLOW_EXECUTION": {
        "execution": {"workflowId": is_text},
        "input?": PAYLOADS,
        "namespace": is_text,
        "signalName": is_text,
    },
    "RECORD_MARKER": {
        "details": {"change-id": PAYLOADS, "version": PAYLOADS},
        "markerName": one_of("Version"),
    },
    "COMPLETE_WORKFLOW_EXECUTION": {"result?": PAYLOADS},
    "FAIL_WORKFLOW_EXECUTION": {"failure": FAILURE},
    "CANCEL_WORKFLOW_EXECUTION": {},
    "CONTINUE_AS_NEW_WORKFLOW_EXECUTION": {
        "input?": PAYLOADS,
        "memo?": is_object,
        "retryPolicy?": is_object,
        "searchAttributes?": is_object,
        "taskQueue": QUEUE,
        "workflowRunTimeout?": is_duration,
        "workflowTaskTimeout?": is_duration,
        "workflowType": NAMED,
    },
}


def attributes_name(kind):
    """Returns the member of a command that holds its attributes."""
    words = [word.capitalize() for word in kind.split("_")]
    return words[0].lower() + "".join(words[1:]) + "CommandAttributes"


def fault_in(value, form, where):
    """Returns what is wrong with a value of a form, or an empty text."""
    if callable(form):
        return "" if form(value) else f"{where} is {value!r}"
    if isinstance(form, list):
        if not isinstance(value, list):
            return f"{where} is no list"
        faults = (fault_in(one, form[0], f"{where}[{at}]") for at, one in enumerate(value))
        return next((fault for fault in faults if fault), "")
    if not isinstance(value, dict):
        return f"{where} is no object"
    return fault_of_members(value, form, where)


def fault_of_members(value, form, where):
    if "*" in form:
        faults = (fault_in(one, form["*"], f"{where}.{name}") for name, one in value.items())
        return next((fault for fault in faults if fault), "")
    forms = {name.rstrip("?"): one for name, one in form.items()}
    for name in value:
        if name not in forms:
            return f"{where} has the member {name}"
    for name, one in form.items():
        if name.rstrip("?") in value:
            fault = fault_in(value[name.rstrip("?")], one, f"{where}.{name.rstrip('?')}")
            if fault:
                return fault
        elif not name.endswith("?"):
            return f"{where} lacks {name}"
    return ""


def command_in(value):
    """Returns the kind of a command, its attributes, and what is wrong with it."""
    if not isinstance(value, dict) or not isinstance(value.get("commandType"), str):
        return None, None, "a command has no type"
    prefix, _, kind = value["commandType"].partition("COMMAND_TYPE_")
    if kind not in COMMANDS or prefix:
        return None, None, f"a command has the type {value['commandType']}"
    name = attributes_name(kind)
    if set(value) != {"commandType", name}:
        return None, None, f"a command {kind} has the members {sorted(value)}"
    return kind, value[name], fault_in(value[name], COMMANDS[kind], kind)


def milliseconds_of(duration):
    """Returns a duration in milliseconds."""
    return round(float(duration[:-1]) * 1000)
