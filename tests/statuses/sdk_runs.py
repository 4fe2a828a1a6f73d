"""Runs of workers in Go, TypeScript, Java and Python, as `temporal workflow show --output json` exports them, and what
`explain --recorded` shows of them. The histories follow Temporal's API and what its SDKs document of their markers; the texts
that are wanted are written by hand."""

import json
from base64 import b64encode
from datetime import datetime, timedelta

from .runs import Like

START = datetime(2024, 5, 1, 10)


def base64_of(data):
    return b64encode(data).decode()


def payload(data, encoding="json/plain", **metadata):
    """A payload of these bytes, or of a value as JSON."""
    data = data if isinstance(data, bytes) else json.dumps(data, ensure_ascii=False, separators=(",", ":")).encode()
    named = {"encoding": encoding} | metadata
    return {"metadata": {name: base64_of(text.encode()) for name, text in named.items()}, "data": base64_of(data)}


def payloads(*values):
    return {"payloads": [value if isinstance(value, dict) and "metadata" in value else payload(value) for value in values]}


def spelled(kind):
    """The name of a type as the API's enumeration has it."""
    return "EVENT_TYPE" + "".join(f"_{c}" if c.isupper() else c.upper() for c in kind)


def history(*events):
    """Events, each a type, the seconds since the start of the run, and its attributes."""
    made = []
    for number, (kind, seconds, *attributes) in enumerate(events, 1):
        event = {
            "eventId": str(number),
            "eventTime": f"{(START + timedelta(seconds=seconds)).isoformat(timespec='milliseconds')}Z",
            "eventType": spelled(kind),
            "version": "0",
            "taskId": str(1_048_576 + number),
        }
        if attributes:
            event[f"{kind[0].lower()}{kind[1:]}EventAttributes"] = attributes[0]
        made.append(event)
    return json.dumps({"events": made}).encode()


def task(seconds):
    """A workflow task that is completed as soon as it is scheduled."""
    return [(f"WorkflowTask{step}", seconds) for step in ["Scheduled", "Started", "Completed"]]


def marker(name, completed, **details):
    named = {key.replace("_", "-") if name[0].isupper() and name != "LocalActivity" else key: payloads(value) for key, value in details.items()}
    return {"markerName": name, "details": named, "workflowTaskCompletedEventId": str(completed)}


GO = history(
    (
        "WorkflowExecutionStarted",
        0,
        {
            "workflowType": {"name": "Order"},
            "taskQueue": {"name": "orders", "kind": "TASK_QUEUE_KIND_NORMAL"},
            "input": payloads({"customer": "Zoë Müller"}),
            "originalExecutionRunId": "5e0c7a1e-0000-4000-8000-000000000001",
            "firstExecutionRunId": "5e0c7a1e-0000-4000-8000-000000000001",
            "workflowId": "order-17",
            "parentWorkflowExecution": {"workflowId": "shop-1", "runId": "77f0"},
            "attempt": 1,
        },
    ),
    *task(0),
    ("MarkerRecorded", 0, marker("Version", 4, change_id="pricing", version=2)),
    (
        "UpsertWorkflowSearchAttributes",
        0,
        {
            "workflowTaskCompletedEventId": "4",
            "searchAttributes": {"indexedFields": {"TemporalChangeVersion": payload(["pricing-2"], type="KeywordList")}},
        },
    ),
    ("MarkerRecorded", 0, marker("SideEffect", 4, side_effect_id=1, data="a1")),
    (
        "MarkerRecorded",
        0,
        marker("LocalActivity", 4, data={"ActivityID": "1", "ActivityType": "ValidateOrder", "Attempt": 1}, result={"valid": True}),
    ),
    (
        "ActivityTaskScheduled",
        0,
        {
            "activityId": "9",
            "activityType": {"name": "ChargeCard"},
            "taskQueue": {"name": "orders"},
            "input": payloads(payload(b"\x00" * 300, "binary/encrypted")),
            "workflowTaskCompletedEventId": "4",
        },
    ),
    ("ActivityTaskStarted", 840, {"scheduledEventId": "9", "attempt": 3, "lastFailure": {"message": "HTTP 503"}}),
    (
        "ActivityTaskFailed",
        1173,
        {
            "scheduledEventId": "9",
            "startedEventId": "10",
            "retryState": "RETRY_STATE_MAXIMUM_ATTEMPTS_REACHED",
            "failure": {
                "message": "activity error",
                "applicationFailureInfo": {"type": "ServiceUnavailable"},
                "cause": {"message": "HTTP 503", "cause": {"message": "connect ECONNREFUSED", "stackTrace": "at net\nat main"}},
            },
        },
    ),
    *task(1173),
    (
        "WorkflowExecutionFailed",
        1173,
        {
            "workflowTaskCompletedEventId": "14",
            "retryState": "RETRY_STATE_RETRY_POLICY_NOT_SET",
            "failure": {
                "message": "Activity task failed",
                "activityFailureInfo": {"activityId": "9", "activityType": {"name": "ChargeCard"}},
                "cause": {"message": "HTTP 503", "applicationFailureInfo": {"type": "ServiceUnavailable", "nonRetryable": True}},
            },
        },
    ),
)
GO_TEXT = """Order: 15 events, 2 tasks completed, 4 things
workflow id order-17, run id 5e0c7a1e-0000-4000-8000-000000000001, Task Queue orders, parent shop-1
Failed (event 15) 2024-05-01T10:19:33.000Z, after 19 min 33 s
  told WorkflowExecutionStarted Order (event 1) 2024-05-01T10:00:00.000Z, attempt 1
      {"customer":"Zoë Müller"}
task 1: WorkflowTaskCompleted (event 4) 2024-05-01T10:00:00.000Z
  gives MarkerRecorded version pricing 2 (event 5) 2024-05-01T10:00:00.000Z
      change-id "pricing"
      version 2
  gives UpsertWorkflowSearchAttributes (event 6) 2024-05-01T10:00:00.000Z
      TemporalChangeVersion ["pricing-2"]
  gives MarkerRecorded side effect 1 (event 7) 2024-05-01T10:00:00.000Z
      data "a1"
      side-effect-id 1
  gives MarkerRecorded local activity ValidateOrder (event 8) 2024-05-01T10:00:00.000Z, attempt 1
      data {"ActivityID":"1","ActivityType":"ValidateOrder","Attempt":1}
      result {"valid":true}
  gives ActivityTaskScheduled 9 ChargeCard (event 9) 2024-05-01T10:00:00.000Z, started (event 10), ended (event 11)
      binary/encrypted, 300 bytes
  has ActivityTaskStarted 9 ChargeCard (event 10) 2024-05-01T10:14:00.000Z, opened (event 9), waited 14 min, attempt 3, after HTTP 503
  told ActivityTaskFailed 9 ChargeCard (event 11) 2024-05-01T10:19:33.000Z, opened (event 9), took 5 min 33 s, because ServiceUnavailable: activity error <- HTTP 503 <- connect ECONNREFUSED, retry state RETRY_STATE_MAXIMUM_ATTEMPTS_REACHED
task 2: WorkflowTaskCompleted (event 14) 2024-05-01T10:19:33.000Z
  gives WorkflowExecutionFailed (event 15) 2024-05-01T10:19:33.000Z, because Activity task failed <- ServiceUnavailable: HTTP 503, retry state RETRY_STATE_RETRY_POLICY_NOT_SET
can't be replayed here: MarkerRecorded SideEffect, 1 events, first (event 7)
can't be replayed here: MarkerRecorded LocalActivity, 1 events, first (event 8)
activity ChargeCard: 1 times, 1 failed, median 19 min 33 s, longest 19 min 33 s (event 9)
"""
GO_RUN = """{"events":15,"tasks":2,"things":4,"run":{"status":"Failed","workflowId":"order-17","runId":"5e0c7a1e-0000-4000-8000-000000000001","taskQueue":"orders","parentWorkflowId":"shop-1","parentRunId":"77f0","closed":15,"seconds":1173.000}}
"""

# What its markers record, among the members of their events.
GO_MARKERS = [
    '"marker":{"kind":"version","name":"pricing","version":2},"recorded":',
    '"marker":{"kind":"sideEffect","name":"1"},"recorded":',
    '"marker":{"kind":"localActivity","name":"ValidateOrder","attempt":1},"recorded":',
]

# A cart that hangs: no worker takes its workflow task.
TYPESCRIPT = history(
    (
        "WorkflowExecutionStarted",
        0,
        {
            "workflowType": {"name": "cart"},
            "taskQueue": {"name": "carts"},
            "originalExecutionRunId": "c0ffee",
            "workflowId": "cart-3",
            "attempt": 1,
        },
    ),
    *task(0),
    ("MarkerRecorded", 0, marker("core_patch", 4, **{"patch-data": {"id": "fix-tax", "deprecated": False}})),
    (
        "UpsertWorkflowSearchAttributes",
        0,
        {
            "workflowTaskCompletedEventId": "4",
            "searchAttributes": {"indexedFields": {"CustomerId": payload("c-7", type="Keyword")}},
        },
    ),
    ("MarkerRecorded", 0, marker("core_local_activity", 4, data={"activity_type": "price", "attempt": 2}, result=12)),
    ("TimerStarted", 0, {"timerId": "1", "startToFireTimeout": "1209600s", "workflowTaskCompletedEventId": "4"}),
    (
        "StartChildWorkflowExecutionInitiated",
        0,
        {"workflowId": "receipt-3", "workflowType": {"name": "receipt"}, "workflowTaskCompletedEventId": "4"},
    ),
    ("ChildWorkflowExecutionStarted", 0.25, {"initiatedEventId": "9", "workflowExecution": {"workflowId": "receipt-3", "runId": "beef"}}),
    *task(1),
    (
        "WorkflowExecutionUpdateAccepted",
        1,
        {
            "protocolInstanceId": "u-1",
            "acceptedRequest": {
                "meta": {"updateId": "u-1", "identity": "cli"},
                "input": {"name": "addItem", "args": payloads({"sku": "a-1"})},
            },
        },
    ),
    (
        "WorkflowExecutionUpdateCompleted",
        1,
        {"meta": {"updateId": "u-1"}, "acceptedEventId": "14", "outcome": {"success": payloads({"items": 1})}},
    ),
    (
        "ActivityTaskScheduled",
        1,
        {"activityId": "2", "activityType": {"name": "sendReceipt"}, "workflowTaskCompletedEventId": "13"},
    ),
    ("WorkflowExecutionSignaled", 2, {"signalName": "pay", "input": payloads("now")}),
    ("WorkflowTaskScheduled", 2),
)
TYPESCRIPT_TEXT = """cart: 18 events, 2 tasks completed, 6 things
workflow id cart-3, run id c0ffee, Task Queue carts, no parent
Running
  told WorkflowExecutionStarted cart (event 1) 2024-05-01T10:00:00.000Z, attempt 1
task 1: WorkflowTaskCompleted (event 4) 2024-05-01T10:00:00.000Z
  gives MarkerRecorded patch fix-tax (event 5) 2024-05-01T10:00:00.000Z
      patch-data {"id":"fix-tax","deprecated":false}
  gives UpsertWorkflowSearchAttributes (event 6) 2024-05-01T10:00:00.000Z
      CustomerId "c-7"
  gives MarkerRecorded local activity price (event 7) 2024-05-01T10:00:00.000Z, attempt 2
      data {"activity_type":"price","attempt":2}
      result 12
  gives TimerStarted 1 (event 8) 2024-05-01T10:00:00.000Z, not ended, 14 d
  gives StartChildWorkflowExecutionInitiated receipt-3 receipt (event 9) 2024-05-01T10:00:00.000Z, started (event 10), not ended
  told ChildWorkflowExecutionStarted receipt-3 receipt (event 10) 2024-05-01T10:00:00.250Z, opened (event 9), waited 0.2 s, run id beef
task 2: WorkflowTaskCompleted (event 13) 2024-05-01T10:00:01.000Z
  gives WorkflowExecutionUpdateAccepted u-1 addItem (event 14) 2024-05-01T10:00:01.000Z
      {"sku":"a-1"}
  gives WorkflowExecutionUpdateCompleted u-1 (event 15) 2024-05-01T10:00:01.000Z
      {"items":1}
  gives ActivityTaskScheduled 2 sendReceipt (event 16) 2024-05-01T10:00:01.000Z, not ended
  told WorkflowExecutionSignaled pay (event 17) 2024-05-01T10:00:02.000Z
      "now"
can't be replayed here: MarkerRecorded core_patch, 1 events, first (event 5)
can't be replayed here: MarkerRecorded core_local_activity, 1 events, first (event 7)
can't be replayed here: WorkflowExecutionUpdateAccepted, 1 events, first (event 14)
can't be replayed here: WorkflowExecutionUpdateCompleted, 1 events, first (event 15)
running; waits for timer 1 (event 8) since 2024-05-01T10:00:00.000Z until 2024-05-15T10:00:00Z; waits for child receipt-3 receipt (event 9) since 2024-05-01T10:00:00.000Z, started (event 10) 2024-05-01T10:00:00.250Z; waits for activity 2 sendReceipt (event 16) since 2024-05-01T10:00:01.000Z; waits for a workflow task (event 18) since 2024-05-01T10:00:02.000Z, not started
timer: 1 times, 1 open
child receipt: 1 times, 1 open
activity sendReceipt: 1 times, 1 open
"""
# Its last objects: what the run waits for, and what its things come to.
TYPESCRIPT_WAITS = """{"waits":"timer","id":"1","opened":8,"since":"2024-05-01T10:00:00.000Z","until":"2024-05-15T10:00:00Z"}
{"waits":"childWorkflow","id":"receipt-3","type":"receipt","opened":9,"started":10,"since":"2024-05-01T10:00:00.000Z"}
{"waits":"activity","id":"2","type":"sendReceipt","opened":16,"since":"2024-05-01T10:00:01.000Z"}
{"waits":"workflowTask","opened":18,"since":"2024-05-01T10:00:02.000Z"}
{"sum":"timer","times":1,"failed":0,"open":1}
{"sum":"childWorkflow","type":"receipt","times":1,"failed":0,"open":1}
{"sum":"activity","type":"sendReceipt","times":1,"failed":0,"open":1}
"""

# What its markers record, and the run of its child.
TYPESCRIPT_DETAILS = [
    '"marker":{"kind":"patch","name":"fix-tax"},"recorded":',
    '"marker":{"kind":"localActivity","name":"price","attempt":2},"recorded":',
    '"childRunId":"beef","recorded":',
]

# A run in Java that goes on in another one, and one in Python whose workflow task was failed.
JAVA = history(
    (
        "WorkflowExecutionStarted",
        0,
        {
            "workflowType": {"name": "Subscription"},
            "taskQueue": {"name": "subscriptions"},
            "originalExecutionRunId": "run-2",
            "continuedExecutionRunId": "run-1",
            "workflowId": "subscription-5",
            "attempt": 1,
        },
    ),
    *task(0),
    ("MarkerRecorded", 0, marker("Version", 4, changeId="billing", version=1)),
    ("MarkerRecorded", 0, marker("SideEffect", 4, data="seed")),
    ("MarkerRecorded", 0, marker("LocalActivity", 4, activityId="la-1", type="Rate", result=3, meta={"atpt": 3})),
    (
        "WorkflowPropertiesModified",
        0,
        {"workflowTaskCompletedEventId": "4", "upsertedMemo": {"fields": {"plan": payload("gold")}}},
    ),
    ("ActivityTaskScheduled", 0, {"activityId": "a", "activityType": {"name": "Charge"}, "workflowTaskCompletedEventId": "4"}),
    ("ActivityTaskStarted", 1, {"scheduledEventId": "9", "attempt": 1}),
    (
        "ActivityTaskTimedOut",
        11,
        {
            "scheduledEventId": "9",
            "startedEventId": "10",
            "retryState": "RETRY_STATE_TIMEOUT",
            "failure": {
                "message": "activity StartToClose timeout",
                "timeoutFailureInfo": {"timeoutType": "TIMEOUT_TYPE_START_TO_CLOSE"},
            },
        },
    ),
    *task(11),
    (
        "WorkflowExecutionContinuedAsNew",
        11,
        {
            "workflowTaskCompletedEventId": "14",
            "newExecutionRunId": "run-3",
            "input": payloads(payload(b"\x0a\x01x", "binary/protobuf", messageType="acme.Customer")),
        },
    ),
)
JAVA_TEXT = """Subscription: 15 events, 2 tasks completed, 4 things
workflow id subscription-5, run id run-2, Task Queue subscriptions, no parent, goes on from run run-1
ContinuedAsNew (event 15) 2024-05-01T10:00:11.000Z, after 11 s, goes on in run run-3
  told WorkflowExecutionStarted Subscription (event 1) 2024-05-01T10:00:00.000Z, attempt 1
task 1: WorkflowTaskCompleted (event 4) 2024-05-01T10:00:00.000Z
  gives MarkerRecorded version billing 1 (event 5) 2024-05-01T10:00:00.000Z
      changeId "billing"
      version 1
  gives MarkerRecorded side effect (event 6) 2024-05-01T10:00:00.000Z
      data "seed"
  gives MarkerRecorded local activity Rate (event 7) 2024-05-01T10:00:00.000Z, attempt 3
      activityId "la-1"
      meta {"atpt":3}
      result 3
      type "Rate"
  gives WorkflowPropertiesModified (event 8) 2024-05-01T10:00:00.000Z
      plan "gold"
  gives ActivityTaskScheduled a Charge (event 9) 2024-05-01T10:00:00.000Z, started (event 10), ended (event 11)
  has ActivityTaskStarted a Charge (event 10) 2024-05-01T10:00:01.000Z, opened (event 9), waited 1.0 s, attempt 1
  told ActivityTaskTimedOut a Charge (event 11) 2024-05-01T10:00:11.000Z, opened (event 9), took 10 s, because TIMEOUT_TYPE_START_TO_CLOSE: activity StartToClose timeout, retry state RETRY_STATE_TIMEOUT
task 2: WorkflowTaskCompleted (event 14) 2024-05-01T10:00:11.000Z
  gives WorkflowExecutionContinuedAsNew (event 15) 2024-05-01T10:00:11.000Z
      binary/protobuf acme.Customer, 3 bytes
can't be replayed here: MarkerRecorded Version, 1 events, first (event 5)
can't be replayed here: MarkerRecorded SideEffect, 1 events, first (event 6)
can't be replayed here: MarkerRecorded LocalActivity, 1 events, first (event 7)
activity Charge: 1 times, 1 failed, median 11 s, longest 11 s (event 9)
"""

PYTHON = history(
    ("WorkflowExecutionStarted", 0, {"workflowType": {"name": "Approve"}, "taskQueue": {"name": "approvals"}}),
    ("WorkflowTaskScheduled", 0),
    ("WorkflowTaskStarted", 1),
    ("WorkflowTaskTimedOut", 11, {"scheduledEventId": "2", "startedEventId": "3", "timeoutType": "TIMEOUT_TYPE_START_TO_CLOSE"}),
    ("WorkflowExecutionSignaled", 11, {"signalName": "approve"}),
    ("WorkflowTaskScheduled", 11),
    ("WorkflowTaskStarted", 12),
    (
        "WorkflowTaskFailed",
        13,
        {
            "cause": "WORKFLOW_TASK_FAILED_CAUSE_NON_DETERMINISTIC_ERROR",
            "failure": {"message": "Nondeterminism", "applicationFailureInfo": {"type": "NondeterminismError"}},
        },
    ),
)
PYTHON_TEXT = """Approve: 8 events, 0 tasks completed, 1 things
workflow id not recorded, run id not recorded, Task Queue approvals, no parent
Running
  told WorkflowExecutionStarted Approve (event 1) 2024-05-01T10:00:00.000Z
  has WorkflowTaskTimedOut (event 4) 2024-05-01T10:00:11.000Z, timeout TIMEOUT_TYPE_START_TO_CLOSE
  told WorkflowExecutionSignaled approve (event 5) 2024-05-01T10:00:11.000Z
  has WorkflowTaskFailed (event 8) 2024-05-01T10:00:13.000Z, because NondeterminismError: Nondeterminism, cause WORKFLOW_TASK_FAILED_CAUSE_NON_DETERMINISTIC_ERROR
running; waits for a workflow task (event 6) since 2024-05-01T10:00:11.000Z, failed (event 8) 2024-05-01T10:00:13.000Z, tried again
"""
PYTHON_AROUND = """Approve: 8 events, 0 tasks completed, 1 things
workflow id not recorded, run id not recorded, Task Queue approvals, no parent
Running
no event 999, the last is (event 8)
8 events of other tasks are left out
running; waits for a workflow task (event 6) since 2024-05-01T10:00:11.000Z, failed (event 8) 2024-05-01T10:00:13.000Z, tried again
"""
# Its last object as JSON.
PYTHON_WAITS = """{"waits":"workflowTask","opened":6,"failed":8,"since":"2024-05-01T10:00:11.000Z"}
"""


def activity(opened, kind, scheduled, closed=None, end="Completed"):
    """An activity, whose events are numbered from the one that schedules it."""
    events = [("ActivityTaskScheduled", scheduled, {"activityId": str(opened), "activityType": {"name": kind}, "workflowTaskCompletedEventId": "4"})]
    if closed is None:
        return events
    return [*events, (f"ActivityTask{end}", closed, {"scheduledEventId": str(opened)})]


# Markers with payloads in shorthand: a mutable side effect, a patch that is deprecated, and a version without its change. Then a
# local activity whose type is bytes.
ODD = history(
    ("WorkflowExecutionStarted", 0, {"workflowType": {"name": "Odd"}}),
    *task(0),
    ("MarkerRecorded", 0, {"markerName": "MutableSideEffect", "details": {"side-effect-id": ["rate"], "data": [7]}}),
    ("MarkerRecorded", 0, {"markerName": "core_patch", "details": {"patch-data": [{"id": "old-tax", "deprecated": True}]}}),
    ("MarkerRecorded", 0, {"markerName": "Version", "details": {"version": [1]}}),
    ("MarkerRecorded", 0, {"markerName": "LocalActivity", "details": {"type": payload(b"\x00\xff", "binary/encrypted")}}),
)
ODD_TEXT = """Odd: 8 events, 1 tasks completed, 4 things
workflow id not recorded, run id not recorded, Task Queue not recorded, no parent
Running
  told WorkflowExecutionStarted Odd (event 1) 2024-05-01T10:00:00.000Z
task 1: WorkflowTaskCompleted (event 4) 2024-05-01T10:00:00.000Z
  gives MarkerRecorded mutable side effect rate (event 5) 2024-05-01T10:00:00.000Z
      data 7
      side-effect-id "rate"
  gives MarkerRecorded patch old-tax (event 6) 2024-05-01T10:00:00.000Z, deprecated
      patch-data {"deprecated":true,"id":"old-tax"}
  gives MarkerRecorded Version (event 7) 2024-05-01T10:00:00.000Z, shorthand payload
      version 1
  gives MarkerRecorded local activity (event 8) 2024-05-01T10:00:00.000Z
      type binary/encrypted, 2 bytes
can't be replayed here: MarkerRecorded MutableSideEffect, 1 events, first (event 5)
can't be replayed here: MarkerRecorded core_patch, 1 events, first (event 6)
can't be replayed here: MarkerRecorded LocalActivity, 1 events, first (event 8)
running; no activity, timer, child workflow, request or workflow task is open
"""
ODD_DETAILS = [
    '"marker":{"kind":"mutableSideEffect","name":"rate"},"recorded":',
    '"marker":{"kind":"patch","name":"old-tax","deprecated":true},"recorded":',
    '"marker":{"kind":"localActivity"},"recorded":',
]

# Four cards of which the third took an hour and failed, one that is not charged yet, and two letters of 80 and 300 ms.
CARDS = history(
    ("WorkflowExecutionStarted", 0, {"workflowType": {"name": "Batch"}}),
    *task(0),
    *activity(5, "ChargeCard", 0, 1),
    *activity(7, "SendLetter", 1, 1.08),
    *activity(9, "ChargeCard", 2, 4),
    *activity(11, "ChargeCard", 5, 3605, "Failed"),
    *activity(13, "SendLetter", 3605, 3605.3),
    *activity(15, "ChargeCard", 3605, 3609.5),
    *activity(17, "ChargeCard", 3610),
)
CARDS_SUMS = """activity ChargeCard: 5 times, 1 failed, 1 open, median 2.0 s, longest 1 h (event 11)
activity SendLetter: 2 times, median 80 ms, longest 0.3 s (event 13)
"""
CARDS_OBJECTS = """{"sum":"activity","type":"ChargeCard","times":5,"failed":1,"open":1,"median":2.000,"longest":3600.000,"longestOpened":11}
{"sum":"activity","type":"SendLetter","times":2,"failed":0,"open":0,"median":0.080,"longest":0.300,"longestOpened":13}
"""


def poller(times):
    """A run that asks so many times, a minute apart, whether something is shipped: the last answer is yes."""
    events = [("WorkflowExecutionStarted", 0, {"workflowType": {"name": "Poller"}}), *task(0)]
    for turn in range(times):
        asked, opened, is_last = 60 * turn, len(events) + 1, turn + 1 == times
        given = {"activityId": str(opened), "activityType": {"name": "IsShipped"}, "workflowTaskCompletedEventId": str(opened - 1)}
        ended = {"scheduledEventId": str(opened), "startedEventId": str(opened + 1), "result": payloads(is_last)}
        events += [
            ("ActivityTaskScheduled", asked, given),
            ("ActivityTaskStarted", asked, {"scheduledEventId": str(opened), "attempt": 1}),
            ("ActivityTaskCompleted", asked + 1, ended),
            *task(asked + 1),
        ]
        if not is_last:
            waits = {"timerId": str(opened + 6), "startToFireTimeout": "59s", "workflowTaskCompletedEventId": str(opened + 5)}
            fired = {"timerId": str(opened + 6), "startedEventId": str(opened + 6)}
            events += [("TimerStarted", asked + 1, waits), ("TimerFired", asked + 60, fired), *task(asked + 60)]
    end = {"workflowTaskCompletedEventId": str(len(events))}
    return history(*events, ("WorkflowExecutionCompleted", 60 * times - 59, end))


POLLER = poller(36)
POLLER_TEXT = """Poller: 396 events, 72 tasks completed, 71 things
workflow id not recorded, run id not recorded, Task Queue not recorded, no parent
Completed (event 396) 2024-05-01T10:35:01.000Z, after 35 min 1 s
  told WorkflowExecutionStarted Poller (event 1) 2024-05-01T10:00:00.000Z
task 1: WorkflowTaskCompleted (event 4) 2024-05-01T10:00:00.000Z
  gives ActivityTaskScheduled 5 IsShipped (event 5) 2024-05-01T10:00:00.000Z, started (event 6), ended (event 7)
  has ActivityTaskStarted 5 IsShipped (event 6) 2024-05-01T10:00:00.000Z, opened (event 5), waited 0 ms, attempt 1
  told ActivityTaskCompleted 5 IsShipped (event 7) 2024-05-01T10:00:01.000Z, opened (event 5), took 1.0 s
      false
task 2: WorkflowTaskCompleted (event 10) 2024-05-01T10:00:01.000Z
  gives TimerStarted 11 (event 11) 2024-05-01T10:00:01.000Z, ended (event 12), 59 s
  told TimerFired 11 (event 12) 2024-05-01T10:01:00.000Z, opened (event 11), took 59 s
task 3: WorkflowTaskCompleted (event 15) 2024-05-01T10:01:00.000Z
  gives ActivityTaskScheduled 16 IsShipped (event 16) 2024-05-01T10:01:00.000Z, started (event 17), ended (event 18)
68 more tasks, up to task 71 (event 390), repeat tasks before them but for ids, numbers, times and values: 374 events, which --all shows
  has ActivityTaskStarted 390 IsShipped (event 391) 2024-05-01T10:35:00.000Z, opened (event 390), waited 0 ms, attempt 1
  told ActivityTaskCompleted 390 IsShipped (event 392) 2024-05-01T10:35:01.000Z, opened (event 390), took 1.0 s
      true
task 72: WorkflowTaskCompleted (event 395) 2024-05-01T10:35:01.000Z
  gives WorkflowExecutionCompleted (event 396) 2024-05-01T10:35:01.000Z
activity IsShipped: 36 times, median 1.0 s, longest 1.0 s (event 5)
timer: 35 times, median 59 s, longest 59 s (event 11)
"""
# Its first poll fails, and is unlike the others, of which the second is shown too.
POLLER_AMISS = POLLER.replace(b"EVENT_TYPE_ACTIVITY_TASK_COMPLETED", b"EVENT_TYPE_ACTIVITY_TASK_FAILED", 1)
POLLER_AMISS = POLLER_AMISS.replace(b"activityTaskCompletedEventAttributes", b"activityTaskFailedEventAttributes", 1)
AMISS_LINES = "*told ActivityTaskFailed 5 *told ActivityTaskCompleted 16 *\n67 more tasks, up to task 71 (event 390), *: 368 events, *"


def turns(*kinds, fault=None):
    """A run that runs activities of these types one after the other, each of which is completed, or fails by the fault of its
    turn."""
    events = [("WorkflowExecutionStarted", 0, {"workflowType": {"name": "Turns"}}), *task(0)]
    for turn, kind in enumerate(kinds, 1):
        opened = len(events) + 1
        given = {"activityId": str(opened), "activityType": {"name": kind}, "workflowTaskCompletedEventId": str(opened - 1)}
        ended = {"scheduledEventId": str(opened), "startedEventId": str(opened + 1)} | ({"failure": fault(turn)} if fault else {})
        events += [
            ("ActivityTaskScheduled", turn, given),
            ("ActivityTaskStarted", turn, {"scheduledEventId": str(opened), "attempt": 1}),
            (f"ActivityTask{'Failed' if fault else 'Completed'}", turn, ended),
            *task(turn),
        ]
    return history(*events, ("WorkflowExecutionCompleted", len(kinds), {"workflowTaskCompletedEventId": str(len(events))}))


def late(turn):
    return {"message": f"order {turn} is late", "applicationFailureInfo": {"type": "Late"}}


def refused(turn):
    return {"message": "refused", "applicationFailureInfo": {"type": f"Error50{turn % 2}"}}


# Four turns, of which the tasks 2 to 4 are told how one ended and give the next. Types that differ in digits are different types,
# so that task 3 is not like task 2, while task 4 is; of messages digits don't count.
TURNS = {
    "types.json": (turns("ChargeV1", "ChargeV2", "ChargeV1", "ChargeV2"), "*gives ActivityTaskScheduled 17 ChargeV1 *\n1 more tasks, up to task 4 (event 23), *: 6 events, *"),
    "faults.json": (turns(*["Charge"] * 4, fault=refused), "*gives ActivityTaskScheduled 17 Charge *\n1 more tasks, up to task 4 (event 23), *: 6 events, *"),
    "messages.json": (turns(*["Charge"] * 4, fault=late), "*gives ActivityTaskScheduled 11 Charge *\n2 more tasks, up to task 4 (event 23), *: 12 events, *"),
}


def sdk_runs(room):
    """Each run, as text; what markers record, what an open run waits for, the tasks around an event that is not there, and what
    things come to."""
    files = {
        "go.json": GO,
        "typescript.json": TYPESCRIPT,
        "java.json": JAVA,
        "python.json": PYTHON,
        "odd.json": ODD,
        "cards.json": CARDS,
        "poller.json": POLLER,
        "amiss.json": POLLER_AMISS,
        **{name: given for name, (given, _) in TURNS.items()},
    }
    folder = room.folder(files)
    show = ["explain", "--recorded"]
    return [
        ([*show, f"{folder}/go.json"], 0, GO_TEXT, ""),
        ([*show, f"{folder}/typescript.json"], 0, TYPESCRIPT_TEXT, ""),
        ([*show, f"{folder}/java.json"], 0, JAVA_TEXT, ""),
        ([*show, f"{folder}/python.json"], 0, PYTHON_TEXT, ""),
        ([*show, f"{folder}/odd.json"], 0, ODD_TEXT, ""),
        ([*show, "--json", f"{folder}/go.json"], 0, Like(f"*{'*'.join(GO_MARKERS)}*"), ""),
        ([*show, "--json", f"{folder}/typescript.json"], 0, Like(f"*{'*'.join(TYPESCRIPT_DETAILS)}*"), ""),
        ([*show, "--json", f"{folder}/odd.json"], 0, Like(f"*{'*'.join(ODD_DETAILS)}*"), ""),
        ([*show, "--json", "--last", "1", f"{folder}/typescript.json"], 0, Like(f"*{TYPESCRIPT_WAITS}"), ""),
        ([*show, "--json", "--last", "1", f"{folder}/go.json"], 0, Like(f"{GO_RUN}*"), ""),
        ([*show, "--around", "999", f"{folder}/python.json"], 0, PYTHON_AROUND, ""),
        ([*show, "--json", f"{folder}/python.json"], 0, Like(f"*{PYTHON_WAITS}"), ""),
        ([*show, f"{folder}/cards.json"], 0, Like(f"*{CARDS_SUMS}"), ""),
        ([*show, "--last", "1", f"{folder}/cards.json"], 0, Like(f"*{CARDS_SUMS}"), ""),
        ([*show, "--json", f"{folder}/cards.json"], 0, Like(f"*{CARDS_OBJECTS}"), ""),
        ([*show, f"{folder}/poller.json"], 0, POLLER_TEXT, ""),
        (["explain", f"{folder}/poller.json"], 1, Like(f"*{POLLER_TEXT}"), ""),
        ([*show, "--all", f"{folder}/poller.json"], 0, Like("*\ntask 4: *\ntask 71: *"), ""),
        ([*show, "--json", f"{folder}/poller.json"], 0, Like('*{"place":200,*{"place":390,*'), ""),
        ([*show, f"{folder}/amiss.json"], 0, Like(AMISS_LINES), ""),
        *[([*show, f"{folder}/{name}"], 0, Like(wanted), "") for name, (_, wanted) in TURNS.items()],
    ]
