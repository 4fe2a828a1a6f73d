"""Queries of histories: of a race, of a table, and by the program of orders of its orders and of samples in rows, with what each
says by its definition."""

import base64
import json

from .rooms import EXAMPLES, NAP, NOT_JSON, RACER, TOP, up_to
from .runs import Like
from .texts import MISSING, OTHER_TYPE, cannot_read

ORDERS = TOP / "crates/order_worker/out/order_worker"
# The events of an order, without those of its workflow tasks: it is charged for and called off, or shipped.
CHARGED = [
    ("WorkflowExecutionStarted", {"workflowType": {"name": "Order"}}),
    "task",
    ("ActivityTaskScheduled", {"activityId": "charge", "activityType": {"name": "ChargeCard"}}),
    ("ActivityTaskCompleted", {"scheduledEventId": "5"}),
    "task",
    ("TimerStarted", {"timerId": "hold"}),
]
CALLED_OFF = [
    *CHARGED,
    ("WorkflowExecutionSignaled", {"signalName": "cancel"}),
    "task",
    ("TimerCanceled", {"timerId": "hold", "startedEventId": "10"}),
    ("WorkflowExecutionCompleted", {}),
]
SHIPPED = [
    *CHARGED,
    ("TimerFired", {"timerId": "hold", "startedEventId": "10"}),
    "task",
    ("StartChildWorkflowExecutionInitiated", {"workflowId": "parcel", "workflowType": {"name": "Ship"}}),
    ("ChildWorkflowExecutionStarted", {"initiatedEventId": "15"}),
]
# The events of a run whose table comes with it: it waits, and then is done.
TABLE = {"version": 1, "rows": [
    ['waiting "now"', "start", "", "timer nap 30"],
    ['waiting "now"', "fired nap", "", "", "rested"],
    ["rested", "signal on", "", "complete"],
]}
RESTED = [
    ("WorkflowExecutionStarted", {
        "workflowType": {"name": "Table:nap"},
        "input": {"payloads": [{
            "metadata": {"encoding": base64.b64encode(b"json/plain").decode()},
            "data": base64.b64encode(json.dumps(TABLE).encode()).decode(),
        }]},
    }),
    "task",
    ("TimerStarted", {"timerId": "nap"}),
    ("TimerFired", {"timerId": "nap", "startedEventId": "5"}),
    "task",
]
PHASES = "unknown query type status; known: phase"
NONE = "unknown query type phase; known: none"
BUILT_IN = "built-in query types are not supported: __open_sessions"
STACK_TRACE = "There is no stack trace: this worker runs a workflow as steps of a state, without coroutines."
LAST = "command 2 of the task at 3 has no event"


def order(events):
    """The history of an order with these events."""
    told = []
    for event in events:
        tasks = ("Scheduled", "Started", "Completed") if event == "task" else ()
        told += [(f"WorkflowTask{part}", {}) for part in tasks] or [event]
    return json.dumps({
        "events": [
            {
                "eventId": str(number),
                "eventTime": "2024-05-01T10:00:01Z",
                "eventType": kind,
                f"{kind[0].lower()}{kind[1:]}EventAttributes": attributes,
            }
            for number, (kind, attributes) in enumerate(told, 1)
        ]
    }).encode()


def of_orders(room):
    """What orders say of how far they have come: charging, held, shipping and closed."""
    called, shipped = order(CALLED_OFF), order(SHIPPED)
    folder = room.folder({
        "begun.json": up_to(called, 2),
        "live.json": up_to(called, 3),
        "charging.json": up_to(called, 5),
        "charged.json": up_to(called, 7),
        "held.json": up_to(called, 8),
        "waiting.json": up_to(called, 11),
        "closed.json": called,
        "fired.json": up_to(shipped, 11),
        "shipping.json": shipped,
        "other.json": called.replace(b'"charge"', b'"charges"'),
    })
    said = {
        "begun": ("0 tasks", "charging"),
        "live": ("1 tasks, last live", "charging"),
        "charging": ("1 tasks", "charging"),
        "charged": ("1 tasks", "charging"),
        "waiting": ("2 tasks", "held"),
        "closed": ("3 tasks", "closed"),
        "fired": ("2 tasks", "held"),
        "shipping": ("3 tasks", "shipping"),
    }
    how = {"program": ORDERS, "called": "orders"}
    fault = "event 5 differs"
    return [
        *(
            (["query", f"{folder}/{name}.json", "status"], 0, f'{name}.json: ok, {tasks}\n"{state}"\n', "", how)
            for name, (tasks, state) in said.items()
        ),
        (["query", f"{folder}/held.json", "status", "1"], 0, 'held.json: ok, 2 tasks, last live\n"held"\n', "", how),
        (
            ["query", f"{folder}/other.json", "status"],
            1,
            f"other.json: fault, {fault}\nquery failed, {fault}\n",
            "orders: other.json: sends StartActivity charge ChargeCard, recorded 5 ActivityTaskScheduled charges ChargeCard\n",
            how,
        ),
        (
            ["query", f"{folder}/closed.json", "price"],
            1,
            "closed.json: ok, 3 tasks\nquery failed, unknown query type price; known: status\n",
            "",
            how,
        ),
    ]


def of_rows(room):
    """What samples in rows say of histories that the same in code made, and of their state."""
    folder = room.folder({"family.json": (EXAMPLES / "family.json").read_bytes(), "nap.json": NAP})
    how = {"program": ORDERS, "called": "orders"}
    return [
        (["replay", folder], 0, "family.json: ok, 3 tasks\nnap.json: ok, 2 tasks\n2 files, 2 ok\n", "", how),
        (["query", f"{folder}/nap.json", "state"], 0, 'nap.json: ok, 2 tasks\n"asleep"\n', "", how),
    ]


def of_tables(room):
    """What a run that brought its table says of its state."""
    rested = order(RESTED)
    folder = room.folder({"waiting.json": up_to(rested, 5), "rested.json": rested})
    return [
        (["query", f"{folder}/waiting.json", "state"], 0, 'waiting.json: ok, 1 tasks\n"waiting \\"now\\""\n', ""),
        (["query", f"{folder}/rested.json", "state"], 0, 'rested.json: ok, 2 tasks\n"rested"\n', ""),
        (
            ["query", f"{folder}/rested.json", "counters"],
            1,
            "rested.json: ok, 2 tasks\nquery failed, unknown query type counters; known: state\n",
            "",
        ),
    ]


def queries(room):
    """What is said of queries of each kind."""
    folder, missing = room.folder({
        "race.json": RACER,
        "late.json": up_to(RACER, 16),
        "open.json": up_to(RACER, 8),
        "short.json": up_to(RACER, 5),
        "nap.json": NAP,
        "nope.json": NAP.replace(b'"name":"Nap"', b'"name":"Nope"'),
        "cut.json": NOT_JSON,
    }), str(room.new())
    race, short, cut, nope = (f"{folder}/{name}.json" for name in ("race", "short", "cut", "nope"))
    done, phase = 'race.json: ok, 4 tasks\n"done"\n', ["query", race, "phase"]
    coded = '{"file":"race.json","verdict":"ok","tasks":4,"live":false}\n'
    not_json = "wfhost: the arguments of a query must be JSON\n"
    return [
        *of_orders(room),
        *of_rows(room),
        *of_tables(room),
        (phase, 0, done, ""),
        (["query", "-", "phase"], 0, done.replace("race.json", "-"), "", {"given": RACER}),
        ([*phase, "--json"], 0, f'{coded}{{"queryResult":["done"]}}\n', ""),
        ([*phase, '{"a": 1}', "[]", "--", "-1"], 0, done, ""),
        (["query", f"{folder}/late.json", "phase"], 0, 'late.json: ok, 3 tasks\n"late"\n', ""),
        (["query", f"{folder}/open.json", "phase"], 0, 'open.json: ok, 1 tasks\n"racing"\n', ""),
        (["query", race, "status"], 1, f"race.json: ok, 4 tasks\nquery failed, {PHASES}\n", ""),
        (["query", "--json", race, "status"], 1, f'{coded}{{"queryFailed":"{PHASES}"}}\n', ""),
        (["query", race, "__open_sessions"], 1, f"race.json: ok, 4 tasks\nquery failed, {BUILT_IN}\n", ""),
        (["query", race, "__stack_trace"], 0, f'race.json: ok, 4 tasks\n"{STACK_TRACE}"\n', ""),
        (["query", f"{folder}/nap.json", "phase"], 1, f"nap.json: ok, 2 tasks\nquery failed, {NONE}\n", ""),
        (
            ["query", short, "phase"],
            1,
            f"short.json: fault, {LAST}\nquery failed, {LAST}\n",
            "wfhost: short.json: sends StartTimer t (30 s), recorded nothing\n",
        ),
        (
            ["query", cut, "phase"],
            1,
            "cut.json: unreadable, not JSON\nquery failed, not JSON\n",
            "wfhost: cut.json: not JSON at line 2 column 3\n",
        ),
        (
            ["query", nope, "phase"],
            1,
            "nope.json: fault, task at 1: UnknownWorkflow\nquery failed, task at 1: UnknownWorkflow\n",
            "wfhost: nope.json: no code for the workflow type Nope\n" + OTHER_TYPE,
        ),
        (["query", missing, "phase"], 2, "", cannot_read(missing, MISSING)),
        (["query", folder, "phase"], 2, "", cannot_read(folder, "is a folder")),
        *(([*phase, word], 2, "", not_json) for word in ("done", "", "1 2", "{")),
        (["query", missing, "phase", "x"], 2, "", not_json),
        *((words, 2, "", Like("error: *")) for words in (["query"], ["query", race], [*phase, "-1"])),
        (phase, 2, "", "wfhost: cannot write\n", {"out": "full"}),
        (phase, 2, None, "", {"out": "broken"}),
    ]
