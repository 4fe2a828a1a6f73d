"""What is recorded in files, shown without code for their workflow types."""

import json

from .rooms import NAP, NOT_JSON
from .runs import Like
from .texts import EXPLAINED, FORBIDDEN, IS_FOLDER, MISSING, cannot_read

NAMES = "workflow id not recorded, run id not recorded, Task Queue not recorded, no parent\n"
HEAD = f"""Nap: 10 events, 2 tasks completed, 1 things
{NAMES}Completed (event 10) 2024-05-01T10:01:09Z, after 1 min 8 s
"""
FIRST_TASK = """  told WorkflowExecutionStarted Nap (event 1) 2024-05-01T10:00:01Z
task 1: WorkflowTaskCompleted (event 4) 2024-05-01T10:00:04Z
  gives TimerStarted nap (event 5) 2024-05-01T10:00:05Z, ended (event 6)
"""
SECOND_TASK = """  told TimerFired nap (event 6) 2024-05-01T10:01:05Z, opened (event 5), took 1 min
task 2: WorkflowTaskCompleted (event 9) 2024-05-01T10:01:08Z
  gives WorkflowExecutionCompleted (event 10) 2024-05-01T10:01:09Z
"""
# What its timer comes to.
SUMS = "timer: 1 times, median 1 min, longest 1 min (event 5)\n"
VIEWED = f"{HEAD}{FIRST_TASK}{SECOND_TASK}{SUMS}"
VIEWED_LAST = f"{HEAD}{SECOND_TASK}5 events of other tasks are left out\n{SUMS}"
# Seven tasks, each of one event.
TASKS = [
    {"eventId": str(number), "eventTime": f"2024-05-01T10:00:0{number}Z", "eventType": "WorkflowTaskCompleted"}
    for number in range(1, 8)
]
# That of event 4, with two before and two after it.
VIEWED_AROUND = f""": 7 events, 7 tasks completed, 0 things
{NAMES}Running
task 2: WorkflowTaskCompleted (event 2) 2024-05-01T10:00:02Z
task 3: WorkflowTaskCompleted (event 3) 2024-05-01T10:00:03Z
task 4: WorkflowTaskCompleted (event 4) 2024-05-01T10:00:04Z
task 5: WorkflowTaskCompleted (event 5) 2024-05-01T10:00:05Z
task 6: WorkflowTaskCompleted (event 6) 2024-05-01T10:00:06Z
2 events of other tasks are left out
running; no activity, timer, child workflow, request or workflow task is open
"""
VIEWED_AS_JSON = """{"events":7,"tasks":7,"things":0,"run":{"status":"Running"}}
{"place":7,"event":7,"task":7,"is":"completes","recorded":{"eventId":"7","eventTime":"2024-05-01T10:00:07Z","eventType":"WorkflowTaskCompleted"}}
"""
TWICE = "error: --all, --around and --last can't be given together\n"
LEFT = "tasks are left out: --all shows them, --last N or --around EVENT some of them\n"
SIGNALS = 4_998


def signalled_nap(end):
    """A nap with many signals and this end: 20,002 events."""
    task = ["WorkflowTaskScheduled", "WorkflowTaskStarted", "WorkflowTaskCompleted"]
    events = ["WorkflowExecutionStarted", *task, "TimerStarted"]
    events += ["WorkflowExecutionSignaled", *task] * SIGNALS
    events += ["TimerFired", *task, end]
    given = {
        "WorkflowExecutionStarted": {"workflowExecutionStartedEventAttributes": {"workflowType": {"name": "Nap"}}},
        "WorkflowExecutionSignaled": {"workflowExecutionSignaledEventAttributes": {"signalName": "poke"}},
        "TimerStarted": {"timerStartedEventAttributes": {"timerId": "nap"}},
        "TimerFired": {"timerFiredEventAttributes": {"startedEventId": "5"}},
    }
    numbered = [
        {"eventId": str(number), "eventTime": "2024-05-01T10:00:01Z", "eventType": kind} | given.get(kind, {})
        for number, kind in enumerate(events, 1)
    ]
    return json.dumps(numbered).encode()


STARTS = """task at 3
  told Time 2024-05-01T10:00:01Z (event 3)
  told Start Nap (event 1)
    gives StartTimer nap (60 s)
  sends StartTimer nap (60 s), recorded 5 TimerStarted nap
"""
WAKES = """task at 20000
  told Time 2024-05-01T10:00:01Z (event 20000)
  told TimerFired nap (event 19998)
    gives Complete
  sends Complete, recorded 20002 """
# The task of the fault, and that which started its timer.
FAULTY = f"""4998 {LEFT}{STARTS}{WAKES}WorkflowExecutionFailed, differs
failed.json: fault, event 20002 differs
"""
FOLDED = f"""{STARTS}task at 8
  told Time 2024-05-01T10:00:01Z (event 8)
  told Signal poke (event 6)
4997 more tasks, up to that at 19996, are alike but for numbers and times
{WAKES}WorkflowExecutionCompleted
long.json: ok, 5000 tasks
"""
LAST_OF_LONG = f"""4999 {LEFT}{WAKES}WorkflowExecutionCompleted
long.json: ok, 5000 tasks
"""
NO_PAGE = "error: --html takes one file, and can't be given with --json, --all, --around or --last\n"


def views(room):
    """All tasks of a history, the last of them, or those round an event; and what can't be shown."""
    long = {"long.json": signalled_nap("WorkflowExecutionCompleted"), "failed.json": signalled_nap("WorkflowExecutionFailed")}
    files = long | {"nap.json": NAP, "tasks.json": json.dumps(TASKS).encode(), "cut.json": NOT_JSON, "empty.json": b"[]"}
    folder, missing = room.folder(files | {"other.json": NAP.replace(b'"name":"Nap"', b'"name":"Nope"')}), str(room.new())
    nap, tasks = f"{folder}/nap.json", f"{folder}/tasks.json"
    show = ["explain", "--recorded"]
    return [
        ([*show, nap], 0, VIEWED, ""),
        ([*show, f"{folder}/other.json"], 0, VIEWED.replace("Nap", "Nope"), ""),
        ([*show, "-"], 0, VIEWED, "", {"given": NAP}),
        ([*show, nap, "--last", "1"], 0, VIEWED_LAST, ""),
        ([*show, nap, "--last", "67108864"], 0, VIEWED, ""),
        ([*show, "--around", "4", tasks], 0, VIEWED_AROUND, ""),
        ([*show, "--around", "9", nap], 0, VIEWED, ""),
        ([*show, "--around", "11", nap], 0, f"{HEAD}no event 11, the last is (event 10)\n10 events of other tasks are left out\n{SUMS}", ""),
        ([*show, "--json", "--last", "1", tasks], 0, VIEWED_AS_JSON, ""),
        ([*show, f"{folder}/cut.json"], 2, "", "wfhost: cut.json: not JSON at line 2 column 3\n"),
        ([*show, f"{folder}/empty.json"], 2, "", "wfhost: empty.json: unreadable, no events\n"),
        ([*show, missing], 2, "", cannot_read(missing, MISSING)),
        ([*show, nap, "--last", "1", "--around", "1"], 2, "", TWICE),
        (["explain", f"{folder}/failed.json"], 1, FAULTY, ""),
        (["explain", f"{folder}/long.json"], 0, FOLDED, ""),
        (["explain", f"{folder}/long.json", "--last", "1"], 0, LAST_OF_LONG, ""),
        (["explain", "--all", nap], 0, EXPLAINED, ""),
        (["explain", "--around", "6", nap], 0, EXPLAINED, ""),
        (["explain", nap, "--all", "--last", "1"], 2, "", TWICE),
        (["explain", "--html", nap], 0, Like("<!doctype html>*ok, 2 tasks*"), ""),
        (["explain", "--html", f"{folder}/failed.json"], 1, Like("<!doctype html>*fault, event 20002 differs*"), ""),
        ([*show, "--html", nap], 0, Like("<!doctype html>*recorded, and not replayed*"), ""),
        (["explain", "--html", f"{folder}/cut.json"], 2, "", "wfhost: cut.json: not JSON at line 2 column 3\n"),
        (["explain", "--html", missing], 2, "", cannot_read(missing, MISSING)),
        (["explain", "--html", "--json", nap], 2, "", NO_PAGE),
        (["explain", "--html", "--last", "2", nap], 2, "", NO_PAGE),
        ([*show, nap, "--last", "0"], 2, "", "error: --last must be 1 to 67108864\n"),
        ([*show, nap, "--last", "67108865"], 2, "", "error: --last must be 1 to 67108864\n"),
        ([*show, nap, "--around", "0"], 2, "", "error: --around must be 1 to 9223372036854775807\n"),
        ([*show, nap, "--around", "x"], 2, "", "error: --around must be a number\n"),
    ]


def failed_order():
    """An order that failed, since its card was declined three times: it took 19 minutes and 33 seconds."""
    declined = {"message": "card declined", "applicationFailureInfo": {"type": "CardDeclined"}}
    activity = {"message": "activity error", "cause": declined}
    start = {"workflowId": "order-7", "originalExecutionRunId": "run-7", "workflowType": {"name": "Order"}}
    scheduled = {"activityId": "1", "activityType": {"name": "ChargeCard"}}
    events = [
        ("10:00:01", "WorkflowExecutionStarted", "workflowExecutionStartedEventAttributes", start),
        ("10:00:02", "ActivityTaskScheduled", "activityTaskScheduledEventAttributes", scheduled),
        ("10:19:31", "ActivityTaskStarted", "activityTaskStartedEventAttributes", {"scheduledEventId": "2", "attempt": 3}),
        (
            "10:19:32",
            "ActivityTaskFailed",
            "activityTaskFailedEventAttributes",
            {"scheduledEventId": "2", "startedEventId": "3", "failure": declined},
        ),
        ("10:19:34", "WorkflowExecutionFailed", "workflowExecutionFailedEventAttributes", {"failure": activity}),
    ]
    numbered = [
        {"eventId": str(number), "eventTime": f"2024-05-01T{time}Z", "eventType": kind, key: value}
        for number, (time, kind, key, value) in enumerate(events, 1)
    ]
    return json.dumps({"events": numbered}).encode()


def ended(kind, attributes):
    """A run that starts at a second of a minute and ends two seconds later, by this event, whose attributes have a key."""
    start = {"workflowType": {"name": "Say \"hi\""}, "workflowId": "caf\u00e9"}
    events = [
        {
            "eventId": "1",
            "eventTime": "2024-05-01T10:00:01Z",
            "eventType": "WorkflowExecutionStarted",
            "workflowExecutionStartedEventAttributes": start,
        },
        {"eventId": "2", "eventTime": "2024-05-01T10:00:03Z", "eventType": kind} | attributes,
    ]
    return json.dumps(events).encode()


STOPPED = {"workflowExecutionTerminatedEventAttributes": {"reason": "by hand"}}
NAP_LINE = "nap.json: Nap, completed, started 2024-05-01T10:00:01Z, lasted 1 min 8 s\n"
ORDER_LINE = (
    "order.json: Order, workflow id order-7, failed, started 2024-05-01T10:00:01Z, lasted 19 min 33 s, 3 attempts,"
    " because CardDeclined: card declined\n"
)
OVERVIEW = f"""cut.json: not JSON at line 2 column 3
empty.json: unreadable, no events
folder.json: unreadable, is a folder
{NAP_LINE}{ORDER_LINE}tasks.json: running
3 runs: 1 completed, 1 failed, 1 running; 3 unreadable
"""
OVERVIEW_AS_JSON = """{"file":"cut.json","verdict":"unreadable","fault":"not JSON","line":2,"column":3}
{"file":"empty.json","verdict":"unreadable","fault":"no events"}
{"file":"folder.json","verdict":"unreadable","fault":"is a folder"}
{"file":"nap.json","type":"Nap","status":"Completed","started":"2024-05-01T10:00:01Z","seconds":68.000}
{"file":"order.json","type":"Order","workflowId":"order-7","runId":"run-7","status":"Failed",\
"started":"2024-05-01T10:00:01Z","seconds":1173.000,"attempts":3,"cause":"card declined","causeType":"CardDeclined"}
{"file":"tasks.json","status":"Running"}
{"runs":3,"completed":1,"failed":1,"canceled":0,"terminated":0,"timedOut":0,"continuedAsNew":0,"running":1,"unreadable":3}
"""
OTHERS = """canceled.json: Say "hi", workflow id café, canceled, started 2024-05-01T10:00:01Z, lasted 2.0 s
next.json: Say "hi", workflow id café, continued as new, started 2024-05-01T10:00:01Z, lasted 2.0 s
terminated.json: Say "hi", workflow id café, terminated, started 2024-05-01T10:00:01Z, lasted 2.0 s, because by hand
timed_out.json: Say "hi", workflow id café, timed out, started 2024-05-01T10:00:01Z, lasted 2.0 s
4 runs: 1 canceled, 1 terminated, 1 timed out, 1 continued as new
"""
TERMINATED_AS_JSON = r"""{"file":"FOLDER/terminated.json","type":"Say \"hi\"","workflowId":"café","status":"Terminated",
"started":"2024-05-01T10:00:01Z","seconds":2.000,"cause":"by hand"}
{"runs":1,"completed":0,"failed":0,"canceled":0,"terminated":1,"timedOut":0,"continuedAsNew":0,"running":0,"unreadable":0}
""".replace(",\n", ",")
ONE_FILE = "error: --all, --around and --last take one file\n"


def overviews(room):
    """A line for each of several histories, or of those of a folder, and how many runs have each status."""
    folder = room.folder({"nap.json": NAP})
    mixed = room.folder(
        {
            "cut.json": NOT_JSON,
            "empty.json": b"[]",
            "folder.json": lambda path: path.mkdir(),
            "nap.json": NAP,
            "order.json": failed_order(),
            "tasks.json": json.dumps(TASKS).encode(),
        }
    )
    others = room.folder(
        {
            "canceled.json": ended("WorkflowExecutionCanceled", {}),
            "next.json": ended("WorkflowExecutionContinuedAsNew", {}),
            "terminated.json": ended("WorkflowExecutionTerminated", STOPPED),
            "timed_out.json": ended("WorkflowExecutionTimedOut", {}),
        }
    )
    closed = room.folder({"a.json": lambda path: (path.write_bytes(NAP), path.chmod(0)), "b.json": NAP})
    empty, missing = room.folder({}), str(room.new())
    none = f"wfhost: no .json file in {empty}\n"
    two = f"{mixed}/tasks.json: running\n{folder}/{NAP_LINE}2 runs: 1 completed, 1 running\n"
    forbidden = f"a.json: unreadable, {FORBIDDEN}\nb{NAP_LINE[3:]}1 runs: 1 completed; 1 unreadable\n"
    terminated = TERMINATED_AS_JSON.replace("FOLDER", others)
    show = ["explain", "--recorded"]
    return [
        ([*show, folder], 0, f"{NAP_LINE}1 runs: 1 completed\n", ""),
        ([*show, mixed], 1, OVERVIEW, ""),
        ([*show, "--json", mixed], 1, OVERVIEW_AS_JSON, ""),
        ([*show, others], 0, OTHERS, ""),
        ([*show, f"{mixed}/tasks.json", folder], 0, two, ""),
        ([*show, f"{folder}/nap.json", "-"], 0, f"{folder}/{NAP_LINE}-{NAP_LINE[8:]}2 runs: 2 completed\n", "", {"given": NAP}),
        ([*show, empty], 0, "0 runs\n", none),
        ([*show, "--json", empty, f"{others}/terminated.json"], 0, terminated, none),
        ([*show, closed], 1, forbidden, "", {"as_nobody": True}),
        ([*show, folder, missing], 2, "", cannot_read(missing, MISSING)),
        ([*show, folder, "--last", "1"], 2, "", ONE_FILE),
        ([*show, "--around", "1", folder], 2, "", ONE_FILE),
        ([*show, "--html", folder], 2, "", cannot_read(folder, IS_FOLDER)),
        (["explain", folder], 2, "", cannot_read(folder, IS_FOLDER)),
    ]
