"""A file of each kind of verdict, and what is reported of these files."""

from .rooms import NAP, NOT_JSON, RACER, up_to
from .texts import OTHER_TYPE, UNCOMPARED

OTHER_TIMER = {
    "eventId": "6",
    "eventTime": "2024-05-01T10:00:06Z",
    "eventType": "TimerStarted",
    "timerStartedEventAttributes": {"timerId": "x"},
}
DIFFERENT = NAP.replace(b'"timerId":"nap"', b'"timerId":"nip"')
# A file of each kind of verdict.
VERDICTS = {
    "a.json": NAP,
    "b.json": up_to(NAP, 3),
    "c.json": NOT_JSON,
    "d.json": DIFFERENT,
    "e.json": NAP.replace(b'"name":"Nap"', b'"name":"Nope"'),
    "f.json": NAP.replace(b'"startedEventId":"5"', b'"startedEventId":"9"'),
    "g.json": NAP.replace(b'{"timerId":"nap"}', b"{}"),
    "h.json": up_to(RACER, 5),
    "i.json": up_to(NAP, 5, OTHER_TIMER),
    "j.json": NAP.replace(b"EVENT_TYPE_WORKFLOW_TASK_COMPLETED", b"A\\nB\\\"C\\\\D", 1),
}
REPLAYED_VERDICTS = """a.json: ok, 2 tasks
b.json: ok, 1 tasks, last live
c.json: unreadable, not JSON
d.json: fault, event 5 differs
e.json: fault, task at 1: UnknownWorkflow
f.json: fault, event 6 is not in place: NoSuchRef
g.json: unreadable, event 5 lacks a field
h.json: fault, command 2 of the task at 3 has no event
i.json: fault, event 6 has no command
j.json: unreadable, event 4 has the unsupported type A?B"C\\D
10 files, 2 ok
"""
SERVED_VERDICTS = """a.json: 2 tasks, 2 completed, 0 failed
b.json: 1 tasks, 1 completed, 0 failed
c.json: unreadable, not JSON
d.json: 2 tasks, 1 completed, 1 failed
e.json: 2 tasks, 0 completed, 2 failed
f.json: 2 tasks, 1 completed, 1 failed
g.json: unreadable, event 5 lacks a field
h.json: 1 tasks, 1 completed, 0 failed
i.json: 1 tasks, 1 completed, 0 failed
j.json: unreadable, event 4 has the unsupported type A?B"C\\D
taken 11, completed 7, failed 4, in hand 0
"""
NOT_JSON_PLACE = "wfhost: c.json: not JSON at line 2 column 3\n"
STOPPED_VERDICTS = f"{NOT_JSON_PLACE}wfhost: e.json: no code for the workflow type Nope\n"
# What `replay` tells, file by file: both sides of a difference, where a file is no JSON, a type without code.
REPLAY_TOLD = f"""{NOT_JSON_PLACE}wfhost: d.json: sends StartTimer nap (60 s), recorded 5 TimerStarted nip
wfhost: e.json: no code for the workflow type Nope
wfhost: f.json: event 6 refers to event 9
wfhost: g.json: event 5 lacks timerId
wfhost: h.json: sends StartTimer t (30 s), recorded nothing
wfhost: i.json: sends nothing, recorded 6 TimerStarted x
{OTHER_TYPE}"""
# Where files are no JSON and for which workflow types there is no code, then why tasks failed, a repeated fault once, and
# then the hint.
TOLD_VERDICTS = f"""{STOPPED_VERDICTS}wfhost: d.json: task at 8: event 5 differs
wfhost: e.json: task at 3: UnknownWorkflow, and 1 more
wfhost: f.json: task at 8: event 6 is not in place: NoSuchRef
{UNCOMPARED}{OTHER_TYPE}"""
