"""What is reported of files of each kind, and what is said beside it."""

from .rooms import EXAMPLES, NAP, TOP, long_nap, up_to
from .runs import Like
from .texts import EXPLAINED, REPLAYED, SERVED, UNCOMPARED
from .views import VIEWED
from .verdicts import NOT_JSON_PLACE, REPLAY_TOLD, REPLAYED_VERDICTS, SERVED_VERDICTS, TOLD_VERDICTS, VERDICTS

# What the program is run on in the gate: a nap, and an order whose table comes with the run.
STORED = "nap.json: ok, 2 tasks\norder_table.json: ok, 4 tasks\n2 files, 2 ok\n"
REPLAYED_JSON = '{"file":"nap.json","verdict":"ok","tasks":2,"live":false}\n{"files":1,"ok":1}\n'
EXPLAINED_JSON = """{"task":3}
{"told":"Time","time":"2024-05-01T10:00:03Z","event":3}
{"told":"Start","workflowType":"Nap","event":1}
{"gives":"StartTimer","timerId":"nap","seconds":60}
{"sends":"StartTimer","timerId":"nap","seconds":60,"recorded":{"event":5,"type":"TimerStarted","timerId":"nap"},"differs":false}
{"task":8}
{"told":"Time","time":"2024-05-01T10:01:07Z","event":8}
{"told":"TimerFired","timerId":"nap","event":6}
{"gives":"Complete"}
{"sends":"Complete","recorded":{"event":10,"type":"WorkflowExecutionCompleted"},"differs":false}
{"file":"nap.json","verdict":"ok","tasks":2,"live":false}
"""
REPLAYED_EXAMPLES = """branch.json: ok, 2 tasks
caller.json: ok, 2 tasks
family.json: ok, 3 tasks
greet.json: ok, 2 tasks
greet_from_cli.json: ok, 2 tasks
nap.json: ok, 2 tasks
racer.json: ok, 4 tasks
7 files, 7 ok
"""
SERVED_EXAMPLES = """branch.json: 2 tasks, 2 completed, 0 failed
caller.json: 2 tasks, 2 completed, 0 failed
family.json: 3 tasks, 3 completed, 0 failed
greet.json: 2 tasks, 2 completed, 0 failed
greet_from_cli.json: 2 tasks, 2 completed, 0 failed
nap.json: 2 tasks, 2 completed, 0 failed
racer.json: 4 tasks, 4 completed, 0 failed
taken 17, completed 17, failed 0, in hand 0
"""
# Files that are no history, and one that is.
HOSTILE = {
    "byte_255.json": NAP.replace(b'"events"', b'"e\xffents"'),
    "byte_order_mark.json": b"\xef\xbb\xbf[]",
    "empty.json": b"",
    "event_empty.json": b"[{}]",
    "event_null.json": b"[null]",
    "event_number.json": b"[5]",
    "events_empty.json": b'{"events":[]}',
    "events_null.json": b'{"events":null}',
    "list_empty.json": b"[]",
    "list_open.json": b"[",
    "lists_nested_100.json": b"[" * 100 + b"]" * 100,
    "lists_nested_1000.json": b"[" * 1000 + b"]" * 1000,
    "nap.json": NAP,
    "no_events.json": b"{}",
    "number.json": b"5",
    "two_lists.json": b"[{}] []",
    "utf_16_big_endian.json": "\ufeff[]".encode("utf-16-be"),
    "utf_16_little_endian.json": "\ufeff[]".encode("utf-16-le"),
    "utf_16_unmarked.json": "[]".encode("utf-16-le"),
}
REPLAYED_HOSTILE = """byte_255.json: unreadable, not JSON
byte_order_mark.json: unreadable, not JSON
empty.json: unreadable, not JSON
event_empty.json: unreadable, event 1 has a bad number
event_null.json: unreadable, event 1 has a bad number
event_number.json: unreadable, event 1 has a bad number
events_empty.json: unreadable, no events
events_null.json: unreadable, no events
list_empty.json: unreadable, no events
list_open.json: unreadable, not JSON
lists_nested_100.json: unreadable, event 1 has a bad number
lists_nested_1000.json: unreadable, not JSON
nap.json: ok, 2 tasks
no_events.json: unreadable, no events
number.json: unreadable, no events
two_lists.json: unreadable, not JSON
utf_16_big_endian.json: unreadable, not JSON
utf_16_little_endian.json: unreadable, not JSON
utf_16_unmarked.json: unreadable, not JSON
19 files, 1 ok
"""
HOSTILE_PLACES = """wfhost: byte_255.json: not JSON at line 1 column 4
wfhost: byte_order_mark.json: not JSON at line 1 column 1: it begins with a byte order mark
wfhost: empty.json: not JSON at line 1 column 0
wfhost: list_open.json: not JSON at line 1 column 1
wfhost: lists_nested_1000.json: not JSON at line 1 column *
wfhost: two_lists.json: not JSON at line 1 column 6
wfhost: utf_16_big_endian.json: not JSON at line 1 column 1: it is UTF-16, and has to be UTF-8
wfhost: utf_16_little_endian.json: not JSON at line 1 column 1: it is UTF-16, and has to be UTF-8
wfhost: utf_16_unmarked.json: not JSON at line 1 column 2
"""
# Bytes that are no JSON, and where the reader stops: columns count bytes, and where the file ends too soon it is its last byte.
PLACES = {
    "[1,\n": "line 2 column 0",
    "[1,\n 2": "line 2 column 2",
    '["\u00e9" x': "line 1 column 7",
    "\r\n\r\n}": "line 3 column 1",
    '{"events":[]}\n]': "line 2 column 1",
}
REPLAYED_VERDICTS_JSON = r"""{"file":"a.json","verdict":"ok","tasks":2,"live":false}
{"file":"b.json","verdict":"ok","tasks":1,"live":true}
{"file":"c.json","verdict":"unreadable","fault":"not JSON","line":2,"column":3}
{"file":"d.json","verdict":"fault","event":5,"fault":"event 5 differs","sends":"StartTimer","timerId":"nap","seconds":60,"recorded":{"event":5,"type":"TimerStarted","timerId":"nip"}}
{"file":"e.json","verdict":"fault","task":1,"fault":"task at 1: UnknownWorkflow","workflowType":"Nope"}
{"file":"f.json","verdict":"fault","event":6,"fault":"event 6 is not in place: NoSuchRef","refersTo":9}
{"file":"g.json","verdict":"unreadable","event":5,"fault":"event 5 lacks a field","field":"timerId"}
{"file":"h.json","verdict":"fault","task":3,"fault":"command 2 of the task at 3 has no event","sends":"StartTimer","timerId":"t","seconds":30,"recorded":null}
{"file":"i.json","verdict":"fault","event":6,"fault":"event 6 has no command","sends":null,"recorded":{"event":6,"type":"TimerStarted","timerId":"x"}}
{"file":"j.json","verdict":"unreadable","event":4,"fault":"event 4 has the unsupported type A?B\"C\\D"}
{"files":10,"ok":2}
"""
# The last object has both sides of the difference.
EXPLAINED_DIFFERENCE_JSON = """{"task":3}
{"told":"Time","time":"2024-05-01T10:00:03Z","event":3}
{"told":"Start","workflowType":"Nap","event":1}
{"gives":"StartTimer","timerId":"nap","seconds":60}
{"sends":"StartTimer","timerId":"nap","seconds":60,"recorded":{"event":5,"type":"TimerStarted","timerId":"nap"},"differs":false}
{"sends":null,"recorded":{"event":6,"type":"TimerStarted","timerId":"x"},"differs":true}
{"file":"i.json","verdict":"fault","event":6,"fault":"event 6 has no command","sends":null,"recorded":{"event":6,"type":"TimerStarted","timerId":"x"}}
"""
AFTER = {"eventId": "11", "eventTime": "2024-05-01T10:02:00Z", "eventType": "WorkflowExecutionSignaled"}
CHILD_CANCELED = {
    "eventId": "5",
    "eventTime": "2024-05-01T10:00:05Z",
    "eventType": "RequestCancelExternalWorkflowExecutionInitiated",
    "requestCancelExternalWorkflowExecutionInitiatedEventAttributes": {"workflowExecution": {"workflowId": "kid"}},
}
UNTYPED = {
    "eventId": "5",
    "eventTime": "2024-05-01T10:00:05Z",
    "eventType": "ActivityTaskScheduled",
    "activityTaskScheduledEventAttributes": {"activityId": "1"},
}
# Histories, each with its fault, what is told of that, and the member of its object that says the same.
DETAILS = {
    "a.json": (
        up_to(NAP, 10, AFTER | {"workflowExecutionSignaledEventAttributes": {"signalName": "go"}}),
        '"fault","event":11,"fault":"event 11 is not in place: AfterClose"',
        "event 11 follows event 10, which closes the run",
        '"closedBy":10',
    ),
    "b.json": (
        up_to(NAP, 4, CHILD_CANCELED),
        '"fault","event":5,"fault":"event 5 is not in place: NoSuchRef"',
        "event 5 refers to the child kid",
        '"workflowId":"kid"',
    ),
    "c.json": (
        NAP.replace(b'"startedEventId":"5"', b'"startedEventId":"1"'),
        '"fault","event":6,"fault":"event 6 is not in place: WrongKindRef"',
        "event 6 refers to event 1",
        '"refersTo":1',
    ),
    "d.json": (
        NAP.replace(b'"eventTime":"2024-05-01T10:00:05Z"', b'"eventTime":null'),
        '"unreadable","event":5,"fault":"event 5 lacks a field"',
        "event 5 lacks eventTime",
        '"field":"eventTime"',
    ),
    "e.json": (
        up_to(NAP, 4, UNTYPED),
        '"unreadable","event":5,"fault":"event 5 lacks a field"',
        "event 5 lacks activityType.name",
        '"field":"activityType.name"',
    ),
    "f.json": (
        up_to(NAP, 10, AFTER),
        '"unreadable","event":11,"fault":"event 11 lacks a field"',
        "event 11 lacks signalName",
        '"field":"signalName"',
    ),
}
# What is recorded follows the line of a file whose workflow type has no code.
VIEWED_OF_NOPE = VIEWED.replace("Nap", "Nope")
STARTED = "task at 3\n  told Time 2024-05-01T10:00:03Z (event 3)\n  told Start "
EXPLAINED_VERDICTS = {
    "b.json": f"""{STARTED}Nap (event 1)
    gives StartTimer nap (60 s)
  sends StartTimer nap (60 s)
  not recorded yet
""",
    "c.json": "",
    "d.json": f"""{STARTED}Nap (event 1)
    gives StartTimer nap (60 s)
  sends StartTimer nap (60 s), recorded 5 TimerStarted nip, differs
""",
    "e.json": "no code for the workflow type Nope\n",
    "f.json": "",
    "g.json": "",
    "h.json": f"""{STARTED}Racer (event 1)
    gives StartActivity 1 race
    gives StartTimer t (30 s)
  sends StartActivity 1 race, recorded 5 ActivityTaskScheduled 1 race
  sends StartTimer t (30 s), recorded nothing, differs
""",
    "i.json": f"""{STARTED}Nap (event 1)
    gives StartTimer nap (60 s)
  sends StartTimer nap (60 s), recorded 5 TimerStarted nap
  sends nothing, recorded 6 TimerStarted x, differs
""",
    "j.json": "",
}


def reports(room):
    """What is reported of files of each kind, and what is said beside it."""
    well, live = room.folder({"nap.json": NAP}), room.folder({"nap.json": up_to(NAP, 3)})
    hostile, verdicts = room.folder(HOSTILE), room.folder(VERDICTS)
    places = room.folder({f"{number}.json": text.encode() for number, text in enumerate(PLACES)})
    unread = "".join(f"{number}.json: unreadable, not JSON\n" for number in range(len(PLACES)))
    stopped = "".join(f"wfhost: {number}.json: not JSON at {place}\n" for number, place in enumerate(PLACES.values()))
    details = room.folder({name: detail[0] for name, detail in DETAILS.items()})
    detailed = "".join(f'{{"file":"{name}","verdict":{fault},{member}}}\n' for name, (_, fault, _, member) in DETAILS.items())
    told = "".join(f"wfhost: {name}: {detail}\n" for name, (_, _, detail, _) in DETAILS.items())
    repeated = room.folder({"long.json": long_nap(400).replace(b'"nap"}', b'"nip"}')})
    lines = dict(line.split(": ", 1) for line in REPLAYED_VERDICTS.splitlines()[:-1])
    examples = str(EXAMPLES)
    return [
        (["replay", str(TOP / "crates/wfhost/data/histories")], 0, STORED, ""),
        (["replay", well, "--json"], 0, REPLAYED_JSON, ""),
        (["replay", f"{well}/nap.json"], 0, REPLAYED, ""),
        (["explain", f"{well}/nap.json"], 0, EXPLAINED, ""),
        (["explain", "--json", f"{well}/nap.json"], 0, EXPLAINED_JSON, ""),
        (["serve", well], 0, SERVED, UNCOMPARED),
        (["serve", live], 0, SERVED.replace("2", "1"), ""),
        (["replay", examples], 0, REPLAYED_EXAMPLES, ""),
        (["replay", str(TOP / "examples/runs")], 0, "canceled_order.json: ok, 4 tasks\n1 files, 1 ok\n", ""),
        (["serve", examples, "--workers", "4"], 0, SERVED_EXAMPLES, UNCOMPARED),
        (["serve", examples, "--cache-events", "3"], 0, SERVED_EXAMPLES, UNCOMPARED),
        (["replay", hostile], 1, REPLAYED_HOSTILE, Like(HOSTILE_PLACES)),
        (["replay", places], 1, f"{unread}5 files, 0 ok\n", stopped),
        (["serve", places], 1, f"{unread}taken 0, completed 0, failed 0, in hand 0\n", stopped),
        (["replay", verdicts], 1, REPLAYED_VERDICTS, REPLAY_TOLD),
        (["replay", "--json", verdicts], 1, REPLAYED_VERDICTS_JSON, REPLAY_TOLD),
        (["replay", "--json", details], 1, f'{detailed}{{"files":6,"ok":0}}\n', told),
        (
            ["serve", repeated],
            1,
            "long.json: 400 tasks, 1 completed, 399 failed\ntaken 400, completed 1, failed 399, in hand 0\n",
            f"wfhost: long.json: task at 7: event 5 differs, and 398 more\n{UNCOMPARED}",
        ),
        (["explain", "--json", f"{verdicts}/i.json"], 1, EXPLAINED_DIFFERENCE_JSON, ""),
        *(
            (["serve", verdicts, *options], 1, SERVED_VERDICTS, TOLD_VERDICTS)
            for options in ([], ["--workers", "3"], ["--workers", "64", "--slots", "64"], ["--cache", "0"])
        ),
        *(
            (
                ["explain", f"{verdicts}/{name}"],
                int("ok" not in lines[name]),
                f"{tasks}{name}: {lines[name]}\n{VIEWED_OF_NOPE if name == 'e.json' else ''}",
                NOT_JSON_PLACE if name == "c.json" else "",
            )
            for name, tasks in EXPLAINED_VERDICTS.items()
        ),
        # The report first, and then what is said beside it.
        (["replay", verdicts], 1, REPLAYED_VERDICTS + REPLAY_TOLD, "", {"merged": True}),
        (["serve", verdicts], 1, SERVED_VERDICTS + TOLD_VERDICTS, "", {"merged": True}),
        (["explain", f"{verdicts}/c.json"], 1, f"c.json: {lines['c.json']}\n{NOT_JSON_PLACE}", "", {"merged": True}),
    ]
