"""What is reported of values that differ where values are strict."""

import json
from base64 import b64encode

from .rooms import NAP

# A nap whose timer is recorded to take another time, and one whose result is recorded too.
SLOW = NAP.replace(b'Attributes":{"timerId":"nap"}}', b'Attributes":{"timerId":"nap","startToFireTimeout":"61s"}}')
# A nap that is recorded to end in another way after that: its values are no warnings.
ENDED = SLOW.replace(b"WORKFLOW_EXECUTION_COMPLETED", b"WORKFLOW_EXECUTION_CANCELED")


def with_result(history, *contents):
    """The history, whose last event has a result of payloads with these contents."""
    events = json.loads(history)["events"]
    encoding = b64encode(b"json/plain").decode()
    payloads = [{"metadata": {"encoding": encoding}, "data": b64encode(content).decode()} for content in contents]
    events[-1] |= {"workflowExecutionCompletedEventAttributes": {"result": {"payloads": payloads}}}
    return json.dumps({"events": events}).encode()


DURATION = "event 5: duration: sends 60s, recorded 61s"
DURATION_JSON = '{"event":5,"kind":"duration","sent":"60s","recorded":"61s"}'
RESULT_JSON = r'{"event":10,"kind":"result","sent":"nothing","recorded":"\"done\", /w=="}'


def strict_values(room):
    """What is reported of values that differ where values are strict."""
    well = room.folder({"a.json": NAP})
    other = room.folder({"a.json": NAP, "b.json": SLOW, "c.json": with_result(SLOW, b'"done"', b"\xff")})
    bad = room.folder({"b.json": SLOW, "d.json": ENDED})
    long = room.folder({"e.json": with_result(NAP, b"x" * 300)})
    alike = room.folder({"f.json": with_result(NAP, b"nothing")})
    lines = "a.json: ok, 2 tasks\nb.json: ok, 2 tasks\nc.json: ok, 2 tasks\n3 files, 3 ok\n"
    told = f'''wfhost: b.json: {DURATION}
wfhost: c.json: {DURATION}
wfhost: c.json: event 10: result: sends nothing, recorded "done", /w==
'''
    good = '"verdict":"ok","tasks":2,"live":false'
    objects = f'''{{"file":"a.json",{good}}}
{{"file":"b.json",{good},"warnings":[{DURATION_JSON}]}}
{{"file":"c.json",{good},"warnings":[{DURATION_JSON},{RESULT_JSON}]}}
{{"files":3,"ok":3}}
'''
    ended = "wfhost: d.json: sends Complete, recorded 10 WorkflowExecutionCanceled\n"
    bad_lines = "b.json: ok, 2 tasks\nd.json: fault, event 10 differs\n2 files, 1 ok\n"
    cut = f"wfhost: e.json: event 10: result: sends nothing, recorded {'x' * 255}\n"
    encoded = "wfhost: f.json: event 10: result: sends nothing, recorded nothing (json/plain)\n"
    return [
        (["replay", well, "--strict-values"], 0, "a.json: ok, 2 tasks\n1 files, 1 ok\n", ""),
        (["replay", other], 0, lines, ""),
        (["replay", other, "--strict-values"], 3, lines, told),
        (["replay", "--json", "--strict-values", other], 3, objects, told),
        (["replay", bad, "--strict-values"], 1, bad_lines, f"wfhost: b.json: {DURATION}\n{ended}"),
        (["replay", bad], 1, bad_lines, ended),
        (["replay", long, "--strict-values"], 3, "e.json: ok, 2 tasks\n1 files, 1 ok\n", cut),
        (["replay", alike, "--strict-values"], 3, "f.json: ok, 2 tasks\n1 files, 1 ok\n", encoded),
        (["replay", f"{other}/b.json", "--strict-values"], 3, "b.json: ok, 2 tasks\n1 files, 1 ok\n", f"wfhost: b.json: {DURATION}\n"),
    ]
