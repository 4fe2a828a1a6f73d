"""What `examples/deploy/replay-open-runs` asks the Temporal CLI for, and what it makes of the answers."""

import json
import os

from .rooms import NAP, NOT_JSON, TOP
from .runs import Like

SCRIPT = TOP / "examples/deploy/replay-open-runs"
QUERY = 'WorkflowType = "Nap"'
# A stand-in for the CLI: it knows one query, and the runs whose histories are beside it.
CLI = b"""#!/bin/sh
here=$(dirname "$0")
case "$*" in
'workflow list --query WorkflowType = "Nap" --output json') cat "$here/listed" ;;
'workflow show --workflow-id '*' --run-id '*' --output json --no-json-shorthand-payloads') cat "$here/$6" ;;
*) echo "temporal $*" >&2; exit 1 ;;
esac
"""


def listed(*runs):
    """What the CLI lists: each run by its workflow id and its run id."""
    return json.dumps([{"execution": {"workflowId": workflow, "runId": run}} for workflow, run in runs]).encode()


def executable(text):
    """What makes a program of this text."""
    return lambda path: path.write_bytes(text) and path.chmod(0o755)


def open_runs(room):
    """The histories of the listed runs are replayed, under names of their own."""
    old = (TOP / "examples/renamed/old.json").read_bytes()
    files = {"temporal": executable(CLI), "first": NAP, "second": NAP, "third": NAP, "old": old, "bad": NOT_JSON}
    three = listed(("nap/1", "first"), ("nap 1", "second"), ("n" * 200, "third"))
    names = ["nap_1.first", "nap_1.second", "n" * 100 + ".third"]
    all_ok = "".join(f"{name}.json: ok, 2 tasks\n" for name in names) + "3 files, 3 ok\n"
    differs = "wfhost: nap.old.json: sends StartTimer nap (60 s), recorded 5 TimerStarted sleep\n"
    rows = [
        (three, [QUERY], 0, all_ok, ""),
        (listed(("nap", "old")), [QUERY], 1, "nap.old.json: fault, event 5 differs\n1 files, 0 ok\n", differs),
        (listed(("nap", "bad")), [QUERY], 1, "nap.bad.json: unreadable, not JSON\n1 files, 0 ok\n", None),
        (listed(("nap", "first")), [QUERY, "--json"], 0, Like('{"file":"nap.first.json",*'), ""),
        (listed(), [QUERY, "--require-files"], 1, "0 files, 0 ok\n", Like("wfhost: no .json file in *\n")),
        (listed(("nap", "lost")), [QUERY], 2, "", Like("cat: *")),
        (b"no JSON", [QUERY], 2, "", Like("Traceback *")),
        (listed(), ["other"], 2, "", "temporal workflow list --query other --output json\n"),
        (listed(), [], 2, "", "replay-open-runs PROGRAM QUERY [OPTION..]\n"),
    ]
    for answer, words, status, out, error in rows:
        path = f"PATH={room.folder({**files, 'listed': answer})}:{os.environ['PATH']}"
        yield [path, str(SCRIPT), str(room.program), *words], status, out, error, {"program": "/usr/bin/env", "called": "env"}
