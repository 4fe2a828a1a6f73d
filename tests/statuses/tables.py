"""Checks and trials of workflows that are tables in files."""

import json

from .rooms import NAP, NOT_JSON
from .runs import Like
from .texts import MISSING, cannot_read

CHARGE = b'{"version":1,"rows":[["a","start","","activity b C"],["a","done b","","complete brought"]]}'
LOOSE = b'{"version":1,"rows":[["a","start","","timer t 5"]]}'
BAD = b'{"version":1,"rows":[["a","begin"],["a","start","","go"]]}'
RULES = b'{"version":1,"rows":[["a","start","",["complete","timer b 1"]],["a","start","","","z"]]}'
CHECKED = "charge.json: ok, 2 rows\n1 files, 1 ok\n"
WARNED = """loose.json: ok, 1 rows
loose.json: warning, row 1: no row leads on from the state a
loose.json: warning, row 1: no row waits for the timer t
1 files, 1 ok
"""
# A table with each warning that is about no row.
MEANT = json.dumps({
    "version": 1,
    "counters": ["n 1", "n 2"],
    "rows": [["a", "start", "", "activity b PayOut"], ["a", "done b", "", "complete"]],
    "promises": "at most 3 activity Payout",
}).encode()
WARNED_OF_ALL = """-: ok, 2 rows
-: warning, two counters have the name n
-: warning, promise 1: no row gives activity Payout
-: promise 1, at most 3 activity Payout: kept
1 files, 1 ok
"""
WARNED_JSON = """{"file":"-","verdict":"ok","rows":2,"faults":[],"warnings":[{"text":"two counters have the name n"},\
{"text":"promise 1: no row gives activity Payout"}],\
"promises":[{"promise":1,"text":"at most 3 activity Payout","verdict":"kept"}]}
{"files":1,"ok":1}
"""
# A promise that a scenario of 122 jobs breaks, of which 100 are shown; and a warning that the table allows.
LONG = json.dumps({
    "version": 1,
    "rows": [["a", "start"], ["a", "signal s"]],
    "allow": "no row leads on from the state a",
    "promises": "at most 120 signal s",
}).encode()
CUT_SHORT = "".join((
    "-: fault, 2 rows\n",
    "-: promise 1, at most 120 signal s: broken by: start", 99 * "; signal s", "; and 22 more\n",
    "  start => \n", 99 * "  signal s => \n", "  and 22 more, which --json lists\n",
    "1 files, 0 ok\n",
))


def stuck(rows, words, *unawaited):
    """A table of these rows in one state, of which a run gets stuck so, and what is said of it."""
    own = [["a", job, "", commands] for job, commands in rows] + [["a", "cancel", "", "complete"]]
    return json.dumps({"version": 1, "rows": own, "allow": [f"no row waits for {one}" for one in unawaited]}).encode(), f"-: a run gets stuck by {words}\n1 files, 0 ok\n"


# Two signals in the task of the start; a timer that is canceled twice; an activity that is open still as a timer fires again.
IN_USE, SAYS_IN_USE = stuck([("start", "activity b C"), ("signal s", "activity b C"), ("done b", "complete")],
                            "IdInUse, for good: start + signal s")
NOT_OPEN, SAYS_NOT_OPEN = stuck([("start", "timer t 5"), ("signal s", "cancel-timer t"), ("fired t", "complete")],
                                "NotOpen, for good: start + signal s + signal s")
STILL_OPEN, SAYS_STILL_OPEN = stuck([("start", "timer t 5"), ("fired t", ["activity b C", "timer t 5"])],
                                    "IdInUse, until what is open ends: start; fired t; fired t", "the activity b")
# A run that gets stuck by a second cancel request alone, which no server records.
CANCELED_TWICE = json.dumps({"version": 1, "rows": [
    ["a", "start", "", "activity b C"], ["a", "cancel", "", "cancel-activity b"], ["a", "done b", "", "complete"],
    ["a", "failed b", "", "cancel"],
]}).encode()
UNSURE = """-: ok, 4 rows
-: warning, it is not decided whether a run gets stuck: a run was found that has a version or a second cancel request
1 files, 1 ok
"""
STUCK_JSON = """{"file":"-","verdict":"fault","rows":3,"faults":[{"text":"a run gets stuck by IdInUse, until what is open ends: \
start; fired t; fired t"}],"warnings":[]}
{"files":1,"ok":0}
"""
BAD_ROWS = """bad.json: row 1: no job is written so
bad.json: row 2: no command begins with this word
"""
BROKEN_RULES = """rules.json: row 1: a command follows one that asks or closes the run
rules.json: row 2: no row is for the state that it leads to
1 files, 0 ok
"""
CHECKED_JSON = """{"file":"charge.json","verdict":"ok","rows":2,"faults":[],"warnings":[]}
{"files":1,"ok":1}
"""
BAD_JSON = """{"file":"bad.json","verdict":"fault","rows":0,"faults":[{"row":1,"text":"row 1: no job is written so"},\
{"row":2,"text":"row 2: no command begins with this word"}],"warnings":[]}
{"files":1,"ok":0}
"""
CUT_JSON = """{"file":"cut.json","verdict":"fault","rows":0,"faults":[{"text":"the table is no JSON"}],"warnings":[]}
{"files":1,"ok":0}
"""
# A scenario with its trial, of a table that charges.
BESIDE = b"start => StartActivity b C\n\nstart 2 => StartActivity b C\ndone b =>Complete\n"
TRIED_BESIDE = """start => StartActivity b C
start 2 => StartActivity b C
done b => Complete
charge.json: ok, 3 jobs
"""
ONE_PAGE = "error: --html takes one file, and can't be given with --json\n"
ONE_SCENARIO = "error: a scenario takes one file\n"
STARTED = "start => StartActivity b C\n"
# What comes of three tables that charge: one that is as wanted, one that differs, and one without a scenario.
TRIED_PATHS = """start => StartActivity b C
FOLDER/a.json: ok, 1 jobs
start => StartActivity b C
FOLDER/b.json: line 1 differs
  expected Complete
  gives    StartActivity b C
2 files, 1 ok
"""
TRIED = TRIED_PATHS.replace("FOLDER/", "").replace("2 files", "c.json: no scenario\n3 files")
TRIED_JSON = """{"file":"a.json","verdict":"ok","jobs":1}
{"file":"b.json","verdict":"fault","jobs":1,"line":1,"expected":"Complete","gives":"StartActivity b C"}
{"file":"c.json","verdict":"fault","jobs":0,"text":"no scenario"}
{"files":3,"ok":1}
"""
TRIED_ON_ONE = """start => StartActivity b C
a.json: ok, 1 jobs
start => StartActivity b C
b.json: ok, 1 jobs
start => StartActivity b C
c.json: ok, 1 jobs
3 files, 3 ok
"""
# A file that is no table, and a table whose scenario has words that are no job.
TRIED_FAULTS = """{"file":"bad.json","verdict":"fault","jobs":0,"text":"row 1: no job is written so"}
{"file":"odd.json","verdict":"fault","jobs":1,"line":1,"text":"no job is written `go `on``"}
{"files":2,"ok":0}
"""


def counting(*bounds):
    """A table whose runs have a configuration for all values of four counters up to these bounds, and one that is closed."""
    named = dict(zip("pqrs", bounds))
    ups = [["a", f"signal {name}", f"{name} < {bound}", [], "a", f"up {name}"] for name, bound in named.items()]
    full = ["a", "fired t", [f"{name} >= {bound}" for name, bound in named.items()], "complete"]
    counters = [f"{name} {bound}" for name, bound in named.items()]
    rows = [["a", "start", "", "timer t 5"], *ups, full]
    return json.dumps({"version": 1, "counters": counters, "rows": rows, "promises": ["at most 1 complete"]}).encode()


# What a promise of such a table comes to: of 196,505 configurations, and of 200,001.
NOT_DECIDED = "-: warning, it is not decided whether a run gets stuck: too many configurations\n"
KEPT = f"-: ok, 6 rows\n{NOT_DECIDED}-: promise 1, at most 1 complete: kept\n1 files, 1 ok\n"
TOO_MANY = f"""-: fault, 6 rows
{NOT_DECIDED[:-1]}
-: promise 1, at most 1 complete: not decided: more than 200000 configurations
1 files, 0 ok
"""


def tables(room):
    """What is found of tables, and what their jobs are given."""
    files = {"charge.json": CHARGE, "loose.json": LOOSE, "bad.json": BAD, "rules.json": RULES}
    folder, missing = room.folder(files | {"nap.json": NAP, "cut.json": NOT_JSON, "charge.txt": BESIDE}), str(room.new())
    charge, bad, cut = (f"{folder}/{name}.json" for name in ("charge", "bad", "cut"))
    binary = room.folder({"charge.json": CHARGE, "charge.txt": b"\xff"})
    return [
        (["check", charge], 0, CHECKED, ""),
        (["check", "-"], 0, CHECKED.replace("charge.json", "-"), "", {"given": CHARGE}),
        (["check", f"{folder}/loose.json"], 0, WARNED, ""),
        (["check", "-"], 0, WARNED_OF_ALL, "", {"given": MEANT}),
        (["check", "--json", "-"], 0, WARNED_JSON, "", {"given": MEANT}),
        (["check", "-"], 1, CUT_SHORT, "", {"given": LONG}),
        (["check", "-"], 0, KEPT, "", {"given": counting(10, 21, 27, 28)}),
        (["check", "-"], 1, TOO_MANY, "", {"given": counting(24, 24, 19, 15)}),
        (["check", "-"], 1, SAYS_IN_USE, "", {"given": IN_USE}),
        (["check", "-"], 1, SAYS_NOT_OPEN, "", {"given": NOT_OPEN}),
        (["check", "-"], 1, SAYS_STILL_OPEN, "", {"given": STILL_OPEN}),
        (["check", "--json", "-"], 1, STUCK_JSON, "", {"given": STILL_OPEN}),
        (["check", "-"], 0, UNSURE, "", {"given": CANCELED_TWICE}),
        (["check", bad], 1, f"{BAD_ROWS}1 files, 0 ok\n", ""),
        (["check", f"{folder}/rules.json"], 1, BROKEN_RULES, ""),
        (["check", f"{folder}/nap.json"], 1, "nap.json: the version of the table is not 1\n1 files, 0 ok\n", ""),
        (["check", cut], 1, "cut.json: the table is no JSON\n1 files, 0 ok\n", ""),
        (["check", "--json", charge], 0, CHECKED_JSON, ""),
        (["check", "--json", bad], 1, BAD_JSON, ""),
        (["check", "--json", cut], 1, CUT_JSON, ""),
        (["check", missing], 2, "", cannot_read(missing, MISSING)),
        (["check", charge, missing], 2, "", cannot_read(missing, MISSING)),
        (["check", "--html", charge], 0, Like("<!doctype html>*"), ""),
        (["check", "--html", bad], 1, Like("<!doctype html>*"), ""),
        (["check", "--html", missing], 2, "", cannot_read(missing, MISSING)),
        (["check", "--html", charge, bad], 2, "", ONE_PAGE),
        (["check", "--html", "--json", charge], 2, "", ONE_PAGE),
        (["try", charge, 'start 1; done b "x"'], 0,
         'start 1 => StartActivity b C\ndone b "x" => Complete "x"\ncharge.json: ok, 2 jobs\n', ""),
        (["try", charge, "start => StartActivity b C"], 0, f"{STARTED}charge.json: ok, 1 jobs\n", ""),
        (["try", charge, "start => Complete"], 1,
         f"{STARTED}charge.json: line 1 differs\n  expected Complete\n  gives    StartActivity b C\n", ""),
        (["try", charge, "start; go on"], 1, f"{STARTED}charge.json: line 1: no job is written `go on`\n", ""),
        (["try", charge, "failed b"], 2, "", cannot_read("failed b", MISSING)),
        (["try", charge, "start; failed b"], 0, f"{STARTED}failed b =>\ncharge.json: ok, 2 jobs\n", ""),
        (["try", charge, "start=>StartActivity b C"], 0, f"{STARTED}charge.json: ok, 1 jobs\n", ""),
        (["try", charge, "start.json"], 2, "", cannot_read("start.json", MISSING)),
        (["try", charge, bad, "start"], 2, "", ONE_SCENARIO),
        (["try", "-", "start"], 0, f"{STARTED}-: ok, 1 jobs\n", "", {"given": CHARGE}),
        (["try", bad, "start"], 1, "bad.json: row 1: no job is written so\n", ""),
        (["try", charge], 0, TRIED_BESIDE, ""),
        (["try", bad], 2, "", cannot_read(f"{folder}/bad.txt", MISSING)),
        (["try", missing], 2, "", cannot_read(missing, MISSING)),
        (["try", f"{binary}/charge.json"], 2, "", "wfhost: charge.txt: not UTF-8 text\n"),
    ]


def trials(room):
    """What comes of tables of folders, and of more files than one, on the scenarios beside them."""
    files = {"a.json": CHARGE, "a.txt": b"start => StartActivity b C\n", "b.json": CHARGE, "b.txt": b"start => Complete\n"}
    lacking, empty = room.folder(files | {"c.json": CHARGE}), room.folder({})
    binary, alone = room.folder(files | {"b.txt": b"\xff"}), room.folder({"c.json": CHARGE})
    faulty = room.folder({"bad.json": BAD, "bad.txt": b"start\n", "odd.json": CHARGE, "odd.txt": b"start; go `on`\n"})
    one = f"{lacking}/a.json"
    return [
        (["try", lacking], 1, TRIED, cannot_read(f"{lacking}/c.txt", MISSING)),
        (["try", "--json", lacking], 1, TRIED_JSON, cannot_read(f"{lacking}/c.txt", MISSING)),
        (["try", lacking, "start"], 0, TRIED_ON_ONE, ""),
        (["try", one, f"{lacking}/b.json"], 1, TRIED_PATHS.replace("FOLDER", lacking), ""),
        (["try", one, one], 0, f"{STARTED}{one}: ok, 1 jobs\n" * 2 + "2 files, 2 ok\n", ""),
        (["try", one, f"{lacking}/d.json"], 2, "", cannot_read(f"{lacking}/d.json", MISSING)),
        (["try", "--json", one], 0, '{"file":"a.json","verdict":"ok","jobs":1}\n{"files":1,"ok":1}\n', ""),
        (["try", "--json", faulty], 1, TRIED_FAULTS, ""),
        (["try", binary], 1, f"{STARTED}a.json: ok, 1 jobs\nb.json: no scenario\n2 files, 1 ok\n",
         "wfhost: b.txt: not UTF-8 text\n"),
        (["try", alone], 2, "", cannot_read(f"{alone}/c.txt", MISSING)),
        (["try", "--json", alone], 2, "", cannot_read(f"{alone}/c.txt", MISSING)),
        (["try", empty], 0, "0 files, 0 ok\n", f"wfhost: no .json file in {empty}\n"),
    ]
