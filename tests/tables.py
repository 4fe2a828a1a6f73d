#!/usr/bin/env python3
"""Workflows whose table comes with the run, beside an interpreter of their own (tests/table_rows.py): random tables, most of
them right and some with a mistake, random jobs, and the histories that come of them by that interpreter.

    tests/tables.py --runs 2000 --seed 1 [--program PATH..]

Each history has to replay with `ok`, and `explain` has to show the very commands that the interpreter gave: ids, types,
seconds, and the reason why a table is refused. The last line begins with `N tried, M wrong`, and the status is 1 where one is wrong."""

import base64
import json
import random
import re
import shutil
import subprocess
import sys
import tempfile
from functools import partial
from itertools import count, islice
from pathlib import Path

from rows import PROCESSORS, PROGRAM, need, try_rows, words_of
from table_rows import Run

STATES = ("one", "two", "three", "four", "five")
IDS, TYPES, SIGNALS = ("a", "b", "c", "@"), ("Charge", "Mail"), ("go", "stop")
KINDS = {
    "StartActivity": "ActivityTaskScheduled", "StartTimer": "TimerStarted", "StartChild": "StartChildWorkflowExecutionInitiated",
    "CancelActivity": "ActivityTaskCancelRequested", "CancelTimer": "TimerCanceled",
    "CancelChild": "RequestCancelExternalWorkflowExecutionInitiated",
    "SignalExternal": "SignalExternalWorkflowExecutionInitiated", "Complete": "WorkflowExecutionCompleted",
    "Fail": "WorkflowExecutionFailed", "Cancel": "WorkflowExecutionCanceled", "ContinueAsNew": "WorkflowExecutionContinuedAsNew",
}
CLOSING = ("Complete", "Fail", "Cancel", "ContinueAsNew")


# ---- Tables

class Maker:
    """Makes tables at random."""

    def __init__(self, dice):
        self.dice = dice

    def source(self):
        return self.dice.choice(("", " input", " brought", " kept"))

    def job(self):
        word = self.dice.choice(("done", "failed", "fired", "signal", "child-started", "child-done", "child-failed", "cancel"))
        return word if word == "cancel" else f"{word} {self.dice.choice(SIGNALS if word == 'signal' else IDS)}"

    def command(self):
        dice = self.dice
        word = dice.choice(("activity", "timer", "child", "signal", "cancel-activity", "cancel-timer", "cancel-child"))
        name = dice.choice(IDS)
        if word in ("activity", "child"):
            return f"{word} {name} {dice.choice(TYPES)}{self.source()}"
        if word == "signal":
            return f"signal {name} {dice.choice(SIGNALS)}{self.source()}"
        return f"{word} {name} {dice.randrange(1, 90_000)}" if word == "timer" else f"{word} {name}"

    def close(self):
        word = self.dice.choice(("complete", "again", "continue Table", "fail it went wrong", "cancel"))
        return word if word[:2] in ("fa", "ca") else word + self.source()

    def commands(self):
        given = [self.command() for _ in range(self.dice.choice((0, 1, 1, 1, 2, 3)))]
        return given + [self.close()] if self.dice.random() < 0.15 else given

    def conditions(self):
        one = lambda: f"{self.dice.choice(('tries', 'months'))} {self.dice.choice(('<', '>='))} {self.dice.randrange(0, 4)}"
        return [one() for _ in range(self.dice.choice((0, 0, 0, 1, 2)))]

    def marks(self):
        some = ("keep", "up tries", "up months", "zero tries", "zero months")
        return [self.dice.choice(some) for _ in range(self.dice.choice((0, 0, 1, 2)))]

    def row(self, state, states):
        return [state, self.job(), self.conditions(), self.commands(), self.dice.choice(("", *states)), self.marks()]

    def table(self):
        """A table of rows, of which each state but the first is led to by the state before it."""
        states = STATES[: self.dice.randrange(1, 6)]
        rows = [[states[0], "start", [], self.opening(), "", self.marks()]]
        for place, state in enumerate(states):
            rows += [self.row(state, states) for _ in range(self.dice.randrange(1, 5))]
            if place + 1 < len(states):
                rows.append([state, self.job(), [], [self.command()], states[place + 1], []])
        if self.dice.random() < 0.3:
            rows.append(["any", self.job(), [], [self.close()]])
        name = self.dice.choice(("payload 1 order- none", "payload 0 p- none"))
        table = {"version": 1, "counters": ["tries 3", "months 3"], "name": name, "rows": rows}
        return self.mistaken(table) if self.dice.random() < 0.2 else table

    def opening(self):
        names = self.dice.sample(IDS, self.dice.randrange(1, 4))
        some = (lambda n: f"timer {n} {self.dice.randrange(1, 99)}", lambda n: f"activity {n} Charge input")
        return [self.dice.choice(some)(name) for name in names]

    def mistaken(self, table):
        """The table with one mistake."""
        dice, rows = self.dice, table["rows"]
        row = dice.choice(rows)
        place = dice.randrange(len(row))
        wrong = ["nowhere", "", 7, None, [], ["complete", "cancel"], "up", "timer a", "done a b", {}, "ask x -1 1", "same"]
        dice.choice((
            lambda: row.__setitem__(place, dice.choice(wrong)),
            lambda: rows.append(list(row)),
            lambda: table.__setitem__("version", dice.choice((0, 2, "1", None, 1.0))),
            lambda: table.__setitem__("counters", dice.choice((["tries 1"], ["tries"], 7, None))),
            lambda: table.__setitem__("rows", dice.choice(([], {}, rows * 40))),
            lambda: table.__setitem__("name", dice.choice(("payload", "payload x", 7))),
        ))()
        return table


# ---- Histories

class Traced(Run):
    """A run that remembers the rows that it takes, by their places, with the states that it takes them in."""

    def __init__(self, kind, payloads):
        self.taken = []
        super().__init__(kind, payloads)

    def follow(self, place, job):
        self.taken.append((place, self.at.state))
        return super().follow(place, job)

    def way(self):
        """What a page marks of its table: the rows that it took, for how many jobs, how each state is named, and whether it is closed."""
        if self.table is None:
            return None
        passed, names = {state for _, state in self.taken}, []
        for place, row in enumerate(self.table.rows):
            first = all(other.state != row.state for other in self.table.rows[:place])
            last = not self.at.closed and row.state == self.at.state
            names.append("name last" if last else "name passed" if row.state in passed else "name") if first else names.append("name again")
        return sorted({place for place, _ in self.taken}), len(self.taken), names, self.at.closed


class History:
    """A history of a run, as its commands and what comes to it from outside make it."""

    def __init__(self, dice, table):
        self.dice = dice
        self.payloads = [json.dumps(table).encode(), b'{"plan":"gold"}', dice.choice((b'"seven"', b"7", b'"a\\\\b"'))]
        self.payloads = self.payloads[: dice.randrange(1, 4)]
        self.run, self.way = Traced("Table", self.payloads), None
        self.events, self.shown, self.open, self.ended, self.completed = [], [], {}, False, 0
        self.write("WorkflowExecutionStarted", {"workflowType": {"name": "Table"}, "input": self.listed(self.payloads)})

    @staticmethod
    def listed(payloads):
        plain = base64.b64encode(b"json/plain").decode()
        return {"payloads": [{"metadata": {"encoding": plain}, "data": base64.b64encode(one).decode()} for one in payloads]}

    def write(self, kind, attributes=None):
        number = len(self.events) + 1
        event = {"eventId": str(number), "eventTime": f"2024-05-01T10:{number // 60 % 60:02}:{number % 60:02}Z", "eventType": kind}
        if attributes:
            event[kind[0].lower() + kind[1:] + "EventAttributes"] = attributes
        self.events.append(event)
        return number

    def task(self, jobs):
        """A workflow task, which is given the jobs. False where a command of theirs could not be taken: then it is not made."""
        before, kept = len(self.events), (dict(self.open), len(self.shown))
        self.write("WorkflowTaskScheduled")
        self.write("WorkflowTaskStarted")
        self.completed = self.write("WorkflowTaskCompleted")
        for job in jobs:
            given = self.run.begin() if job is None else self.run.step(job)
            for command in given:
                if self.ended or not self.take(command):
                    del self.events[before:]
                    self.open, self.shown = kept[0], self.shown[: kept[1]]
                    return False
        self.way = self.run.way()
        return True

    def take(self, command):
        kind, words = command[0], command[1:]
        attributes = {}
        if kind in ("StartActivity", "StartTimer", "StartChild"):
            thing = (kind[5:], words[0])
            if thing in self.open:
                return False
            attributes = {
                "Activity": lambda: {"activityId": words[0], "activityType": {"name": words[1]}},
                "Timer": lambda: {"timerId": words[0]},
                "Child": lambda: {"workflowId": words[0], "workflowType": {"name": words[1]}},
            }[thing[0]]()
            self.open[thing] = {"number": self.write(KINDS[kind], attributes), "started": None, "canceled": False}
        elif kind in ("CancelActivity", "CancelTimer", "CancelChild"):
            thing = self.open.get((kind[6:], words[0]))
            # (what a task starts and cancels at once is not sent at all, so no such history is made)
            if thing is None or thing["canceled"] or thing["number"] > self.completed:
                return False
            names = {"Activity": "scheduledEventId", "Timer": "startedEventId"}
            attributes = {names.get(kind[6:], "initiatedEventId"): str(thing["number"])}
            if kind == "CancelChild":
                attributes = {"workflowExecution": {"workflowId": words[0]}}
            if kind == "CancelTimer":
                del self.open[("Timer", words[0])]
            thing["canceled"] = True
            self.write(KINDS[kind], attributes | ({"timerId": words[0]} if kind == "CancelTimer" else {}))
        elif kind == "SignalExternal":
            self.write(KINDS[kind], {"workflowExecution": {"workflowId": words[0]}, "signalName": words[1]})
        elif kind == "Ask":
            return False
        else:
            self.ended = True
            self.write(KINDS[kind], {"workflowType": {"name": words[0]}} if kind == "ContinueAsNew" else {})
        self.shown.append(text_of(command))
        return True

    def outside(self):
        """Something comes from outside: its event is written, and its job is answered."""
        things = list(self.open)
        if not things or self.dice.random() < 0.25:
            if self.dice.random() < 0.3:
                self.write("WorkflowExecutionCancelRequested")
                return ("cancel",)
            name, payloads = self.dice.choice(SIGNALS), [b"1", b'"x"'][: self.dice.randrange(0, 3)]
            self.write("WorkflowExecutionSignaled", {"signalName": name, "input": self.listed(payloads)})
            return ("signal", name, payloads)
        kind, name = self.dice.choice(things)
        thing = self.open[(kind, name)]
        return getattr(self, kind.lower())(name, thing)

    def timer(self, name, thing):
        self.write("TimerFired", {"timerId": name, "startedEventId": str(thing["number"])})
        del self.open[("Timer", name)]
        return ("fired", name)

    def activity(self, name, thing):
        number = str(thing["number"])
        started = str(self.write("ActivityTaskStarted", {"scheduledEventId": number}))
        end = self.dice.choice(("completed", "completed", "failed", "timed-out"))
        payloads = [b'"done"'] if end == "completed" else []
        kind = {"completed": "Completed", "failed": "Failed", "timed-out": "TimedOut"}[end]
        attributes = {"scheduledEventId": number, "startedEventId": started}
        self.write("ActivityTask" + kind, attributes | ({"result": self.listed(payloads)} if payloads else {}))
        del self.open[("Activity", name)]
        return ("activity", name, end, payloads)

    def child(self, name, thing):
        attributes = {"initiatedEventId": str(thing["number"]), "workflowExecution": {"workflowId": name}}
        if thing["started"] is None:
            thing["started"] = self.write("ChildWorkflowExecutionStarted", attributes)
            return ("child-started", name)
        end = self.dice.choice(("completed", "failed", "timed-out", "terminated", "canceled"))
        payloads = [b'"kid"'] if end == "completed" else []
        kind = {"completed": "Completed", "failed": "Failed", "timed-out": "TimedOut", "terminated": "Terminated"}
        result = {"result": self.listed(payloads)} if payloads else {}
        self.write("ChildWorkflowExecution" + kind.get(end, "Canceled"), attributes | result)
        del self.open[("Child", name)]
        return ("child", name, end, payloads)


def text_of(command):
    """A command as `explain` shows it."""
    kind, words = command[0], command[1:]
    if kind == "StartTimer":
        return f"StartTimer {words[0]} ({words[1]} s)"
    names = [word for word in words if isinstance(word, str)]
    return " ".join(word for word in (kind, *names) if word)


def made(dice):
    """A history, with the commands that it shows."""
    history = History(dice, Maker(dice).table())
    if not history.task([None]):
        return None
    for _ in range(dice.randrange(0, 30)):
        if history.ended:
            break
        before = len(history.events)
        opened = {thing: dict(state) for thing, state in history.open.items()}
        job = history.outside()
        if not history.task([job]):
            # The run of the interpreter has moved on, so the history ends before this job.
            del history.events[before:]
            history.open = opened
            break
    return history


def explained(program, path):
    """The verdict on a history, and the commands that it shows."""
    done = subprocess.run([*program, "explain", "--all", str(path)], capture_output=True, text=True, timeout=120)
    lines = done.stdout.splitlines()
    return lines[-1] if lines else done.stderr, [line.strip()[6:] for line in lines if line.strip().startswith("gives ")]


def way_shown(program, path):
    """What the page of a history marks of the table of its run, or None where it has no table."""
    page = subprocess.run([*program, "explain", "--html", str(path)], capture_output=True, text=True, timeout=120).stdout
    section = page.partition('<h2 id="way">')[2]
    if not section:
        return None
    rows = re.findall(r'<g class="row( taken)?"><rect [^>]*/><text class="([^"]*)"', section)
    jobs = re.search(r"took a row: (\d+)\.", section)
    return [place for place, row in enumerate(rows) if row[0]], int(jobs[1]), [row[1] for row in rows], 'class="end last"' in section


def fault_of(program, folder, name, history):
    """What is wrong with what the program says of a history, which is kept then."""
    path = Path(folder, name)
    path.write_text(json.dumps({"events": history.events}))
    verdict, shown = explained(program, path)
    way = way_shown(program, path)
    if ": ok, " in verdict and shown == history.shown and way == history.way:
        return ""
    shutil.copy(path, name)
    return f"{verdict}\n  shown  {shown}, {way}\n  wanted {history.shown}, {history.way}"


def main():
    parser = words_of(__doc__)
    parser.add_argument("--runs", type=int, default=200, help="how many histories")
    parser.add_argument("--seed", type=int, default=1, help="what the random choices begin with")
    parser.add_argument("--program", nargs="+", default=[str(PROGRAM)])
    asked = parser.parse_args()
    need(parser, asked.program[0])
    dice = random.Random(asked.seed)
    histories = [*islice(filter(None, (made(dice) for _ in count())), asked.runs)]
    refused = sum(history.run.fault is not None for history in histories)
    with tempfile.TemporaryDirectory() as folder:
        names = (f"wrong-{asked.seed}-{number}.json" for number in count(1))
        rows = [(name, partial(fault_of, asked.program, folder, name, history)) for name, history in zip(names, histories)]
        return try_rows(rows, asked, PROCESSORS, f" ({refused} of them no table)")


if __name__ == "__main__":
    sys.exit(main())
