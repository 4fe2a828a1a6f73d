"""Runs whose table comes with them, for tests/loops.py: random tables, what comes to their runs, and the program that follows
each of them beside the worker, which is the interpreter of tests/table_rows.py."""

import base64
import copy
import json

from table_rows import Run
from tables import Maker
from workflows import DAY, SECOND, Followed, payloads

STATES = ("one", "two", "three", "four", "five", "six")
SIGNALS = ("go", "stop")
CHANGES = ("first-change", "second-change")
# What comes of what is open.
ENDS = {
    "activity": ("done", "done", "done", "failed"),
    "timer": ("fired",),
    "child": ("child-started", "child-done", "child-done", "child-failed", "child-canceled"),
}
# The type of activities that beat.
BEATING = "PrintLabels"
# How often a run goes on as new before it is terminated, and how long a history may grow.
MOST_RUNS, MOST_EVENTS = 6, 150
PLAIN = base64.b64encode(b"json/plain").decode()


class TableProgram:
    """A run of a table."""

    def __init__(self, kind, given):
        self.run, self.is_begun = Run(kind, given), False

    def copy(self):
        other = copy.copy(self)
        other.run = copy.copy(self.run)
        return other

    def step(self, job):
        self.is_begun = True
        return self.run.begin() if job[0] == "start" else self.run.step(job)

    def query(self, kind, values):
        if kind != "state":
            return False, f"unknown query type {kind}; known: state"
        return True, self.run.at.state if self.is_begun else ""


class RunMaker(Maker):
    """Makes tables whose runs live longer: ids are their own, most rows wait for what an earlier row has opened, few cancel
    what is not open, and versions are asked for. No run signals itself, or one that signals it."""

    def __init__(self, dice, number, parent=None, activities=("Charge", "Mail")):
        super().__init__(dice)
        self.activities = activities
        self.ids = [f"{letter}-{number}" for letter in "abcd"] + ["@"]
        self.others = [f"table-{other}" for other in ((number - 1, number - 2, number - 5) if parent is None else (parent, parent - 1))]
        self.opened = []

    def job(self):
        dice = self.dice
        if self.opened and dice.random() < 0.6:
            kind, name = dice.choice(self.opened)
            return f"{dice.choice(ENDS[kind])} {name}"
        word = dice.choice(("done", "failed", "fired", "signal", "signal", "signal", "signal", "child-canceled", "cancel", "cancel"))
        return word if word == "cancel" else f"{word} {dice.choice(SIGNALS if word == 'signal' else self.ids)}"

    def command(self):
        dice = self.dice
        (word,), name = dice.choices(("activity", "timer", "child", "signal", "cancel"), [24, 21, 15, 6, 2]), dice.choice(self.ids)
        if word == "cancel":
            return f"cancel-{' '.join(dice.choice(self.opened or [('timer', name)]))}"
        if word != "signal":
            self.opened.append((word, name))
        if word == "activity":
            return f"activity {name} {dice.choice(self.activities)}{self.source()}"
        if word == "child":
            kind = dice.choice(("Table", "Table:kid", "Charge", "Mail"))
            return f"child {name} {kind}{dice.choice((' input', ' input', self.source())) if kind[0] == 'T' else self.source()}"
        if word == "signal":
            return f"signal {dice.choice(self.others)} {dice.choice(SIGNALS)}{self.source()}"
        return f"timer {name} {dice.choice((0, 1, dice.randrange(1, 90_000)))}"

    def commands(self):
        given, opened = [], set()
        for command in super().commands():
            thing = tuple(command.split()[:2])
            if thing not in opened:
                given.append(command)
            opened.add(thing)
        return given

    def close(self):
        close = super().close()
        return close.replace("Table ", self.dice.choice(("Table ", "Table:more "))) if close.startswith("continue Table ") else close

    def asking(self, rows, states):
        """Rows that ask which version of a change to run, and hear it."""
        dice, change = self.dice, self.dice.choice(CHANGES)
        state, after, least, greatest = dice.choice(states), f"asked-{len(rows)}", dice.choice((-1, 0, 1)), dice.choice((1, 2))
        job = self.job()
        while any(row[:2] == [state, job] for row in rows):
            job = self.job()
        rows.append([state, job, [], [f"ask {change} {least} {greatest}"], after, self.marks()])
        for version in range(least, greatest + 1):
            if dice.random() < 0.5:
                rows.append([after, f"version {change} {version}", [], [self.command()], dice.choice(states), self.marks()])
        rows.append([after, f"version {change}", [], self.commands(), dice.choice(states), self.marks()])
        return rows

    def table(self):
        """A table of rows, of which each state but the first is led to by the state before it."""
        dice = self.dice
        states = STATES[: dice.randrange(1, 7)]
        rows = [[states[0], "start", [], self.opening(), "", self.marks()]]
        for place, state in enumerate(states):
            if place + 1 < len(states):
                rows.append([state, self.job(), [], [self.command()], states[place + 1], []])
            rows += [self.row(state, states) for _ in range(dice.randrange(1, 6))]
        if dice.random() < 0.6:
            self.asking(rows, states[:2])
        if dice.random() < 0.5:
            rows.append([states[-1], self.job(), [], [self.close()]])
        if dice.random() < (0.7 if BEATING in self.activities else 0.3):
            kind, name = self.opened[0]
            rows.insert(1, [states[0], dice.choice(("cancel", "signal go")), [], [f"cancel-{kind} {name}"], states[-1], []])
        if dice.random() < 0.3:
            rows.append(["any", self.job(), [], [self.close()]])
        name = dice.choice(("payload 1 kid- none", "payload 0 p- none"))
        table = {"version": 1, "counters": ["tries 3", "months 3"], "name": name, "rows": self.heard(rows)}
        return self.mistaken(table) if dice.random() < 0.06 else table

    @staticmethod
    def heard(rows):
        """The rows without those that no run can come to, since an earlier one is for the same state and job: most of what
        comes at random would be refused for them alone."""
        kept, seen = [], set()
        for row in rows:
            key = (row[0], row[1])
            if key in seen or ("any", row[1]) in seen:
                continue
            if len(row) < 3 or not row[2]:
                seen.add(key)
            kept.append(row)
        return kept

    def opening(self):
        given = []
        for name in self.dice.sample(self.ids, self.dice.randrange(1, 4)):
            kind = self.dice.choice(("timer", "activity"))
            self.opened.append((kind, name))
            given.append(f"timer {name} {self.dice.randrange(1, 9_000)}" if kind == "timer" else f"activity {name} {self.dice.choice(self.activities)} input")
        return given


def content(value):
    """A JSON value as a payload; a text in bytes is one already."""
    data = value if isinstance(value, bytes) else json.dumps(value).encode()
    return {"metadata": {"encoding": PLAIN}, "data": base64.b64encode(data).decode()}


class Tables(Followed):
    """Runs of random tables, of which some start children with tables of their own."""

    kinds, spread, lifetime = ("Table", "Table:one"), 600 * SECOND, DAY
    ends_after, knows = DAY + DAY // 2, dict.fromkeys(("Table", "Table:one", "Table:kid", "Table:more"), ("state",))

    def __init__(self, dice, activities=("Charge", "Mail")):
        """`activities` are the types that the tables start."""
        super().__init__(dice)
        self.lives, self.activities = {}, activities

    def begin(self, kind, given):
        return TableProgram(kind, given)

    def is_outside(self, kind):
        return kind in ("Charge", "Mail")

    def input(self, kind, number, workflow_id):
        """The table, and perhaps one for children, a text with a name, and more."""
        dice = self.dice
        if dice.random() < 0.02:
            return dice.choice((None, payloads(7), payloads("no table", {})))
        table = RunMaker(dice, number, None, self.activities).table()
        rest = [{"plan": "gold"}, f"run-{number}", dice.choice((7, 'a\\"b', b"no JSON", None))]
        if dice.random() < 0.6:
            rest[0] = RunMaker(dice, number + 1_000_000, number, self.activities).table()
        given = [table, *rest][: dice.choice((1, 2, 3, 3, 4))]
        if BEATING in self.activities:
            given += range(dice.choice((0, 0, 5, 40)))
        return {"payloads": [content(one) for one in given]}

    def signals(self, run):
        given = [[], [1], ["x", {"y": None}]]
        often = [(0.7, name, self.dice.choice(given)) for name in SIGNALS for _ in range(2)]
        return super().signals(run) + often

    def cancels(self, run):
        return 0.3

    def is_long(self, run):
        """One whose history grows long, as of a timer that starts itself again, is terminated."""
        return len(run.events) > MOST_EVENTS

    def goes_on(self, run):
        """One that has gone on as new too often does not."""
        previous = run.events[0]["workflowExecutionStartedEventAttributes"].get("continuedExecutionRunId")
        self.lives[run.run_id] = self.lives.pop(previous, 0) + 1
        return self.lives[run.run_id] <= MOST_RUNS

    def failed(self, run):
        """Its task can't be completed any more, so it is terminated after a while."""
        clock, runs = run.server.clock, run.server.runs
        clock.at(25 * SECOND, lambda: runs.terminate(run))
