#!/usr/bin/env python3
"""Looks for tables of which it is said wrongly that they get stuck, or that they never do.

Makes random tables, and searches each for a run that a server can make in which a command is at fault: with the counters as they
are, with the jobs of what is open one by one, and with faults by lists of commands, as a workflow task judges them. That is
written from docs/write/WORKFLOWS-WITHOUT-CODE.md and by the interpreter of tests/table_rows.py alone. What it finds is compared
with how `crates/wh_possible_runs/specs/Configurations.antt` decides: by states of things, cut counters and patterns of jobs, of
which the law `shown_tables_never_get_stuck` is proved. Three faults are then put into that deciding, one after another, and each
has to be found.

Random runs that a server can make, with several jobs in a task, have no command at fault if their tables are decided never to
get stuck. Some have one where a fault in the deciding takes tables for such that get stuck.

With a program, the tables are written as files too, which it checks: none that it says nothing of gets stuck, and what it prints
of another leads to a fault at its last job, and has as few jobs and tasks as can be.

    tests/stuck.py [--tables N] [--runs N] [--seed S] [--program PROGRAM]

The last line is `N tried, M wrong`, and the status is 0 where nothing is wrong."""

import json
import os
import random
import re
import subprocess
import sys
import tempfile
from collections import Counter, deque
from itertools import chain, product, zip_longest
from typing import NamedTuple

from rows import need, try_rows, words_of
from table_rows import CLOSING, OPENING, At, RowFault, Table, covers

# The most situations that a search looks at.
MOST = 6000
# The most moves of a random run, and how often a job comes rather than the next task.
MOVES = 40
JOBS = 0.7
FAULTS = ("an end comes twice", "a task never ends", "a late cancel is one")
# The one by which tables are taken for such that never get stuck.
HIDING = "a task never ends"
# The words of jobs that tell of a thing's end, by its kind.
ENDS = {"activity": ("done", "failed"), "timer": ("fired",), "child": ("child-done", "child-canceled", "child-failed")}
STUCK = re.compile(r"a run gets stuck by \w+, (?:for good|until what is open ends): (.*)")
UNDECIDED = "it is not decided whether a run gets stuck: "
CANCELS = {f"cancel-{kind}": kind for kind in OPENING}


# What a server does, and which commands are at fault, by lists of what was done.


class Task(NamedTuple):
    """A run in a task: the things that were open before it, those that were asked to cancel, children that have started, those
    that have ended since the task before, with those of them that it was told of, and what its commands did in their order."""

    at: At
    open: frozenset = frozenset()
    asked: frozenset = frozenset()
    started: frozenset = frozenset()
    ended: frozenset = frozenset()
    told: frozenset = frozenset()
    opened: frozenset = frozenset()
    withdrawn: frozenset = frozenset()
    canceled: frozenset = frozenset()
    waits: bool = False
    early: bool = True

    def fault(self, opens, thing):
        """Why a command can't open or cancel the thing, or nothing."""
        there = thing in self.open and not (thing[0] == "timer" and thing in self.canceled)
        if opens:
            return "IdInUse" if thing in self.opened or there else "IdReused" if thing in self.withdrawn else ""
        late = thing in self.ended and thing not in self.opened and thing not in self.withdrawn
        if not (thing in self.opened or there or late):
            return "NotOpen"
        again = thing in self.asked or thing in self.open and thing in self.canceled
        return "AlreadyCancelling" if thing[0] != "timer" and again else ""

    def does(self, command):
        """After a command, or why it is at fault."""
        if command[0] == "ask":
            return self._replace(waits=True)
        opens, kind = command[0] in OPENING, CANCELS.get(command[0], command[0])
        if not opens and command[0] not in CANCELS:
            return self
        thing = (kind, command[1])
        fault = self.fault(opens, thing)
        if fault:
            return fault
        if opens:
            return self._replace(opened=self.opened | {thing})
        if thing in self.opened:
            return self._replace(opened=self.opened - {thing}, withdrawn=self.withdrawn | {thing})
        return self._replace(canceled=self.canceled | ({thing} & self.open))

    def next_task(self):
        """Yields the tasks that may come next, each with what ended before it."""
        if self.waits or self.ended - self.told:
            return
        closed = {thing for thing in self.canceled if thing[0] == "timer"}
        left = sorted((self.open - closed) | self.opened)
        asked = (self.asked | self.canceled - closed) & frozenset(left) - self.opened
        for flags in product((False, True), repeat=len(left)):
            ended = frozenset(thing for thing, flag in zip(left, flags) if flag)
            there = frozenset(left) - ended
            yield sorted(ended), Task(self.at, there, asked & there, self.started & frozenset(left) - self.opened, ended)

    def jobs(self, names):
        """Yields the jobs that may come, each with what the run knows then."""
        if self.waits:
            for job in names:
                if job[0] == "version":
                    yield job, self._replace(waits=False)
            return
        late = self._replace(early=False)
        for job in names:
            if job[0] == "signal" and self.early:
                yield job, self
            if job[0] == "cancel":
                yield job, late
        for thing in sorted(self.ended - self.told):
            for word in ENDS[thing[0]]:
                yield (word, thing[1]), late._replace(told=self.told | {thing})
        for thing in sorted((self.open | (self.ended - self.told)) - self.started):
            if thing[0] == "child":
                yield ("child-started", thing[1]), late._replace(started=self.started | {thing})


def answered(table, task, job):
    """The task after a job that it was told, or why a command is at fault."""
    place = table.place_for(task.at, job)
    if place is None:
        return task
    row = table.rows[place]
    task = task._replace(at=table.after(task.at, row))
    for command in row.commands:
        task = task.does(command)
        if isinstance(task, str):
            return task
    return task


def names_in(table):
    """The signals, cancel requests and versions that rows are for, and one more version."""
    jobs = {row.job for row in table.rows if row.job[0] in ("signal", "cancel", "version")}
    more = {("version", row.job[1], 7) for row in table.rows if row.job[0] in ("version", "any-version")}
    return sorted(jobs | more | {("cancel",), ("version", "other", 0)}, key=repr)


def searched(table):
    """The moves of a shortest run in which a command is at fault, and the fault; None where there is none; and "unknown"."""
    names, seen, left = names_in(table), set(), deque()
    first = answered(table, Task(table.start), ("start",))
    if isinstance(first, str):
        return [("start",)], first
    left.append(((("start",), None), first))
    while left:
        way, task = left.popleft()
        if task in seen:
            continue
        seen.add(task)
        if len(seen) > MOST:
            return "unknown"
        for job, told in task.jobs(names):
            then = answered(table, told, job)
            if isinstance(then, str):
                return moves_of((job, way)), then
            left.append(((job, way), then))
        for ended, then in task.next_task():
            left.append(((("task", *ended), way), then))
    return None


def moves_of(way):
    """The moves of a way, the first one first."""
    moves = []
    while way is not None:
        move, way = (way[0], way[1]) if way[0] != "start" else (way, None)
        moves.append(move)
    return moves[::-1]


def is_followed(table, moves):
    """Whether a server can make the moves, and the last of them alone leads to a fault."""
    task = answered(table, Task(table.start), ("start",))
    if moves[0] != ("start",):
        return False
    for move in moves[1:]:
        if isinstance(task, str):
            return False
        if move[0] == "task":
            task = dict((tuple(ended), then) for ended, then in task.next_task()).get(move[1:])
        elif move[0] in ("signal", "cancel", "version"):
            told = dict(task.jobs([move])).get(move)
            task = told and answered(table, told, move)
        else:
            told = dict(task.jobs([])).get(move)
            task = told and answered(table, told, move)
        if task is None:
            return False
    return isinstance(task, str)


# How it is decided, by states of things.


def is_free(kind, phase, touch):
    if touch in ("opened", "withdrawn") or phase == "asked":
        return False
    if phase == "open":
        return touch == "canceled" and kind == "timer"
    return True


def may_cancel(phase, touch, fault):
    late = phase in ("ended", "told") and fault != "a late cancel is one"
    return touch == "opened" or touch != "withdrawn" and (late or (phase, touch) == ("open", "untouched"))


def ruled(kind, thing, opens, fault):
    """A thing after a command, or None."""
    phase, touch, started = thing
    if opens:
        return (phase, "opened", started) if is_free(kind, phase, touch) else None
    if not may_cancel(phase, touch, fault):
        return None
    return (phase, {"opened": "withdrawn"}.get(touch, "canceled" if phase == "open" else touch), started)


def next_things(names, things, place=0):
    """The things when the next task begins, with each choice of those that have ended."""
    if place == len(names):
        return [()]
    phase, touch, started = things[place]
    left = {"opened": "open", "withdrawn": "absent"}.get(touch, "absent" if phase in ("ended", "told") else phase)
    if touch == "canceled" and phase == "open":
        left = "absent" if names[place][0] == "timer" else "asked"
    runs, started = left in ("open", "asked"), started and touch != "opened"
    heads = [(left, "untouched", runs and started)] + ([("ended", "untouched", started)] if runs else [])
    return [(head, *rest) for head in heads for rest in next_things(names, things, place + 1)]


def told_of(names, things, pattern, fault):
    """The things once a job of the pattern comes that tells of one, or None."""
    for place, (kind, text) in enumerate(names):
        phase, touch, started = things[place]
        if pattern[0] in ENDS[kind] and pattern[1] == text:
            then = ("told" if fault != "an end comes twice" else "ended", touch, started)
            return things[:place] + (then,) + things[place + 1 :] if phase == "ended" else None
        if kind == "child" and pattern == ("child-started", text):
            there = phase in ("open", "asked", "ended") and not started
            return things[:place] + ((phase, touch, True),) + things[place + 1 :] if there else None
    return None


def heard(names, situation, pattern, fault):
    """What a run knows once a job of the pattern comes, or None."""
    things, waits, early = situation
    if waits or pattern[0] in ("version", "any-version"):
        return (things, False, early) if waits and pattern[0] in ("version", "any-version") else None
    if pattern[0] == "signal":
        return situation if early else None
    if pattern[0] == "cancel":
        return (things, False, False)
    then = told_of(names, things, pattern, fault)
    return None if then is None else (then, False, False)


def led(table, tops, names, row, config, situation, fault):
    """The configuration after a row, or "faulty"."""
    state, _, counts = config
    things, waits, early = situation
    for command in row.commands:
        opens, thing = command[0] in OPENING, (CANCELS.get(command[0], command[0]), *command[1:2])
        if command[0] == "ask":
            waits = True
        elif opens or command[0] in CANCELS:
            place = names.index(thing)
            then = ruled(thing[0], things[place], opens, fault)
            if then is None:
                return "faulty"
            things = things[:place] + (then,) + things[place + 1 :]
    left = list(counts)
    for mark, *counters in row.marks:
        for counter in counters:
            left[counter] = min(left[counter] + 1, tops[counter]) if mark == "up" else 0
    at = (state if row.after == "same" else row.after, row.closes(), tuple(left))
    return at, (things, waits, early)


def stepped(table, tops, names, config, fault):
    """The configurations that a job or the next task leads to."""
    (state, closed, counts), situation = config
    things, waits, early = situation
    passed = [("start",)]
    for row in () if closed else table.rows:
        holds = all((counts[c] < n) == (sign == "<") for sign, c, n in row.conditions)
        if row.state in ("any", state) and holds and not any(covers(other, row.job) for other in passed):
            now = heard(names, situation, row.job, fault)
            if now is not None:
                yield led(table, tops, names, row, config[0], now, fault)
            passed.append(row.job)
    if waits:
        yield config[0], (things, False, early)
        return
    yield config[0], (things, False, False)
    for kind, text in names:
        for word in ENDS[kind] + (("child-started",) if kind == "child" else ()):
            now = heard(names, situation, (word, text), fault)
            if now is not None and not any(covers(other, (word, text)) for other in passed):
                yield config[0], now
    if all(phase != "ended" for phase, _, _ in things) or fault == "an end comes twice":
        if fault != "a task never ends":
            for then in next_things(names, things):
                yield config[0], (then, False, True)


def decided(table, fault=None):
    """How many moves lead to a fault at least; 0 where none do; None where that is not decided."""
    names = sorted({
        (CANCELS.get(command[0], command[0]), command[1])
        for row in table.rows for command in row.commands if command[0] in OPENING or command[0] in CANCELS
    })
    tops = [max([n for row in table.rows for _, c, n in row.conditions if c == counter], default=0) for counter in range(4)]
    start = ((table.first, False, (0,) * 4), ((("absent", "untouched", False),) * len(names), False, True))
    row = next((row for row in table.rows if row.job == ("start",) and row.state in ("any", table.first) and all(
        sign == "<" and n > 0 or sign == ">=" and n == 0 for sign, _, n in row.conditions)), None)
    first = led(table, tops, names, row, start[0], start[1], fault) if row else start
    left, seen = deque([(1, first)]), set()
    while left:
        far, config = left.popleft()
        if config == "faulty":
            return far
        if config not in seen:
            seen.add(config)
            if len(seen) > MOST:
                return None
            left.extend((far + 1, then) for then in stepped(table, tops, names, config, fault))
    return 0


# Random tables.

PATTERNS = [
    "signal x", "signal y", "cancel", "done a", "done b", "failed a", "failed b", "fired t", "fired u", "child-started k",
    "child-done k", "child-canceled k", "child-failed k", "version c 1", "version c",
]
COMMANDS = [
    "activity a A", "activity a B", "activity b B", "child k C", "timer t 5", "timer u 5", "cancel-activity a", "cancel-timer t", "cancel-timer u",
    "cancel-child k", "signal other s",
]
CLOSINGS = ["complete", "fail broken", "cancel", "continue Other"]


def any_row(chance, states, bounds):
    """A row, as a file has it."""
    used = [name for name, bound in bounds.items() if bound]
    gives = chance.sample(COMMANDS, chance.choice((0, 0, 1, 1, 1, 2)))
    last = [chance.choice(CLOSINGS)] if chance.random() < 0.2 else ["ask c 1 2"] if chance.random() < 0.08 else []
    state = chance.choice(states + ["any"]) if chance.random() < 0.15 else chance.choice(states)
    conditions = [f"{name} {'<' if chance.random() < 0.7 else '>='} {chance.randint(1, bounds[name])}" for name in used if chance.random() < 0.4]
    marks = [f"{'up' if chance.random() < 0.75 else 'zero'} {name}" for name in used if chance.random() < 0.4]
    closes = bool(last) and last[0].split(" ")[0] in CLOSING + ("continue",)
    after = "" if closes or chance.random() < 0.4 else chance.choice(states)
    return [state, chance.choice(PATTERNS), conditions, gives + last, after, marks]


def any_table(chance):
    """A table, as a file has it."""
    states = ["p", "q", "r", "s"][: chance.randint(1, 4)]
    bounds = {"x": chance.choice((0, 0, 1, 2)), "y": chance.choice((0, 0, 1))}
    rows = [any_row(chance, states, bounds) for _ in range(chance.randint(2, 16))]
    rows[0][:3] = ["p", "start", []]
    return {"version": 1, "counters": [f"{name} {bound}" for name, bound in bounds.items()], "rows": rows}


def table_of(value):
    """The table of a file, whatever rules it breaks."""
    return Table(json.dumps(value).encode())


def breaks_a_rule(table, place):
    """Whether the row at a place does."""
    try:
        table.judge(table.rows[place], place)
    except RowFault:
        return True
    return False


def mended(value):
    """The table of a file without the rows that break a rule."""
    table, rows = table_of(value), value["rows"]
    while True:
        good = [place for place in range(len(rows)) if not breaks_a_rule(table, place)]
        if len(good) == len(rows):
            return {**value, "rows": rows}
        table.rows, rows = ([of[place] for place in good] for of in (table.rows, rows))


def any_tables(chance, many):
    """So many tables that break no rule."""
    values = []
    while len(values) < many:
        value = mended(any_table(chance))
        if value["rows"] and value["rows"][0][:2] == ["p", "start"]:
            values.append(value)
    return values


# What is wrong.


def length_of(found):
    """How many moves a search found; 0 for none."""
    return len(found[0]) if found else 0


def by_deciding(values):
    """Yields each table with what is wrong with how it is decided, and each fault that is not found."""
    counts, missed = Counter(), dict.fromkeys(FAULTS, 0)
    for number, value in enumerate(values):
        table = table_of(value)
        found, far = searched(table), decided(table)
        unsure = found == "unknown" or far is None
        counts["not decided" if unsure else "get stuck" if found else "never get stuck"] += 1
        fault = ""
        if not unsure and far != length_of(found):
            fault = f"{far} moves are decided, and {found} is found: {json.dumps(value)}"
        if found not in (None, "unknown") and not is_followed(table, found[0]):
            fault = f"{found} is not followed: {json.dumps(value)}"
        yield f"table {number}", fault
        for one in () if unsure else FAULTS:
            missed[one] += decided(table, one) not in (None, length_of(found))
    for fault, times in missed.items():
        yield f"where {fault}", "" if times else "it is not found"
    print("stuck: " + ", ".join(f"{times} {what}" for what, times in sorted(counts.items())))


def any_run(chance, table, names):
    """The moves of a random run, up to the first command at fault, and the fault or nothing."""
    moves, task = [("start",)], answered(table, Task(table.start), ("start",))
    while not isinstance(task, str) and not task.at.closed and len(moves) < MOVES:
        told, tasks = list(task.jobs(names)), list(task.next_task())
        if told and (not tasks or chance.random() < JOBS):
            job, then = chance.choice(told)
            moves.append(job)
            task = answered(table, then, job)
        else:
            ended, task = chance.choice(tasks)
            moves.append(("task", *ended))
    return moves, task if isinstance(task, str) else ""


def runs_of(chance, values, many, fault=None):
    """Yields the moves of so many random runs, each with its table and its fault or nothing, of tables decided never to get
    stuck."""
    never = [(value, table, names_in(table)) for value in values for table in [table_of(value)] if decided(table, fault) == 0]
    for number in range(many if never else 0):
        value, table, names = never[number % len(never)]
        yield value, *any_run(chance, table, names)


def by_runs(chance, values, many):
    """Yields each random run with what is wrong, and whether runs find the fault that takes tables for such."""
    moves = tasks = 0
    for number, (value, way, fault) in enumerate(runs_of(chance, values, many)):
        moves, tasks = moves + len(way), tasks + sum(move[0] == "task" for move in way)
        yield f"run {number}", fault and f"{fault} by {way}: {json.dumps(value)}"
    found = sum(fault != "" for _, _, fault in runs_of(chance, values, many, HIDING))
    yield f"runs where {HIDING}", "" if found or not many else "none has a fault"
    print(f"stuck: {many} runs, {moves} moves, {tasks} of them tasks; where {HIDING}, {found} have a fault")


def moves_in(scenario):
    """The moves of a scenario: a task begins with the ends that come in it."""
    moves, kinds = [], {word: kind for kind, words in ENDS.items() for word in words}
    for place, task in enumerate(scenario.split("; ")):
        jobs = [tuple(job.split(" ")) for job in task.split(" + ")]
        jobs = [(*job[:2], int(job[2])) if job[0] == "version" else job for job in jobs]
        if place:
            moves.append(("task", *sorted((kinds[job[0]], job[1]) for job in jobs if job[0] in kinds)))
        moves += jobs
    return moves


def checked(program, values):
    """What the program says of each table."""
    with tempfile.TemporaryDirectory() as folder:
        names = []
        for number, value in enumerate(values):
            names.append(os.path.join(folder, f"t{number:05}.json"))
            with open(names[-1], "w") as file:
                json.dump(value, file)
        said = []
        for place in range(0, len(names), 200):
            command = [program, "check", "--json", *names[place : place + 200]]
            lines = subprocess.run(command, capture_output=True, text=True).stdout.splitlines()
            said += [verdict_of(json.loads(line)) for line in lines[:-1]]
    return said


def verdict_of(said):
    """What an object that `check --json` prints says of whether the table gets stuck, and the scenario if it does."""
    for one in said["faults"]:
        if found := STUCK.fullmatch(one["text"]):
            return {"verdict": "stuck", "scenario": found[1]}
    if said["faults"]:
        return {}
    undecided = any(one["text"].startswith(UNDECIDED) for one in said["warnings"])
    return {"verdict": "undecided" if undecided else "never"}


def by_program(program, values):
    """Yields each table with what is wrong with what the program says of it."""
    counts = Counter()
    for number, (value, said) in enumerate(zip_longest(values, checked(program, values), fillvalue={})):
        table, verdict = table_of(value), said.get("verdict", "nothing")
        found, fault = searched(table), ""
        counts[verdict] += 1
        if verdict == "stuck":
            moves = moves_in(said["scenario"])
            if not is_followed(table, moves):
                fault = "its moves lead to no fault"
            elif found != "unknown" and len(moves) != length_of(found):
                fault = f"{length_of(found)} moves do"
        elif verdict == "never":
            fault = f"{found} is found" if found not in (None, "unknown") else ""
        elif verdict != "undecided" or found is None:
            fault = "it is not decided" if verdict == "undecided" else "it says nothing"
        yield f"file {number}", fault and f"{fault}: {json.dumps(value)}: {said}"
    print(f"stuck: by the program {', '.join(f'{times} {verdict}' for verdict, times in sorted(counts.items()))}")


def main():
    parser = words_of(__doc__)
    parser.add_argument("--tables", type=int, default=1000, help="how many tables")
    parser.add_argument("--runs", type=int, default=10000, help="how many random runs of tables that never get stuck")
    parser.add_argument("--seed", type=int, default=1, help="what the random choices begin with")
    parser.add_argument("--program", help="a built program that decides too")
    asked = parser.parse_args()
    values = any_tables(random.Random(asked.seed), asked.tables)
    rows = chain(by_deciding(values), by_runs(random.Random(asked.seed), values, asked.runs))
    if asked.program:
        need(parser, asked.program)
        rows = chain(rows, by_program(asked.program, values))
    return try_rows(rows, asked)


if __name__ == "__main__":
    sys.exit(main())
