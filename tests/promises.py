#!/usr/bin/env python3
"""Looks for promises of tables that are decided wrongly.

Makes random tables and promises, decides each as `crates/wh_rows/specs/Deciding.antt` does, and tries scenarios of up to 10
jobs on the table, by the interpreter of tests/table_rows.py, which follows docs/write/WORKFLOWS-WITHOUT-CODE.md. A promise is
wrong that holds by the first and is broken by a scenario, and a way that breaks a promise by the first and does not when it is
tried, or that is longer than a scenario which breaks it. Four faults are then put into the deciding, one after another, and
each has to be found.

What is decided here is a second writing of the definition, not the definition itself, of which the law
`keeps_its_promises` is proved: so this tells of the meaning of rows and promises, and not of the prover.

With a program, which is a built `wfhost`, the tables are written as files too, and `check` decides their promises: none that
it says to be kept is broken by a scenario, each way that it prints breaks its promise and is a shortest one, and each command
that the way says is counted. Tables are mended first, so that they break no rule.

    tests/promises.py [--tables N] [--seed S] [--program WFHOST]

The last line is `N tried, M wrong`, and the status is 0 where nothing is wrong."""

import json
import os
import random
import subprocess
import sys
import tempfile
from collections import Counter, deque
from functools import lru_cache
from itertools import chain, zip_longest

from rows import need, try_rows, words_of
from table_rows import CLOSING, At, RowFault, Table, covers, is_for, job_of

# What may happen is a text, as a promise has it: a job as a row writes it, a command, or how a run closes.
OPENS = {"activity": "activity", "child": "child", "send": "signal"}
CLOSES = {"complete": "complete", "fail": "fail", "canceled": "cancel", "continued": "continue"}
START = ("start",)
MOST_JOBS = 10
# The faults that are put into the deciding.
FAULTS = ("a job is left out", "a counter is cut too early", "the budget is one more", "a bad state is good")


# What a promise means.


@lru_cache(maxsize=None)
def pattern_of(what):
    """The job of a row, where what may happen is that a job comes, and else None."""
    return None if what.split(" ")[0] in (*OPENS, *CLOSES, "close") else job_of(what)


def is_given(what, command):
    """Whether it happens by a command."""
    if what == "close":
        return command[0] in CLOSING
    if what in CLOSES:
        return command[0] == CLOSES[what]
    word, _, name = what.partition(" ")
    return word in OPENS and (command[0], command[2:3]) == (OPENS[word], (name,))


def is_at(what, entry):
    """Whether it happened at the entry of a course."""
    kind, thing = entry
    if kind == "came":
        return pattern_of(what) is not None and is_for(pattern_of(what), thing)
    return is_given(what, thing)


def entries(table, at, job):
    """What a job adds to the course of a run, with the row that it takes, counted from 1, or 0; and where the run stands then."""
    place = table.place_for(at, job)
    if place is None:
        return [("came", job)], 0, at
    row = table.rows[place]
    return [("came", job), *(("gave", command) for command in row.commands)], place + 1, table.after(at, row)


def is_broken(promise, course):
    """Whether the course of a run breaks the promise, by its meaning."""
    word, *rest = promise
    if word == "at most":
        return sum(is_at(rest[1], entry) for entry in course) > rest[0]
    if word == "between":
        first, last, what = rest
        begin = next((place for place, entry in enumerate(course) if is_at(first, entry)), len(course))
        ends = [place for place in range(begin + 1, len(course)) if is_at(last, course[place])]
        return any(not any(is_at(what, entry) for entry in course[begin + 1 : end]) for end in ends)
    first, what = rest
    for place, entry in enumerate(course):
        before = any(is_at(first, one) for one in course[:place])
        if is_at(what, entry) and before == (word == "never after"):
            return True
    return False


def summed(promise, known, entry):
    """What a scenario that goes on has to know of its course: `broken`, or enough to tell later."""
    word, *rest = promise
    if known == "broken":
        return known
    if word == "at most":
        known += is_at(rest[1], entry)
        return "broken" if known > rest[0] else known
    if word == "between":
        first, last, what = rest
        if known == 0:
            return 1 if is_at(first, entry) else 0
        if known == 1 and is_at(last, entry):
            return "broken"
        return 2 if known == 1 and is_at(what, entry) else known
    first, what = rest
    if is_at(what, entry) and (known == 1) == (word == "never after"):
        return "broken"
    return 1 if is_at(first, entry) else known


def broken_by_scenario(table, promise):
    """How many jobs a start and up to 10 jobs after it take at least to break the promise; 0 where they don't."""
    seen, left = set(), {(table.start, 0)}
    for place in range(MOST_JOBS + 1):
        after = set()
        for at, known in left:
            for job in JOBS if place else [START]:
                added, _, then = entries(table, at, job)
                told = known
                for entry in added:
                    told = summed(promise, told, entry)
                if told == "broken":
                    return place + 1
                after.add((then, told))
        left = after - seen
        seen |= left
    return 0


# How a promise is decided.


def watch_of(promise):
    """The turns of its watch, and its budget."""
    word, *rest = promise
    if word == "at most":
        return [(1, rest[1], 1, 1)], rest[0]
    if word == "only after":
        return [(1, rest[1], 1, 1), (1, rest[0], 2, 0)], 0
    if word == "never after":
        return [(1, rest[0], 2, 0), (2, rest[1], 2, 1)], 0
    return [(1, rest[0], 2, 0), (2, rest[1], 2, 1), (2, rest[2], 3, 0)], 0


def are_apart(one, other):
    """Whether no job is of both."""
    alike = {"child-failed": "child-canceled", "any-version": "version"}
    if one[0] == other[0] == "version" and one[2] != other[2]:
        return True
    return one[1:2] != other[1:2] or alike.get(one[0], one[0]) != alike.get(other[0], other[0])


def job_turns(turns, known, passed, watch):
    """Where a watch may stand after a job that is of the pattern `known`, and of none of `passed`."""
    at, spent = watch
    found = []
    for begin, what, to, cost in turns:
        pattern = pattern_of(what)
        if begin != at or pattern is None or any(covers(other, pattern) for other in passed):
            continue
        if known and are_apart(known, pattern):
            continue
        found.append((to, spent + cost))
        if known and covers(pattern, known):
            return found
    return found + [watch]


def given(turns, commands, watch):
    """Where a watch stands after commands."""
    for command in commands:
        for begin, what, to, cost in turns:
            if begin == watch[0] and is_given(what, command):
                watch = (to, watch[1] + cost)
                break
    return watch


def steps(table, turns, tops, config, start, fault):
    """Where a job may lead, each with the number of its row."""
    (state, closed, counts), watch = config
    passed, found = [] if start else [START], []
    for number, row in enumerate(table.rows, 1):
        if closed or row.state not in ("any", state):
            continue
        if not all((counts[c] < n) if sign == "<" else (counts[c] >= n) for sign, c, n in row.conditions):
            continue
        if any(covers(other, row.job) for other in passed) or start and row.job != START:
            continue
        left = list(counts)
        for mark, counter in row.marks:
            left[counter] = min(left[counter] + 1, tops[counter]) if mark == "up" else 0
        for turned in job_turns(turns, row.job, passed, watch):
            then = At(state if row.after == "same" else row.after, row.closes(), tuple(left))
            found.append((number, (then, given(turns, row.commands, turned))))
        if start:
            return found
        passed.append(row.job)
    if fault == "a job is left out":
        return found
    return found + [(0, (config[0], turned)) for turned in job_turns(turns, START if start else None, passed, watch)]


def decided(table, promise, fault=None):
    """None where the promise holds, and else the rows of a shortest way that breaks it."""
    turns, budget = watch_of(promise)
    budget += fault == "the budget is one more"
    tops = [max([n for row in table.rows for _, c, n in row.conditions if c == counter], default=0) for counter in (0, 1)]
    if fault == "a counter is cut too early":
        tops = [max(top - 1, 0) for top in tops]
    config = (table.start, (1, 0))
    most = {}
    left = deque((way, then) for way, then in steps(table, turns, tops, config, True, fault))
    left = deque(([number], then) for number, then in left)
    while left:
        way, (run, (at, spent)) = left.popleft()
        if spent > budget:
            if fault == "a bad state is good" and budget == 0:
                continue
            return way
        if most.get((run, at), -1) >= spent:
            continue
        most[run, at] = spent
        for number, then in steps(table, turns, tops, (run, (at, spent)), False, fault):
            left.append((way + [number], then))
    return None


# Random tables, promises and jobs.

PATTERNS = [
    "signal x", "signal y", "cancel", "done a", "done b", "failed a", "fired t", "child-started k", "child-done k",
    "child-canceled k", "child-failed k", "version c -1", "version c 1", "version c",
]
JOBS = [
    ("signal", "x"), ("signal", "y"), ("signal", "z"), ("cancel",), ("done", "a"), ("done", "b"), ("failed", "a"),
    ("fired", "t"), ("child-started", "k"), ("child-done", "k"), ("child-canceled", "k"), ("child-failed", "k"),
    ("version", "c", -1), ("version", "c", 0), ("version", "c", 1),
]
# The commands of a row, by their places in it; the first four may be in promises, which call them so.
COMMANDS = ["activity a{} A", "activity a{} B", "child k{} C", "signal other s", "timer t{} 5"]
GIVEN = ["activity A", "activity B", "child C", "send s"]
CLOSINGS = ["complete", "fail broken", "cancel", "continue Other"]


def any_row(chance, states, bounds):
    """A row, as a file has it."""
    used = [name for name, bound in bounds.items() if bound]
    gives = [chance.choice(COMMANDS).format(place) for place in range(chance.choice((0, 1, 1, 2)))]
    closing = [chance.choice(CLOSINGS)] if chance.random() < 0.2 else []
    state = chance.choice(states + ["any"]) if chance.random() < 0.3 else chance.choice(states)
    job = chance.choice(PATTERNS) if chance.random() < 0.85 else "start"
    conditions = [
        f"{name} {'<' if chance.random() < 0.7 else '>='} {chance.randint(1, bounds[name])}" for name in used if chance.random() < 0.6
    ]
    marks = [f"{'up' if chance.random() < 0.75 else 'zero'} {name}" for name in used if chance.random() < 0.5]
    after = chance.choice(states) if chance.random() < 0.6 else ""
    return [state, job, conditions, gives + closing, "" if closing else after, marks]


def any_table(chance, least=3, most=9):
    """A table with so many rows, as a file has it."""
    states = ["p", "q", "r", "s"][: chance.randint(2, 4)]
    bounds = {"x": chance.randint(0, 3), "y": chance.choice((0, 0, 2))}
    rows = [any_row(chance, states, bounds) for _ in range(chance.randint(least, most))]
    rows[0][:2] = ["p", "start"]
    return {"version": 1, "counters": [f"{name} {bound}" for name, bound in bounds.items()], "rows": rows}


def table_of(value):
    """The table of a file, whatever rules it breaks."""
    return Table(json.dumps(value).encode())


def any_happening(chance):
    """What may happen."""
    which = chance.random()
    if which < 0.4:
        return chance.choice([*PATTERNS, "start"])
    return chance.choice(GIVEN if which < 0.8 else [*CLOSES, "close"])


def any_promise(chance):
    """A promise."""
    word = chance.choice(("at most", "only after", "never after", "between"))
    if word == "at most":
        return (word, chance.randint(0, 3), any_happening(chance))
    return (word, *(any_happening(chance) for _ in range(3 if word == "between" else 2)))


def is_tried(table, promise, way):
    """Whether a run that takes the rows of the way breaks the promise, by one choice of jobs for the rows or another."""
    left = {(table.start, 0): []}
    for place, number in enumerate(way):
        after = {}
        for (at, known), course in left.items():
            for job in JOBS if place else [START]:
                added, row, then = entries(table, at, job)
                if row == number:
                    told = known
                    for entry in added:
                        told = summed(promise, told, entry)
                    after[then, told] = course + added
        left = after
    return any(is_broken(promise, course) for course in left.values())


def is_walked(chance, table, promise):
    """Whether a random scenario breaks the promise, by its meaning alone."""
    at, course = table.start, []
    for job in [START] + [chance.choice(JOBS) for _ in range(MOST_JOBS)]:
        added, _, at = entries(table, at, job)
        course += added
    return is_broken(promise, course)


def fault_of(chance, table, promise, way, shortest):
    """What is wrong where a promise is decided so, and so many jobs break it at least, if some do."""
    if way is None:
        is_wrong = shortest or any(is_walked(chance, table, promise) for _ in range(20))
        return "it holds, and a scenario breaks it" if is_wrong else ""
    if not is_tried(table, promise, way):
        return f"it is not broken by the rows {way}"
    return f"it is broken by fewer jobs than by the rows {way}" if len(way) <= MOST_JOBS + 1 and shortest != len(way) else ""


def by_deciding(chance, many):
    """Yields so many tables, with what is wrong with how a promise of each is decided, and each fault, if it is not found."""
    counts, found = Counter(), dict.fromkeys(FAULTS, 0)
    for number in range(many):
        value, promise = any_table(chance), any_promise(chance)
        table = table_of(value)
        way, shortest = decided(table, promise), broken_by_scenario(table, promise)
        counts[way is None] += 1
        fault = fault_of(chance, table, promise, way, shortest)
        yield f"table {number}", fault and f"{fault}: {file_of(value, promise)}"
        for one in FAULTS if way is not None and shortest else ():
            found[one] += decided(table, promise, one) is None
    for fault, times in found.items():
        print(f"promises: where {fault}, {times} are found")
        yield f"where {fault}", "" if times else "it is not found"
    print(f"promises: {counts[True]} hold, {counts[False]} may be broken")


# Tables as files.


def breaks_a_rule(table, place):
    """Whether the row at a place does."""
    try:
        table.judge(table.rows[place], place)
    except RowFault:
        return True
    return False


def mended(value):
    """The table of a file without the rows that break a rule."""
    table, rows = table_of(value), value["rows"]
    while True:
        good = [place for place in range(len(rows)) if not breaks_a_rule(table, place)]
        if len(good) == len(rows):
            return {**value, "rows": rows}
        table.rows, rows = ([of[place] for place in good] for of in (table.rows, rows))


def promise_words(promise):
    """A promise, as a table writes it."""
    word, *rest = promise
    if word == "at most":
        return f"at most {rest[0]} {rest[1]}"
    if word == "between":
        return f"after {rest[0]}, before {rest[1]}: {rest[2]}"
    return f"{word} {rest[0]}: {rest[1]}"


def file_of(value, promise):
    """The text of a table with a promise."""
    return json.dumps({**value, "promises": promise_words(promise)})


def fault_of_way(table, promise, scenario):
    """What is wrong with a way that a program prints, if something is."""
    at, course = table.start, []
    for said in scenario:
        added, _, at = entries(table, at, job_of(said["job"]))
        if len([one for one in said["gives"].split("; ") if one]) != len(added) - 1:
            return f"{len(added) - 1} commands are given at {said['job']}"
        course += added
    if not is_broken(promise, course):
        return "it does not break the promise"
    shortest = broken_by_scenario(table, promise)
    if len(scenario) <= MOST_JOBS + 1 and shortest != len(scenario):
        return f"a shortest one has {shortest} jobs"
    return ""


def checked(program, tables):
    """What the program says of each promise."""
    with tempfile.TemporaryDirectory() as folder:
        names = []
        for number, (value, promise) in enumerate(tables):
            names.append(os.path.join(folder, f"t{number:05}.json"))
            with open(names[-1], "w") as file:
                file.write(file_of(value, promise))
        said = []
        for place in range(0, len(names), 200):
            lines = subprocess.run([program, "check", "--json", *names[place : place + 200]], capture_output=True, text=True)
            said += [json.loads(line) for line in lines.stdout.splitlines()]
    return [one["promises"][0] if "promises" in one else one for one in said if "file" in one]


def by_program(program, seed, many):
    """Yields so many tables, with what is wrong with what the program says of a promise of each."""
    chance, tables, counts, unsure = random.Random(seed), [], Counter(), 0
    while len(tables) < many:
        value = mended(any_table(chance, 6, 18))
        if value["rows"] and value["rows"][0][0] == "p":
            tables.append((value, any_promise(chance)))
    for number, ((value, promise), found) in enumerate(zip_longest(tables, checked(program, tables), fillvalue={})):
        table, verdict, fault = table_of(value), found.get("verdict", "nothing"), ""
        counts[verdict] += 1
        if verdict == "kept":
            if broken_by_scenario(table, promise) or any(is_walked(chance, table, promise) for _ in range(20)):
                fault = "it is kept, and a scenario breaks it"
        elif verdict == "broken":
            fault = fault_of_way(table, promise, found["scenario"])
            unsure += not found["shortest"]
        elif verdict != "not decided" or decided(table, promise) is None:
            fault = f"it is {verdict}"
        yield f"file {number}", fault and f"{fault}: {file_of(value, promise)}: {found}"
    print(f"promises: by check {', '.join(f'{times} {verdict}' for verdict, times in sorted(counts.items()))}")
    print(f"promises: of {unsure} broken ones fewer jobs may break them too, by check")


def main():
    parser = words_of(__doc__)
    parser.add_argument("--tables", type=int, default=2000, help="how many tables")
    parser.add_argument("--seed", type=int, default=1, help="what the random choices begin with")
    parser.add_argument("--program", help="a built program whose `check` decides too")
    asked = parser.parse_args()
    rows = by_deciding(random.Random(asked.seed), asked.tables)
    if asked.program:
        need(parser, asked.program)
        rows = chain(rows, by_program(asked.program, asked.seed, asked.tables))
    return try_rows(rows, asked)


if __name__ == "__main__":
    sys.exit(main())
