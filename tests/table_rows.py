"""Tables of rows, read and followed by themselves: what a workflow of the type Table has to do, without its code.

docs/write/WORKFLOWS-WITHOUT-CODE.md says what a table means. This is written from that page alone, so that tests can compare."""

import json
from typing import NamedTuple, Tuple

MOST_ROWS, MOST_COMMANDS, MOST_PHRASES, MOST_COUNTERS = 200, 64, 16, 4
MOST_SECONDS, MOST_PAYLOADS = 315_576_000_000, 65_536
SOURCES = {"": "nothing", "input": "input", "brought": "brought", "kept": "kept"}
CLOSING = ("complete", "fail", "cancel", "continue")
OPENING = ("activity", "timer", "child")
JOBS = ("done", "failed", "fired", "signal", "child-started", "child-done", "child-canceled", "child-failed")


class Fault(Exception):
    """Why a text is no table."""


class RowFault(Exception):
    """Why a row is none, or which rule it breaks."""


def number(word):
    """The number that one to nineteen digits write."""
    if 1 <= len(word) <= 19 and all(c in "0123456789" for c in word):
        return int(word)
    return None


def version(word):
    if word == "-1":
        return -1
    found = number(word)
    return found if found is not None and found < 2**31 else None


def words_of(text):
    """The first word, all that follows it, the second word, the third one, and what follows that."""
    verb, _, after = text.partition(" ")
    first, _, more = after.partition(" ")
    second, _, third = more.partition(" ")
    return verb, after, first, second, third


def name_in(text):
    """The one word after the first, or None."""
    _, _, first, second, third = words_of(text)
    return first if first and not second and not third else None


def job_of(text):
    verb, after, first, second, _ = words_of(text)
    if verb in ("start", "cancel"):
        return None if after else (verb,)
    if verb in JOBS:
        name = name_in(text)
        return None if name is None else (verb, name)
    if verb == "version":
        if first and second:
            given = version(second)
            return None if given is None else (verb, first, given)
        name = name_in(text)
        return None if name is None else ("any-version", name)
    return None


def command_of(text):
    """The command of a phrase; None for one of no known word, and False for one that is written wrong."""
    verb, after, first, second, third = words_of(text)
    if verb in ("cancel-activity", "cancel-timer", "cancel-child"):
        name = name_in(text)
        return (verb, name) if name is not None else False
    if verb == "fail":
        return (verb, after)
    if verb == "cancel":
        return False if after else (verb,)
    if verb in ("complete", "again"):
        if after not in SOURCES:
            return False
        return (verb, SOURCES[after]) if verb == "complete" else ("continue", "", SOURCES[after])
    if verb == "continue":
        return (verb, first, SOURCES[second]) if first and not third and second in SOURCES else False
    if verb in ("activity", "child", "signal"):
        return (verb, first, second, SOURCES[third]) if first and second and third in SOURCES else False
    if verb == "timer":
        seconds = number(second)
        fits = first and second and not third and seconds is not None and seconds <= MOST_SECONDS
        return (verb, first, seconds) if fits else False
    if verb == "ask":
        least, greatest = version(second), version(third)
        fits = first and second and least is not None and greatest is not None
        return (verb, first, least, greatest) if fits else False
    return None


class Row:
    def __init__(self, state, job, conditions, commands, after, marks):
        self.state, self.job, self.conditions = state, job, conditions
        self.commands, self.after, self.marks = commands, after, marks

    def closes(self):
        return any(command[0] in CLOSING for command in self.commands)

    def next(self):
        return self.state if self.after == "same" else self.after

    def fits(self, at, job, name):
        """Whether the row is for a job where a run stands."""
        return self.state in ("any", at.state) and is_for(self.job, job, name) and all(
            (at.counts[counter] < bound) == (sign == "<") for sign, counter, bound in self.conditions
        )


class At(NamedTuple):
    """Where a run stands: its state, whether it is closed, and its counters."""

    state: str
    closed: bool
    counts: Tuple[int, ...]


def is_for(wanted, job, name=""):
    """Whether a row's job is that one: @ in it stands for the name. What comes with a job is of no account."""
    kind, *words = (name if word == "@" else word for word in wanted)
    if kind == "child-failed":
        return job[0] in ("child-failed", "child-canceled") and words[0] == job[1]
    if kind in ("version", "any-version"):
        return job[0] == "version" and words == list(job[1 : 1 + len(words)])
    return kind == job[0] and (kind in ("start", "cancel") or words[0] == job[1])


class Table:
    """A table, from its text, whatever rules it breaks. A Fault says why there is none."""

    def __init__(self, content):
        value = self.parsed(content)
        is_object = isinstance(value, dict)
        known = value.get("version") if is_object else None
        if not (isinstance(known, int) and not isinstance(known, bool) and known == 1):
            raise Fault("the version of the table is not 1")
        rows = value.get("rows")
        if not isinstance(rows, list):
            raise Fault("the table has no list of rows")
        if len(rows) > MOST_ROWS:
            raise Fault("the table has more than 200 rows")
        self.counters = self.counters_of(value.get("counters"))
        self.name = self.name_of(value.get("name"))
        self.rows = [self.numbered(place + 1, self.row, row) for place, row in enumerate(rows)]
        if not self.rows:
            raise Fault("the table has no row")
        self.first = self.rows[0].state
        self.start = At(self.first, False, (0,) * len(self.counters))

    # ---- Runs

    def place_for(self, at, job, name=""):
        """The place of the row that a job takes where a run stands: the first that fits, or None."""
        places = () if at.closed else range(len(self.rows))
        return next((place for place in places if self.rows[place].fits(at, job, name)), None)

    def after(self, at, row):
        """Where a run stands after a row."""
        counts = list(at.counts)
        for kind, *counters in row.marks:
            for counter in counters:
                counts[counter] = min(counts[counter] + 1, self.bound(counter)) if kind == "up" else 0
        return At(at.state if row.after == "same" else row.after, row.closes(), tuple(counts))

    # ---- Texts

    @staticmethod
    def parsed(content):
        def refuse(word):
            raise ValueError(word)

        try:
            return json.loads(content.decode("utf-8", "strict"), parse_constant=refuse)
        except (ValueError, RecursionError):
            raise Fault("the table is no JSON") from None

    @staticmethod
    def numbered(place, call, *words):
        try:
            return call(*words)
        except RowFault as fault:
            raise Fault(f"row {place}: {fault}") from None

    @staticmethod
    def phrases(value, fault):
        """A text is one phrase, an empty one none; a list of texts are as many."""
        if isinstance(value, str):
            return [value] if value else []
        if isinstance(value, list) and all(isinstance(one, str) for one in value):
            return value
        raise fault

    def counters_of(self, value):
        fault = Fault("counters are at most four texts, each a name and a bound")
        phrases = [] if value is None else self.phrases(value, fault)
        if len(phrases) > MOST_COUNTERS:
            raise fault
        counters = []
        for phrase in phrases:
            name, bound = phrase.partition(" ")[0], name_in(phrase)
            if not name or bound is None or number(bound) is None:
                raise fault
            counters.append((name, number(bound)))
        return counters

    @staticmethod
    def name_of(value):
        fault = Fault("the name is not written so: payload NUMBER PREFIX OTHER")
        if value is None:
            return None
        if not isinstance(value, str):
            raise fault
        verb, _, first, second, third = words_of(value)
        place = number(first)
        if verb != "payload" or place is None or place >= MOST_PAYLOADS:
            raise fault
        return (place, second, third)

    def counter(self, name):
        for place, (known, _) in enumerate(self.counters):
            if known == name:
                return place
        return None

    def row(self, value):
        if not isinstance(value, list) or len(value) > 6:
            raise RowFault("a row is a list of at most six members")
        not_text = RowFault("a member is no text, and no list of texts where one may be")

        def cell(place):
            if place >= len(value):
                return ""
            if not isinstance(value[place], str):
                raise not_text
            return value[place]

        def phrases(place):
            return [] if place >= len(value) else self.phrases(value[place], not_text)

        state, job = cell(0), job_of(cell(1))
        if job is None:
            raise RowFault("no job is written so")
        conditions = self.few(phrases(2))
        conditions = [self.condition(phrase) for phrase in conditions]
        commands = []
        for phrase in phrases(3):
            command = command_of(phrase)
            if command is None:
                raise RowFault("no command begins with this word")
            if command is False:
                raise RowFault("a command lacks a word, has one too much, or a number is out of range")
            commands.append(command)
        after = cell(4) or "same"
        marks = [self.mark(phrase) for phrase in self.few(phrases(5))]
        return Row(state, job, conditions, commands, after, marks)

    @staticmethod
    def few(phrases):
        if len(phrases) > MOST_PHRASES:
            raise RowFault("it has more than 16 conditions or marks")
        return phrases

    def condition(self, phrase):
        verb, _, sign, second, third = words_of(phrase)
        counter, bound = self.counter(verb), number(second)
        if not sign or not second or third or counter is None or bound is None or sign not in ("<", ">="):
            raise RowFault("no condition is written so, or there is no such counter")
        return (sign, counter, bound)

    def mark(self, phrase):
        if phrase == "keep":
            return ("keep",)
        verb, name = phrase.partition(" ")[0], name_in(phrase)
        counter = None if name is None else self.counter(name)
        if verb not in ("up", "zero") or counter is None:
            raise RowFault("no mark is written so, or there is no such counter")
        return (verb, counter)

    # ---- Rules

    def check(self):
        """A Fault says which row breaks a rule first, and which one."""
        for place, row in enumerate(self.rows):
            self.numbered(place + 1, self.judge, row, place)

    def bound(self, counter):
        return self.counters[counter][1]

    def has_row_of(self, state):
        return any(row.state == state for row in self.rows)

    def hears(self, state, change, given):
        """Whether, in the state, that version of the change has a row without a condition."""
        for row in self.rows:
            if row.state in ("any", state) and not row.conditions:
                if row.job == ("any-version", change) or row.job == ("version", change, given):
                    return True
        return False

    def judge(self, row, place):
        """The rules, in their order. A RowFault says which one the row breaks."""
        asked = [command for command in row.commands if command[0] == "ask"]
        opened = [command[:2] for command in row.commands if command[0] in OPENING]
        bounded = all(bound <= self.bound(counter) for _, counter, bound in row.conditions)
        bounded = bounded and all(mark[0] != "up" or self.bound(mark[1]) >= 1 for mark in row.marks)
        earlier = [number + 1 for number, other in enumerate(self.rows[:place]) if hides(other, row)]
        if len(row.commands) > MOST_COMMANDS:
            raise RowFault("it gives more than 64 commands")
        if any(command[0] in CLOSING + ("ask",) for command in row.commands[:-1]):
            raise RowFault("a command follows one that asks or closes the run")
        if len(set(opened)) < len(opened):
            raise RowFault("it starts two things of a kind under one id")
        if any(greatest < least or least < -1 or greatest < 0 for _, _, least, greatest in asked):
            raise RowFault("it asks for a range of versions that is none")
        if row.state == "same":
            raise RowFault("no state has the name same")
        if not row.closes() and row.after != "same" and (row.after == "any" or not self.has_row_of(row.after)):
            raise RowFault("no row is for the state that it leads to")
        led = any(one.after == row.state and one.state != row.state and not one.closes() for one in self.rows)
        if row.state not in ("any", self.first) and not led:
            raise RowFault("no row of another state leads to its state")
        for _, change, least, greatest in asked:
            # More than as many versions as there are rows can't each have a row of their own.
            some = range(least, min(greatest, least + MOST_ROWS + 1) + 1)
            if not all(self.hears(row.next(), change, one) for one in some):
                raise RowFault("it asks for a version that no row hears in the state after it")
        if not bounded:
            raise RowFault("it raises a counter without a bound, or asks for more than the bound")
        if earlier:
            raise RowFault(f"it never counts, since row {earlier[0]} fits wherever it does")


def covers(first, other):
    """Whether the first is for each job that the other is for."""
    if first[0] == "any-version":
        return other[0] in ("any-version", "version") and first[1] == other[1]
    if first[0] == "child-failed":
        return other[0] in ("child-failed", "child-canceled") and first[1] == other[1]
    return first == other


def implies(given, wanted):
    if given[0] != wanted[0] or given[1] != wanted[1]:
        return False
    return given[2] <= wanted[2] if given[0] == "<" else given[2] >= wanted[2]


def hides(earlier, later):
    if earlier.state not in ("any", later.state) or not covers(earlier.job, later.job):
        return False
    return all(any(implies(one, wanted) for one in later.conditions) for wanted in earlier.conditions)


def job_in_rows(job):
    """A job of a run, as rows write it: by the end of an activity or a child, with what it brought."""
    if job[0] == "activity":
        return ("done" if job[2] == "completed" else "failed", job[1], job[3])
    if job[0] == "child":
        kind = {"completed": "child-done", "canceled": "child-canceled"}.get(job[2], "child-failed")
        return (kind, job[1], job[3])
    return job


class Run:
    """A run of a table: it is given jobs, and gives commands.

    A job is a tuple: ("start", payloads), ("signal", name, payloads), ("cancel",), ("activity", id, end, payloads),
    ("fired", id), ("child-started", id), ("child", id, end, payloads), ("version", change, number). A payload is a
    text of JSON. An end is "completed", "failed", "timed-out", "canceled", or for a child one more."""

    def __init__(self, kind, payloads):
        self.kind, self.payload = kind, payloads[:1]
        self.fault, self.table = None, None
        try:
            if not payloads:
                raise Fault("there is no table")
            table = Table(payloads[0])
            table.check()
            self.table = table
        except Fault as fault:
            self.fault = str(fault)
        self.input, self.kept, self.name = payloads[1:], [], ""
        self.at = At("", True, ())
        if self.table:
            self.name, self.at = self.named(), self.table.start

    def named(self):
        """The name that @ stands for."""
        if self.table.name is None:
            return ""
        place, prefix, other = self.table.name
        if place < len(self.input):
            content = self.input[place].decode("utf-8", "replace")
            inner = content[1:-1]
            plain = len(content) > 2 and content[0] == content[-1] == '"' and '"' not in inner and "\\" not in inner
            if plain and all(ord(c) >= 32 for c in inner):
                return prefix + inner
        return other

    def begin(self):
        """What the start gives."""
        if self.fault is not None:
            return [("Fail", self.fault)]
        return self.step(("start", self.input))

    def id(self, text):
        return self.name if text == "@" else text

    @staticmethod
    def brought(job):
        if job[0] == "start":
            return job[1]
        return job[2] if job[0] in ("signal", "done", "child-done") else []

    def from_source(self, source, job):
        return {"nothing": [], "input": self.input, "brought": self.brought(job), "kept": self.kept}[source]

    def step(self, job):
        """The commands that a job is given."""
        job = job_in_rows(job)
        place = self.table.place_for(self.at, job, self.name) if self.table else None
        return [] if place is None else self.follow(place, job)

    def follow(self, place, job):
        """The commands of the row at that place, which the job takes."""
        row = self.table.rows[place]
        given = [self.command(command, job) for command in row.commands]
        if ("keep",) in row.marks:
            self.kept = self.brought(job)
        self.at = self.table.after(self.at, row)
        return given

    def command(self, command, job):
        kind = command[0]
        if kind in ("activity", "child"):
            name = "StartActivity" if kind == "activity" else "StartChild"
            return (name, self.id(command[1]), command[2], self.from_source(command[3], job))
        if kind == "signal":
            return ("SignalExternal", self.id(command[1]), command[2], self.from_source(command[3], job))
        if kind == "timer":
            return ("StartTimer", self.id(command[1]), command[2])
        if kind in ("cancel-activity", "cancel-timer", "cancel-child"):
            return ("Cancel" + kind[7:].capitalize(), self.id(command[1]))
        if kind == "ask":
            return ("Ask", self.id(command[1]), command[2], command[3])
        if kind == "complete":
            return ("Complete", self.from_source(command[1], job))
        if kind == "fail":
            return ("Fail", command[1])
        if kind == "cancel":
            return ("Cancel",)
        given = self.from_source(command[2], job)
        return ("ContinueAsNew", command[1] or self.kind, given if command[1] else self.payload + given)
