#!/usr/bin/env python3
"""Tries the pages of runs: `explain --html FILE` of the built program, over the example histories, edited ones with a fault, one
whose names are hostile, one of 51,200 events, runs of a table that came with them, and runs as the SDKs for Go, TypeScript, Java
and Python record them.

Each page is read by a parser: its tags balance, nothing in it runs or is fetched, no rule of its style hides text, what is named
by an id is there, and the times of the picture are those of the table. Its verdict is the line of `replay`, the event that is
marked is the one that the line names, and both sides of a difference are those that `replay` tells. Whatever the history holds
stands as text: a history whose names are hostile has the very tags of the same history with plain names. A run of a table has
that table with marks at the rows that it took, and no other page has one. The head says what the first lines of `explain
--recorded` say, and of an open run what it waits for; a line tells a failure with its causes, and has their stack traces. The
sums by type are those of its last lines, each with a link to the event of the longest, and a row tells how long a thing waited
and took. Things are named by their types, each event leads to its line by an id, and many things of a type share a row of the
picture, which tells how many there are in all; of more than 300 the failed ones are shown first, then the open ones, and then
the slowest. Markers and updates are named as `explain --recorded` names them. Of more than 300 tasks an open run shows the last.
A request to cancel a thing is marked in its lane. The page of `check --html` has each promise with its mark, and the jobs that
break it. The pictures in docs/pictures are those of the pages that the program makes now.

    tests/pages.py [--program PATH]       crates/wfhost/out/wfhost, where it isn't given
    .. --sizes                            prints how large each page is, and how long it took
    .. --shots FOLDER                     then pictures of some pages by Chromium: wide and narrow, light and dark
    .. --draw                             writes docs/pictures

The last line is `N tried, M wrong`."""

import base64
import copy
import datetime
import json
import re
import shutil
import subprocess
import sys
import tempfile
import time
from html.parser import HTMLParser
from itertools import chain
from pathlib import Path

from rows import PROGRAM, TOP, need, try_rows, words_of
from statuses.sdk_runs import GO, ODD, TYPESCRIPT

EXAMPLES = TOP / "examples" / "histories"
RUN = TOP / "examples" / "runs" / "canceled_order.json"
VOID = {"meta"}
KNOWN = set(
    "html head meta title style body header h1 h2 h3 p dl div dt dd main section pre code svg desc defs pattern line"
    " text tspan strong rect circle g span path table thead tbody tr th td details summary ol ul li footer a".split()
)
# What stands in place of a character that can't be seen.
UNSEEN = re.compile("[\x80-\x9f\u200e\u200f\u2028-\u202e\u2066-\u2069\u061c\ufeff\ufffe\uffff]")
HOSTILE = (
    "<script>alert(\"1\")</script><img src=x onerror='alert(2)'> & &lt; &#x3c; &amp; ]]> \0\x01\x1b[31m\t\n\x7f\x85\u202ekcab\ufffe\uffff"
    "</title></svg></table></details></style>--><!-- \u65e5\u672c\u8a9e \U0001f642 {hole} \\ "
)
# What a rule of a style sheet says where it hides the text of its elements.
HIDES = re.compile(
    r"(?<![\w-])(?:display:\s*none|(?:content-)?visibility:\s*(?:hidden|collapse)"
    r"|(?:opacity|font-size):\s*0*\.?0*(?:%|[a-z]+)?\s*(?:$|[;!]))"
)
# How a promise is marked on the page of a table: its class and its words, by the verdict of `check --json`.
MARKS = {"kept": ("kept", "&#10003; kept"), "broken": ("broken", "&#10007; broken"), "no promise": ("undecided", "? no promise")}
NOT_DECIDED = ("undecided", "? not decided")
STAMP = r"\d+-\d\d-\d\dT\d\d:\d\d:\d\d(?:\.\d+)?Z"
WIDTHS = {"wide": 1280, "narrow": 420}
EVENTS = 51_200
# The histories of which the head of the page is told beside the text of `explain --recorded`.
HEADED = ("go", "typescript", "java", "python", "troubles", "nap", "crowded", "table")
# The names in two histories that are alike otherwise.
NAMES = {
    "plain": [f"plain-{i}" for i in range(8)] + ["PlainType"],
    "hostile": [(f"{i}{HOSTILE}" + f"{i}<b>long</b> \"name\" 'of' a & thing, " * 9)[:255] for i in range(9)],
}


def seen(text, most):
    """A text as a page shows it, by its first characters."""
    shown = "".join(chr(0x2400 + ord(c)) if c < " " else "\u2421" if c == "\x7f" else c for c in text[:most])
    return UNSEEN.sub("\ufffd", shown) + ("…" if len(text) > most else "")


def is_mark(names):
    """Whether a rule is for what stands before elements, or behind them, alone: that is no text."""
    return all(re.search("::(before|after)$", name.strip()) for name in names.split(","))


def hiding_rules(style):
    """The rules of a style sheet that hide text, and the marks before or behind an element that are text."""
    worded = [f"a mark {text}" for text in re.findall(r"(?<![\w-])content:([^;}]*)", style) if text != "''"]
    rules = re.findall(r"([^{}]+)\{([^{}]*)\}", style)
    return worded + [f"{names.strip()}{{{told}}}" for names, told in rules if HIDES.search(told) and not is_mark(names)]


class Page(HTMLParser):
    """What a parser finds in a page."""

    def __init__(self, html):
        super().__init__(convert_charrefs=True)
        self.html = html
        self.wrong = []
        self.open = []
        self.tags = []
        self.ids = []
        self.refs = []
        self.texts = []
        self.styles = []
        self.headings = []
        self.lanes = []
        self.in_lane = False
        self.rows = []
        self.sums = []
        self.tasks = []
        self.facts = {}
        self.fact = ""
        self.waits = []
        self.sections = []
        self.part = None
        self.parts = {"title": "", "verdict": "", "fault-word": ""}
        self.sides = []
        self.notes = ""
        self.feed(html)
        self.close()
        if self.open:
            self.wrong.append(f"not closed: {self.open}")

    def handle_starttag(self, tag, attributes):
        names = dict(attributes)
        self.tags.append((tag, tuple(attributes)))
        if tag not in KNOWN:
            self.wrong.append(f"unknown tag {tag}")
        for name, value in attributes:
            is_link = tag == "a" and name == "href" and re.fullmatch(r"#event-\d+", value or "")
            if name.startswith("on") or name in ("href", "src", "action", "xlink:href", "srcset", "style") and not is_link:
                self.wrong.append(f"{tag} has {name}={value!r}")
        self.ids += [names["id"]] if "id" in names else []
        for name in ("aria-labelledby", "aria-describedby"):
            self.refs += names.get(name, "").split()
        classes = names.get("class", "").split()
        self.part = "title" if tag == "h1" else next((name for name in classes if name in self.parts), None)
        if tag in ("h1", "h2", "h3"):
            self.headings.append(int(tag[1]))
        if tag == "g":
            self.in_lane = "lane" in classes
            if self.in_lane:
                self.lanes.append({"class": classes[1:], "title": "", "signs": []})
        if tag in ("rect", "circle") and self.in_lane and self.open[-1] == "g":
            self.lanes[-1]["signs"].append(names)
        if tag == "tr" and "tbody" in self.open:
            self.table().append({"class": classes, "cells": [], "links": []})
        if tag in ("td", "th") and "tbody" in self.open and self.table():
            self.table()[-1]["cells"].append("")
        if tag == "a" and "tbody" in self.open and self.table():
            self.table()[-1]["links"].append(names.get("href"))
        if tag == "details" and classes != ["trace"]:
            self.tasks.append({"open": "open" in names, "lines": []})
        if tag == "li" and "details" in self.open:
            self.tasks[-1]["lines"].append({"class": classes, "text": "", "id": names.get("id"), "trace": ""})
        elif tag == "li" and "waits" in self.sections:
            self.waits.append("")
        if tag == "pre" and "li" not in self.open:
            self.sides.append("")
        if tag == "section":
            self.sections = classes
        if tag == "dt":
            self.fact = ""
        if tag == "dd":
            self.facts[self.fact] = ""
        if tag not in VOID:
            self.open.append(tag)

    def table(self):
        """The rows so far of the table that is being read: that of the sums by type, or that of the things."""
        return self.sums if "sums" in self.sections else self.rows

    def handle_startendtag(self, tag, attributes):
        self.handle_starttag(tag, attributes)
        if tag not in VOID:
            self.open.pop()

    def handle_endtag(self, tag):
        self.part = None
        if not self.open or self.open[-1] != tag:
            self.wrong.append(f"</{tag}> within {self.open[-3:]}")
        else:
            self.open.pop()

    def handle_data(self, data):
        if self.open and self.open[-1] == "style":
            self.styles.append(data)
            return
        self.texts.append(data)
        if self.part:
            self.parts[self.part] += data
        if self.open[-2:] == ["g", "title"] and self.in_lane:
            self.lanes[-1]["title"] += data
        if self.table() and self.table()[-1]["cells"] and ("td" in self.open or "th" in self.open):
            self.table()[-1]["cells"][-1] += data
        if "pre" in self.open and "li" not in self.open:
            self.sides[-1] += data
        if self.open.count("details") == 1 and "li" in self.open:
            self.tasks[-1]["lines"][-1]["text"] += data
        if "pre" in self.open and "li" in self.open:
            self.tasks[-1]["lines"][-1]["trace"] += data
        if self.open[-1:] == ["li"] and "waits" in self.sections and "details" not in self.open:
            self.waits[-1] += data
        if self.open[-1:] == ["dt"]:
            self.fact += data
        if self.open[-1:] == ["dd"]:
            self.facts[self.fact] += data

    def handle_comment(self, data):
        self.wrong.append(f"a comment {data[:40]!r}")

    def handle_pi(self, data):
        self.wrong.append(f"an instruction {data[:40]!r}")

    def unknown_decl(self, data):
        self.wrong.append(f"a declaration {data[:40]!r}")

    def texts_of_said(self):
        """What the rows of the picture say beside their bars."""
        return re.findall(r'<text class="said" [^>]*>([^<]*)</text>', self.html)

    def judge(self):
        """What is wrong with the page by itself."""
        wrong = list(self.wrong)
        text = "\0".join(self.texts)
        wrong += [f"hides text: {rule}" for rule in hiding_rules("".join(self.styles))]
        if len(self.ids) != len(set(self.ids)):
            wrong.append(f"an id twice: {self.ids}")
        wrong += [f"no element has the id {ref}" for ref in self.refs if ref not in self.ids]
        if self.headings.count(1) != 1 or any(b > a + 1 for a, b in zip(self.headings, self.headings[1:])):
            wrong.append(f"headings {self.headings}")
        if re.search("[\x01-\x09\x0b-\x1f\x7f-\x9f]", text) or re.search(r"https?:|@import|url\((?!#)", self.html):
            wrong.append("a control character or an address")
        if len(self.lanes) != len(self.rows) or len(self.lanes) > 300 or len(self.tasks) > 300:
            wrong.append(f"{len(self.lanes)} lanes, {len(self.rows)} rows, {len(self.tasks)} tasks")
        if len(self.html.encode()) > 1_000_000:
            wrong.append(f"{len(self.html)} characters")
        for stamp in re.findall(STAMP, text):
            datetime.datetime.strptime(stamp[:19], "%Y-%m-%dT%H:%M:%S")
        # All times have one form, that of the history.
        if re.search(r"\d\d-\d\d \d\d:\d\d|\d\d UTC", text):
            wrong.append("a time of another form")
        for lane, row in zip(self.lanes, self.rows):
            wrong += self.judge_lane(lane, row)
        lines = [one for task in self.tasks for one in task["lines"]]
        told = [(re.match(r"\w+ event (\d+) ", one["text"]), one["id"]) for one in lines if "note" not in one["class"]]
        wrong += [f"{at} leads to {found and found[0]}" for found, at in told if not found or at != f"event-{found[1]}"]
        return wrong

    @staticmethod
    def judge_lane(lane, row):
        """What is wrong with a lane, beside its row of the table."""
        wrong = []
        if lane["class"] != row["class"]:
            wrong.append(f"lane {lane['class']}, row {row['class']}")
        cells = [cell for cell in row["cells"][2:5] if cell]
        said = re.findall(rf"by event (\d+), ({STAMP})", lane["title"])
        told = [(event, moment) for cell in cells for moment, event in re.findall(rf"({STAMP}) event (\d+)", cell)]
        if said[: len(told)] != told:
            wrong.append(f"the lane says {said}, the table {told}")
        for sign in lane["signs"]:
            if sign["class"].startswith("room"):
                continue
            x = int(sign.get("x") or sign["cx"])
            if not 200 <= x <= 830 or int(sign.get("width", 0)) + x > 833:
                wrong.append(f"a sign from {x}, {sign.get('width')} wide")
        return wrong

    def judge_head(self, told):
        """What is wrong with the facts of the run, beside the lines of `explain --recorded`."""
        _, names, status, *rest = told.stdout.decode().splitlines()
        facts = dict.fromkeys(("Workflow id", "Run id", "Task Queue", "Parent", "Status"), "") | self.facts
        parent = facts["Parent"] if facts["Parent"] == "no parent" else f"parent {facts['Parent']}"
        previous = f", goes on from run {facts['Goes on from run']}" if "Goes on from run" in facts else ""
        said = f"workflow id {facts['Workflow id']}, run id {facts['Run id']}, Task Queue {facts['Task Queue']}, {parent}{previous}"
        wrong = [] if said == names else [f"the page says {said!r}, the text {names!r}"]
        closed = re.fullmatch(r"(\w+)(?: \(event (\d+)\) ([^,]*)(?:, after .*?)?(?:, goes on in run (.*))?)?", status)
        word, event, moment, following = closed.groups()
        given = facts["Status"].split(" by event ")
        if given[0] != word or len(given) == 2 and not given[1].startswith(f"{event}, {moment[:19]}"):
            wrong.append(f"the page says {facts['Status']!r}, the text {status!r}")
        if (len(given) == 2) != bool(event) or facts.get("Goes on in run") != following:
            wrong.append(f"the page goes on in {facts.get('Goes on in run')}, the text {status!r}")
        # Below that line stand the sums by type.
        last = next((line for line in reversed(rest) if line.startswith("running; ")), "")
        waits = last.removeprefix("running; ").replace("; waits for ", "\n").removeprefix("waits for ").split("\n") if last else []
        if self.waits != waits or bool(last) != (word == "Running"):
            wrong.append(f"the page waits for {self.waits}, the text {last!r}")
        summed = [line for line in rest if re.match(r"(activity|timer|child)( .*)?: \d+ times", line)]
        if [self.sum_words(row["cells"]) for row in self.sums] != summed:
            wrong.append(f"the page sums up {[row['cells'] for row in self.sums]}, the text {summed}")
        return wrong

    @staticmethod
    def sum_words(cells):
        """The line of `explain --recorded` for a row of the sums by type."""
        name, times, failed, pending, median, longest = cells
        counts = "".join(f", {count} {word}" for count, word in ((failed, "failed"), (pending, "open")) if count != "0")
        lengths = re.fullmatch(r"(.*) event (\d+)", longest)
        return f"{name}: {times} times{counts}" + (f", median {median}, longest {lengths[1]} (event {lengths[2]})" if lengths else "")

    def judge_verdict(self, told, name):
        """What is wrong with the page beside what `replay` told: its line, and its notes on standard error."""
        wrong = []
        line = told.stdout.decode().splitlines()[0]
        said = f"{re.sub('[^ -~]', '?', name[:255])}: {self.parts['verdict']}"
        if said != line:
            wrong.append(f"the page says {said!r}, replay {line!r}")
        named = re.search(r"event (\d+)|task at (\d+)", self.parts["verdict"]) if not line.endswith("not in place") else None
        number = next((n for n in named.groups() if n), None) if named else None
        marked = [one for task in self.tasks if task["open"] for one in task["lines"] if "fault" in one["class"]]
        if number is None and (marked or self.parts["fault-word"]):
            wrong.append("an event is marked and none has a fault")
        if number and self.parts["fault-word"] != f"event {number}":
            wrong.append(f"the picture marks {self.parts['fault-word']!r}, the line names {number}")
        if number and (len(marked) != 1 or not re.match(rf"fault event {number} ", marked[0]["text"])):
            wrong.append(f"the line names {number}, the tasks mark {[one['text'][:40] for one in marked]}")
        sides = re.search(r"sends (.*), recorded (?:(\d+) )?(.*)", told.stderr.decode())
        if (sides is None) != (not self.sides) or sides and self.sides != [sides[1], sides[3]]:
            wrong.append(f"the page has {self.sides}, replay tells {told.stderr.decode()!r}")
        return wrong


class Program:
    """The built program."""

    def __init__(self, path):
        self.path = path

    def run(self, *words):
        """What came of a command of it."""
        return subprocess.run([self.path, *map(str, words)], stdout=subprocess.PIPE, stderr=subprocess.PIPE, timeout=300)


def key_of(kind):
    """The member of an event with its attributes."""
    return kind[0].lower() + kind[1:] + "EventAttributes"


class History:
    """Events one after another, seven seconds apart."""

    def __init__(self):
        self.events = []
        self.start = datetime.datetime(2024, 5, 1, 10)

    def add(self, kind, **fields):
        number = len(self.events) + 1
        moment = (self.start + datetime.timedelta(seconds=7 * number, milliseconds=250)).isoformat() + "Z"
        self.events.append({"eventId": str(number), "eventTime": moment, "eventType": kind, key_of(kind): fields})
        return number

    def task(self):
        scheduled = self.add("WorkflowTaskScheduled")
        started = self.add("WorkflowTaskStarted", scheduledEventId=str(scheduled))
        self.add("WorkflowTaskCompleted", scheduledEventId=str(scheduled), startedEventId=str(started))

    def text(self):
        return json.dumps({"events": self.events})


def named(names):
    """A history whose workflow type, ids, types, signals, failures and values have these names, in turn."""
    history, names = History(), iter(names)
    history.add("WorkflowExecutionStarted", workflowType={"name": next(names)})
    history.task()
    scheduled = str(history.add("ActivityTaskScheduled", activityId=next(names), activityType={"name": next(names)}))
    started = str(history.add("ActivityTaskStarted", scheduledEventId=scheduled, attempt=1))
    failure = {"message": next(names), "applicationFailureInfo": {"type": "x"}}
    history.add("ActivityTaskFailed", scheduledEventId=scheduled, startedEventId=started, failure=failure)
    history.add("WorkflowExecutionSignaled", signalName=next(names))
    history.task()
    history.add("TimerStarted", timerId=next(names), startToFireTimeout="60s")
    child = {"workflowId": next(names), "workflowType": {"name": next(names)}}
    history.add("StartChildWorkflowExecutionInitiated", **child)
    history.add(next(names))
    return history.text()


def tabled(names):
    """A run of a table whose states, ids, types, signal, counter and message have these names, in turn. It takes the rows 1, 2
    and 4, and stands in the second state; the last task has a fault, so that what comes with it takes none."""
    first, second, step, kind, wait, note, count, words = names
    rows = [
        [first, "start", "", [f"activity {step} {kind}", f"timer {wait} 60"], second, f"up {count}"],
        [second, f"signal {note}", f"{count} < 2", [], "same", f"up {count}"],
        [second, f"done {step}", "", f"fail {words}"],
        [second, f"signal {note}", "", f"cancel-timer {wait}", "same"],
        [second, f"fired {wait}", "", "complete"],
    ]
    table = json.dumps({"version": 1, "counters": [f"{count} 2"], "rows": rows}).encode()
    payload = {"metadata": {"encoding": "anNvbi9wbGFpbg=="}, "data": base64.b64encode(table).decode()}
    history = History()
    history.add("WorkflowExecutionStarted", workflowType={"name": "Table:made"}, input={"payloads": [payload]})
    history.task()
    scheduled = history.add("ActivityTaskScheduled", activityId=step, activityType={"name": kind})
    history.add("TimerStarted", timerId=wait, startToFireTimeout="60s")
    history.add("WorkflowExecutionSignaled", signalName=note)
    history.task()
    history.add("WorkflowExecutionSignaled", signalName=note)
    history.task()
    history.add("TimerStarted", timerId=f"{wait}-other", startToFireTimeout="60s")
    started = history.add("ActivityTaskStarted", scheduledEventId=str(scheduled), attempt=1)
    history.add("ActivityTaskCompleted", scheduledEventId=str(scheduled), startedEventId=str(started))
    history.task()
    return history.text()


def of_go():
    """A run as the SDK for Go records it: ids are numbers, GetVersion records a marker and upserts search attributes, and the
    first task runs an activity beside it. Five tasks are completed, and an activity fails."""
    history = History()
    history.add("WorkflowExecutionStarted", workflowType={"name": "OrderWorkflow"})
    history.task()
    own = {"workflowTaskCompletedEventId": "4"}
    version = {"change-id": {"payloads": [payload_of("local-validate")]}, "version": {"payloads": [payload_of(1)]}}
    history.add("MarkerRecorded", markerName="Version", details=version, **own)
    history.add("UpsertWorkflowSearchAttributes", searchAttributes={"indexedFields": {"TemporalChangeVersion": payload_of(["local-validate-1"])}}, **own)
    activity(history, "7", "ReserveStock")
    history.task()
    activity(history, "13", "ChargeCard", fails="card declined")
    history.task()
    activity(history, "19", "ReleaseStock")
    history.task()
    timer = str(history.add("TimerStarted", timerId="25", startToFireTimeout="60s"))
    history.add("TimerFired", startedEventId=timer, timerId="25")
    history.task()
    history.add("WorkflowExecutionFailed", failure={"message": "card declined"}, retryState="RETRY_STATE_RETRY_POLICY_NOT_SET")
    return history.text()


def of_typescript():
    """A run as the SDK for TypeScript records it: `patched` records a marker, and an update is accepted and completed."""
    history = History()
    history.add("WorkflowExecutionStarted", workflowType={"name": "cart"})
    history.task()
    history.add("MarkerRecorded", markerName="core_patch", details={"patch-data": {"payloads": [payload_of({"id": "vat", "deprecated": False})]}})
    history.add("UpsertWorkflowSearchAttributes", searchAttributes={"indexedFields": {"TemporalChangeVersion": payload_of(["vat"])}}, workflowTaskCompletedEventId="4")
    activity(history, "1", "priceOf")
    history.task()
    request = {"meta": {"updateId": "u-1", "identity": "web"}, "input": {"name": "addItem", "args": {"payloads": [payload_of({"sku": "A"})]}}}
    history.add("WorkflowExecutionUpdateAccepted", protocolInstanceId="u-1", acceptedRequest=request)
    history.add("WorkflowExecutionUpdateCompleted", meta={"updateId": "u-1"}, outcome={"success": {"payloads": [payload_of(1)]}})
    history.task()
    history.add("WorkflowExecutionCompleted")
    return history.text()


def of_java():
    """A run as the SDK for Java records it: a version, a local activity and a side effect are markers, and a child is named by a
    UUID."""
    history = History()
    history.add("WorkflowExecutionStarted", workflowType={"name": "SubscriptionWorkflow"})
    history.task()
    history.add("MarkerRecorded", markerName="Version", details={"changeId": {"payloads": [payload_of("trial")]}, "version": {"payloads": [payload_of(2)]}})
    history.add("MarkerRecorded", markerName="LocalActivity", details={"type": {"payloads": [payload_of("ValidatePlan")]}, "result": {"payloads": [payload_of("ok")]}})
    history.add("MarkerRecorded", markerName="SideEffect", details={"data": {"payloads": [payload_of("7f0a")]}})
    child = {"workflowId": "2c0f6d1e-7a54-3d0b-9b1e-0d3b3ce6a001", "workflowType": {"name": "InvoiceWorkflow"}}
    initiated = str(history.add("StartChildWorkflowExecutionInitiated", **child))
    execution = {"workflowExecution": {"workflowId": child["workflowId"], "runId": "9d1f"}, "workflowType": child["workflowType"]}
    started = str(history.add("ChildWorkflowExecutionStarted", initiatedEventId=initiated, **execution))
    history.task()
    history.add("ChildWorkflowExecutionCompleted", initiatedEventId=initiated, startedEventId=started, **execution)
    history.task()
    history.add("WorkflowExecutionCompleted")
    return history.text()


def of_python():
    """A run as the SDK for Python records it: 80 charges of one type, one of which takes an hour, and one that fails; ids are
    numbers."""
    history = History()
    history.add("WorkflowExecutionStarted", workflowType={"name": "BillCustomers"})
    for number in range(1, 81):
        history.task()
        if number == 40:
            scheduled = str(history.add("ActivityTaskScheduled", activityId="40", activityType={"name": "charge"}))
            started = str(history.add("ActivityTaskStarted", scheduledEventId=scheduled, attempt=1))
            history.start += datetime.timedelta(hours=1)
            history.add("ActivityTaskCompleted", scheduledEventId=scheduled, startedEventId=started)
        else:
            activity(history, str(number), "charge", fails="no such card" if number == 60 else None)
    history.task()
    return history.text()


def of_troubles():
    """A run with names, of an SDK: a workflow task fails, and an activity after its last attempt, with causes that have stack
    traces. The run goes on from one, and waits for a timer, a child and a workflow task."""
    history = History()
    queue, parent = {"name": "billing"}, {"workflowId": "batch-7", "runId": "0a0a"}
    names = {"workflowId": "invoice-12", "originalExecutionRunId": "5c5c", "continuedExecutionRunId": "4b4b"}
    history.add("WorkflowExecutionStarted", workflowType={"name": "Invoice"}, taskQueue=queue, parentWorkflowExecution=parent, **names)
    scheduled = str(history.add("WorkflowTaskScheduled"))
    started = str(history.add("WorkflowTaskStarted", scheduledEventId=scheduled))
    failure = {"message": "no such field", "applicationFailureInfo": {"type": "TypeError"}, "stackTrace": "at run (invoice.ts:4)"}
    cause = "WORKFLOW_TASK_FAILED_CAUSE_WORKFLOW_WORKER_UNHANDLED_FAILURE"
    history.add("WorkflowTaskFailed", scheduledEventId=scheduled, startedEventId=started, cause=cause, failure=failure)
    history.task()
    scheduled = str(history.add("ActivityTaskScheduled", activityId="1", activityType={"name": "Charge"}))
    started = str(history.add("ActivityTaskStarted", scheduledEventId=scheduled, attempt=3))
    timeout = {"message": "too <b>slow</b>", "timeoutFailureInfo": {"timeoutType": "TIMEOUT_TYPE_START_TO_CLOSE"}, "stackTrace": "Call.java\n\tat Call.run(Call.java:9)\n"}
    failure = {"message": "declined", "applicationFailureInfo": {"type": "CardError"}, "stackTrace": "".join(f"\tat Card.pay(Card.java:{i})\n" for i in range(120)), "cause": timeout}
    history.add("ActivityTaskFailed", scheduledEventId=scheduled, startedEventId=started, failure=failure, retryState="RETRY_STATE_MAXIMUM_ATTEMPTS_REACHED")
    history.task()
    history.add("TimerStarted", timerId="24", startToFireTimeout="1209600s")
    history.add("StartChildWorkflowExecutionInitiated", workflowId="dunning-12", workflowType={"name": "Dunning"})
    history.add("WorkflowTaskScheduled")
    return history.text()


def judge_troubles(page):
    """What is wrong with the page of that."""
    lines = {one["id"]: one for task in page.tasks for one in task["lines"]}
    task, step = lines["event-4"], lines["event-10"]
    wrong = []
    for text in ("because TypeError: no such field", "cause WORKFLOW_TASK_FAILED_CAUSE_WORKFLOW_WORKER_UNHANDLED_FAILURE"):
        wrong += [] if text in task["text"] else [f"no {text!r} in {task['text']!r}"]
    chain = "CardError: declined <- TIMEOUT_TYPE_START_TO_CLOSE: too <b>slow</b>, retry state RETRY_STATE_MAXIMUM_ATTEMPTS_REACHED"
    wrong += [] if f", because {chain}" in step["text"] else [f"no {chain!r} in {step['text']!r}"]
    wrong += [] if any(row["cells"][7] == f"failed: {chain}" for row in page.rows) else [f"no row says {chain!r}"]
    wrong += [] if task["trace"] == "TypeError: no such field\nat run (invoice.ts:4)\n" else [f"the trace {task['trace']!r}"]
    told = step["trace"].splitlines()
    if told[:2] != ["CardError: declined", "at Card.pay(Card.java:0)"] or len(told) != 100 or "24 more lines." not in "".join(page.texts):
        wrong.append(f"the trace {told[:2]} of {len(told)} lines")
    if len(page.waits) != 3 or not re.search(r"^timer 24 .* until 2024-05-15", page.waits[0]) or "dunning-12 Dunning" not in page.waits[1]:
        wrong.append(f"it waits for {page.waits}")
    return wrong


def many_open():
    """A run that waits for 50 activities."""
    history = History()
    history.add("WorkflowExecutionStarted", workflowType={"name": "Many"})
    history.task()
    for number in range(50):
        history.add("ActivityTaskScheduled", activityId=str(number), activityType={"name": "Step"})
    return history.text()


def payload_of(value):
    """A value as a payload of JSON."""
    data = base64.b64encode(json.dumps(value).encode()).decode()
    return {"metadata": {"encoding": base64.b64encode(b"json/plain").decode()}, "data": data}


def activity(history, number, kind, fails=None):
    """An activity that is scheduled, started, and completed or failed."""
    scheduled = str(history.add("ActivityTaskScheduled", activityId=number, activityType={"name": kind}))
    started = str(history.add("ActivityTaskStarted", scheduledEventId=scheduled, attempt=1))
    ids = {"scheduledEventId": scheduled, "startedEventId": started}
    if fails:
        history.add("ActivityTaskFailed", failure={"message": fails}, **ids)
    else:
        history.add("ActivityTaskCompleted", **ids)


def judge_sdk(page, name):
    """What is wrong with the page of a run that an SDK recorded."""
    wrong = []
    tasks = {"go": 5, "typescript": 3, "java": 3, "python": 81}[name]
    if len(page.tasks) != tasks:
        wrong.append(f"{len(page.tasks)} tasks in place of {tasks}")
    if name == "go" and not re.search(r'y="15">ChargeCard <tspan class="id">13</tspan></text>', page.html):
        wrong.append("the picture does not name ChargeCard by its type")
    if name == "go" and "ActivityTaskScheduled ChargeCard #13" not in "".join(page.texts):
        wrong.append("no line names ChargeCard by its type")
    given = [(row["cells"], row["links"]) for row in page.sums]
    wrong += [] if given == SUMS[name] else [f"the sums by type are {given}"]
    if name == "go":
        spans = [(row["cells"][5], row["cells"][6]) for row in page.rows]
        # An activity is started after seven seconds, and ends after seven more; a marker takes no time, and a timer does not wait.
        wrong += [] if spans == [("", ""), *[("7.0 s", "7.0 s")] * 3, ("", "7.0 s")] else [f"the things waited and took {spans}"]
    if name == "python":
        tops = set(re.findall(r'<g class="lane activity[^"]*" transform="translate\(0 (\d+)\)">', page.html))
        if len(tops) != 1 or "80 times, 1 failed" not in "".join(page.texts):
            wrong.append(f"80 charges stand at {tops}")
    return wrong


def sum_row(name, times, failed, pending, median, longest, event):
    """A row of the sums by type, with its link."""
    return [name, str(times), str(failed), str(pending), median, f"{longest} event {event}"], [f"#event-{event}"]


# The sums by type of the runs that an SDK recorded. Events are seven seconds apart: an activity takes 14 s from its opening to its
# end, and what has no start 7 s. The charge 40 takes an hour more; it is opened by the event 6 * 40 - 1, since each round of a
# workflow task and a charge has six events. No time is known of what is open.
SUMS = {
    "go": [
        sum_row("activity ReserveStock", 1, 0, 0, "14 s", "14 s", 7),
        sum_row("activity ChargeCard", 1, 1, 0, "14 s", "14 s", 13),
        sum_row("activity ReleaseStock", 1, 0, 0, "14 s", "14 s", 19),
        sum_row("timer", 1, 0, 0, "7.0 s", "7.0 s", 25),
    ],
    "typescript": [sum_row("activity priceOf", 1, 0, 0, "14 s", "14 s", 7)],
    "java": [sum_row("child InvoiceWorkflow", 1, 0, 0, "35 s", "35 s", 8)],
    "python": [sum_row("activity charge", 80, 1, 0, "14 s", "1 h", 239)],
}


# Runs with markers and updates: the rows of the markers, by name and outcome; the starts of lines of tasks, by their events; and
# what the heads of two tasks say that they give.
MARKED = {
    "go-markers": (
        [("pricing version", "version 2"), ("side effect 1", "recorded"), ("ValidateOrder local activity", "recorded, attempt 1")],
        {5: "MarkerRecorded version pricing 2", 7: "MarkerRecorded side effect 1", 8: "MarkerRecorded local activity ValidateOrder, attempt 1"},
        ["MarkerRecorded version pricing 2 and 4 more", "WorkflowExecutionFailed"],
    ),
    "typescript-markers": (
        [("fix-tax patch", "recorded"), ("price local activity", "recorded, attempt 2")],
        {5: "MarkerRecorded patch fix-tax", 7: "MarkerRecorded local activity price, attempt 2", 14: "WorkflowExecutionUpdateAccepted addItem #u-1"},
        ["MarkerRecorded patch fix-tax and 4 more", "WorkflowExecutionUpdateAccepted addItem #u-1 and 2 more"],
    ),
    # A version without the id of its change is named as other markers are, and a local activity whose type is bytes by its kind.
    "odd-markers": (
        [("rate mutable side effect", "recorded"), ("old-tax patch", "recorded, deprecated"), ("Version", "recorded"), ("local activity", "recorded")],
        {5: "MarkerRecorded mutable side effect rate", 6: "MarkerRecorded patch old-tax, deprecated", 7: "MarkerRecorded Version", 8: "MarkerRecorded local activity"},
        ["MarkerRecorded mutable side effect rate and 3 more"],
    ),
}

# What markers record, beside their names, and the labels with such words in the pictures of those runs.
KINDS = ("local activity", "version", "patch", "side effect", "mutable side effect")
LABELS = {
    "go-markers": [("pricing", "version"), ("ValidateOrder", "local activity")],
    "typescript-markers": [("fix-tax", "patch"), ("price", "local activity")],
    "odd-markers": [("rate", "mutable side effect"), ("old-tax", "patch")],
}


def judge_marked(page, name):
    """What is wrong with how the page of a run names its markers and updates."""
    rows, lines, heads = MARKED[name]
    shown = [(row["cells"][0], row["cells"][7]) for row in page.rows if row["cells"][1] == "marker"]
    wrong = [] if shown == rows else [f"the markers are {shown}"]
    texts = {line["id"]: line["text"] for task in page.tasks for line in task["lines"]}
    for number, start in lines.items():
        told = texts.get(f"event-{number}", "")
        wrong += [] if start in told else [f"no {start!r} in {told!r}"]
    # What a marker records stands beside its name in the picture, and is not cut there.
    labels = [one for one in re.findall(r'y="15">([^<]*) <tspan class="id">([^<]*)</tspan>', page.html) if one[1] in KINDS]
    wrong += [] if labels == LABELS[name] else [f"the picture has the labels {labels}"]
    given = re.findall(r"<summary>Task [^<]*, gives ([^<]*) <span", page.html)
    return wrong + ([] if given == heads else [f"the tasks give {given}"])


def pending_crowd():
    """A history of 310 activities of one type that are open, and of three that failed after all of them were opened."""
    history = History()
    history.add("WorkflowExecutionStarted", workflowType={"name": "Crowd"})
    history.task()
    for number in range(310):
        history.add("ActivityTaskScheduled", activityId=f"open-{number}", activityType={"name": "Step"})
    for number in range(3):
        activity(history, f"failed-{number}", "Step", fails="late")
    return history.text()


def judge_pending_crowd(page):
    """What is wrong with the page of that: the failed ones are shown first, and then the first of those that are open."""
    heads = [row["cells"][0].removeprefix("Step ") for row in page.rows]
    wanted = [f"open-{number}" for number in range(297)] + [f"failed-{number}" for number in range(3)]
    wrong = [] if heads == wanted else [f"it shows {heads[-5:]} of {len(heads)}"]
    # Of 313 in all, 300 are drawn; the failed and the open ones are counted of all.
    return wrong + ([] if "300 of 313, 3 failed, 310 open" in page.texts_of_said() else [f"a row says {page.texts_of_said()}"])


def cancelling():
    """A run that requests the cancellation of two activities, by the events 11 and 12: the first is canceled, the second open."""
    history = History()
    history.add("WorkflowExecutionStarted", workflowType={"name": "GiveUp"})
    history.task()
    first = str(history.add("ActivityTaskScheduled", activityId="first", activityType={"name": "Step"}))
    second = str(history.add("ActivityTaskScheduled", activityId="second", activityType={"name": "Step"}))
    history.add("WorkflowExecutionSignaled", signalName="stop")
    history.task()
    history.add("ActivityTaskCancelRequested", scheduledEventId=first)
    history.add("ActivityTaskCancelRequested", scheduledEventId=second)
    history.add("ActivityTaskCanceled", scheduledEventId=first)
    return history.text()


def judge_cancelling(page):
    """What is wrong with the page of that: each request is named in its row, and marked in its lane."""
    told = [(row["cells"][5], row["cells"][6], row["cells"][7]) for row in page.rows[:2]]
    # The first is opened by the event 5 and ended by the event 13, eight times seven seconds later.
    wanted = [("", "56 s", "canceled, cancellation requested by event 11"), ("", "", "open, cancellation requested by event 12")]
    wrong = [] if told == wanted else [f"the rows say {told}"]
    marks = [sum(sign["class"] == "cancel" for sign in lane["signs"]) for lane in page.lanes]
    return wrong + ([] if marks == [1, 1, 0] else [f"the lanes have {marks} marks"])


def crowd():
    """A history of 400 activities of one type, of which a late one failed, the last is open, and one of the middle is slow."""
    history = History()
    history.add("WorkflowExecutionStarted", workflowType={"name": "Crowd"})
    for number in range(1, 401):
        history.task()
        if number == 200:
            history.start += datetime.timedelta(seconds=1)
            scheduled = str(history.add("ActivityTaskScheduled", activityId="slow", activityType={"name": "Step"}))
            history.start += datetime.timedelta(hours=1)
            history.add("ActivityTaskCompleted", scheduledEventId=scheduled)
        elif number < 400:
            activity(history, f"step-{number}", "Step", fails="late" if number == 390 else None)
    history.add("ActivityTaskScheduled", activityId="waits", activityType={"name": "Step"})
    return history.text()


def judge_crowd(page):
    """What is wrong with the page of that: the things that failed, are open or are slow are shown."""
    heads = [row["cells"][0] for row in page.rows]
    wrong = [f"{name} is not shown" for name in ("step-390", "waits", "slow", "step-1") if f"Step {name}" not in heads]
    wrong += [] if len(heads) == 300 else [f"{len(heads)} things"]
    wrong += [] if "300 of 400, 1 failed, 1 open" in page.texts_of_said() else [f"a row says {page.texts_of_said()}"]
    # Each round before the slow activity has six events, and the workflow task of its own round three; it takes an hour and 7 s.
    given, wanted = [(row["cells"], row["links"]) for row in page.sums], [sum_row("activity Step", 400, 1, 1, "14 s", "1 h", 1199)]
    wrong += [] if given == wanted else [f"the sums by type are {given}"]
    # The run is open: its last 300 tasks are shown. No code is registered for it, so that replay has a fault in its first task,
    # and then the page shows the tasks from that on.
    shown = [number for number in (1, 100, 101, 400) if re.search(rf"<summary>Task {number}\b", page.html)]
    wanted, before, after = ([101, 400], 100, 0) if "recorded, and not replayed" in page.html else ([1, 100, 101], 0, 100)
    told = f"300 of 400 are shown; {before} before them and {after} after them are left out."
    return wrong + ([] if shown == wanted and told in page.texts else [f"it shows the tasks {shown} of 1, 100, 101 and 400"])


def judge_promises(program, room):
    """Yields what is wrong with the promises on pages of tables, beside what `check --json` says of them."""
    broken = json.loads((TOP / "examples/broken/order.json").read_text())
    hostile = dict(broken, promises=[*broken["promises"], HOSTILE])
    none, many = dict(broken, promises=7), dict(broken, promises=["at most 3 activity ShipOrder"] * 51)
    for name, table in (("promises", broken), ("hostile-promises", hostile), ("no-promises", none), ("many-promises", many)):
        file = room / f"{name}.json"
        file.write_text(json.dumps(table))
        html = program.run("check", "--html", file).stdout.decode()
        page, wrong = Page(html), []
        listed = json.loads(program.run("check", "--json", file).stdout.decode().splitlines()[0])["promises"]
        section = re.search(r'<h2>Promises</h2>\n<ol class="promises">\n(.*?)</ol>\n</section>', html, re.DOTALL)
        given = re.findall(r'<li class="([a-z]+)"><span class="mark">(.*?)</span> <code>.*?</code>', section[1] if section else "")
        wanted = [MARKS.get(one["verdict"], NOT_DECIDED) for one in listed] if isinstance(listed, list) else []
        if given != wanted:
            wrong.append(f"the page has {given}, check says {listed}")
        lone = re.search(r'<h2>Promises</h2>\n<p class="undecided"><span class="mark">\? not read</span> (.*?)</p>', html)
        if (lone and lone[1]) != (None if isinstance(listed, list) else listed):
            wrong.append(f"the page says {lone and lone[1]} of its promises, check {listed}")
        jobs = re.findall(r"<li><code>(.*?)</code>", section[1] if section else "")
        told = [step["job"] for one in listed for step in one.get("scenario", [])] if isinstance(listed, list) else []
        if jobs != told:
            wrong.append(f"the page has the jobs {jobs}, check {told}")
        wrong += [one for one in page.wrong if "href" not in one] + ([] if "\u240a" not in html or "hostile" in name else ["a line end as a picture"])
        yield name, wrong


def judge_way(page):
    """What is wrong with the table of a run that `tabled` makes."""
    section = page.html.partition('<h2 id="way">The table of this run</h2>')[2]
    rows = re.findall(r'<g class="row( taken)?"><rect [^>]*/><text class="([^"]*)"', section)
    wanted = [(1, "name passed"), (1, "name last"), (0, "name again"), (1, "name again"), (0, "name again")]
    wrong = [] if [(bool(taken), name) for taken, name in rows] == wanted else [f"the table marks {rows}"]
    stands = "Jobs for which the run took a row: 3. After its last replayed task it stands in the state <strong>"
    if stands not in section or 'class="end last"' in section:
        wrong.append("the table says otherwise where the run stands")
    return wrong


def judge_state(program):
    """What is wrong with the state of a closed run on its page, beside what the query `state` gives."""
    told = json.loads(program.run("query", RUN, "state").stdout.decode().splitlines()[1])
    state = told["state"] if isinstance(told, dict) else told
    html = program.run("explain", "--html", RUN).stdout.decode()
    wanted = f"it stands in the state <strong>{state}</strong>; the run is closed."
    return [] if wanted in html else [f"the page does not say {wanted!r}"]


def drawing_of(html, heading):
    """A picture of a page by itself: with the styles that it takes from its page, and the ground on which it stands."""
    style = re.search(r"<style>\n(.*?)</style>", html, re.DOTALL)[1]
    picture = re.search(rf'<svg [^>]*aria-labelledby="{heading}".*?</svg>\n', html, re.DOTALL)[0]
    own = re.search(r"<style>\n(.*?)</style>\n", picture, re.DOTALL)
    # A picture with a style of its own takes colours and text alone.
    taken = r":root|@media \(prefers-color-scheme|" + (r"svg(?: text)?\{" if own else "svg")
    # It is as large as the place that it is given.
    styles = [re.sub(r"^svg\{.*?(?=font:)", "svg{", line) for line in style.splitlines() if re.match(taken, line)]
    styles += own[1].splitlines() if own else []
    parts = r"<svg (.*?) role=.*?>\n<desc[^>]*>(.*?)(?: The table below .*?)?</desc>\n(.*)"
    start, words, rest = re.match(parts, picture, re.DOTALL).groups()
    return "\n".join([
        f'<svg xmlns="http://www.w3.org/2000/svg" {start}>', f"<desc>{words}</desc>", "<style>", *styles, "</style>",
        '<rect width="100%" height="100%" style="fill:var(--panel)"/>', rest.replace(own[0], "", 1) if own else rest,
    ])


def uneven(record):
    """A history of the sample Nap, which starts one timer, with this record of its first task."""
    history = History()
    history.add("WorkflowExecutionStarted", workflowType={"name": "Nap"})
    history.task()
    for kind, fields in record:
        history.add(kind, **fields)
    history.add("WorkflowExecutionSignaled", signalName="<i>wake</i>")
    history.task()
    return history.text()


def crowded():
    """One whose first task has a fault after a hundred signals, and a hundred more in the task of the next event."""
    history = History()
    history.add("WorkflowExecutionStarted", workflowType={"name": "Nap"})
    for number in range(100):
        history.add("WorkflowExecutionSignaled", signalName=f"note-{number}")
    history.task()
    history.add("TimerStarted", timerId="another", startToFireTimeout="60s")
    for number in range(100):
        history.add("WorkflowExecutionSignaled", signalName=f"later-{number}")
    history.task()
    return history.text()


def big():
    """A history of the most events that a run may have, of which most are signals and timers of a type that has no code."""
    history = History()
    history.add("WorkflowExecutionStarted", workflowType={"name": "Big"})
    while len(history.events) + 9 < EVENTS:
        history.task()
        timer = str(history.add("TimerStarted", timerId=f"wait-{len(history.events)}", startToFireTimeout="7s"))
        scheduled = history.add("ActivityTaskScheduled", activityId=f"step-{len(history.events)}", activityType={"name": "Step"})
        history.add("TimerFired", startedEventId=timer, timerId="wait")
        started = history.add("ActivityTaskStarted", scheduledEventId=str(scheduled), attempt=2)
        history.add("ActivityTaskCompleted", scheduledEventId=str(scheduled), startedEventId=str(started))
        history.add("WorkflowExecutionSignaled", signalName=f"note-{len(history.events)}")
    while len(history.events) < EVENTS:
        history.add("WorkflowExecutionSignaled", signalName="last")
    return history.text()


def edited():
    """The example histories, and each of them with each of these faults that it can have."""
    for file in sorted(EXAMPLES.glob("*.json")):
        whole = json.loads(file.read_text())
        yield file.stem, whole
        events = whole["events"]
        given = [i for i, one in enumerate(events) if re.search("Scheduled$|Started$|Initiated$", short(one)) and i >= 4
                 and not short(one).startswith(("WorkflowTask", "ActivityTaskStarted", "ChildWorkflowExecutionStarted"))]
        for i in given[:2]:
            for name, edit in (("id", rename), ("type", retype), ("field", strip)):
                other = copy.deepcopy(whole)
                if edit(other["events"][i]):
                    yield f"{file.stem}-{name}-{i + 1}", other
        other = copy.deepcopy(whole)
        other["events"][-1]["eventId"] = "3"
        yield f"{file.stem}-order", other
        other = copy.deepcopy(whole)
        other["events"][0][key_of(short(events[0]))]["workflowType"]["name"] = "Nobody's <type>"
        yield f"{file.stem}-unknown", other


def short(event):
    """The type of an event in the form `ActivityTaskScheduled`, which histories write in two forms."""
    kind = event["eventType"]
    return "".join(word.capitalize() for word in kind[11:].split("_")) if kind.startswith("EVENT_TYPE_") else kind


def attributes_of(event):
    return event.get(key_of(short(event)), {})


def rename(event):
    """Another id in place of that which the event gives."""
    for name in ("activityId", "timerId", "workflowId"):
        if name in attributes_of(event):
            attributes_of(event)[name] = "<b>other</b>"
            return True
    return False


def retype(event):
    """A type that no reader knows."""
    event["eventType"] = "Unheard<i>Of</i>"
    return True


def strip(event):
    """No id at all."""
    return any(attributes_of(event).pop(name, None) for name in ("activityId", "timerId", "workflowId"))


def tried(program, file, name, recorded=False):
    """The page of a file, how long it took, and what is wrong with it."""
    words = ["explain", "--html"] + (["--recorded"] if recorded else []) + [file]
    begun = time.monotonic()
    made = program.run(*words)
    took = time.monotonic() - begun
    page = Page(made.stdout.decode())
    faults = page.judge()
    if page.parts["title"] != seen(file.name, 300):
        faults.append(f"the title is {page.parts['title']!r}")
    told = program.run("replay", file)
    status = 0 if recorded else told.returncode
    if made.returncode != status:
        faults.append(f"status {made.returncode} in place of {status}: {made.stderr.decode()!r}")
    if recorded and (page.parts["verdict"] != "recorded, and not replayed" or page.sides or page.parts["fault-word"]):
        faults.append(f"the page of what is recorded says {page.parts['verdict']!r}")
    if not recorded:
        faults += page.judge_verdict(told, file.name)
    return page, took, faults


def shoot(pages, folder):
    """Pictures of the pages, by Chromium."""
    folder.mkdir(parents=True, exist_ok=True)
    for name, page in pages.items():
        file = folder / f"{name}.html"
        file.write_text(page.html)
        for width in WIDTHS:
            for dark in (False, True):
                picture = folder / f"{name}-{width}-{'dark' if dark else 'light'}.png"
                command = ["chromium", "--headless", "--no-sandbox", "--disable-gpu", "--hide-scrollbars"]
                command += [f"--window-size={WIDTHS[width]},1700", f"--screenshot={picture}"]
                command += [f"--blink-settings=preferredColorScheme={0 if dark else 1}"]
                subprocess.run(command + [file.as_uri()], stdout=subprocess.DEVNULL, stderr=subprocess.DEVNULL, timeout=200)


def histories():
    """The histories that are tried, by name, as texts."""
    texts = {name: json.dumps(whole) for name, whole in edited()}
    second = ("ActivityTaskScheduled", {"activityId": "2", "activityType": {"name": "more"}})
    texts |= {"go": of_go(), "typescript": of_typescript(), "java": of_java(), "python": of_python(), "crowd": crowd()}
    texts |= {"troubles": of_troubles(), "many-open": many_open(), "pending-crowd": pending_crowd(), "cancelling": cancelling()}
    texts |= {"go-markers": GO.decode(), "typescript-markers": TYPESCRIPT.decode(), "odd-markers": ODD.decode()}
    texts |= {"no-event": uneven([]), "other": uneven([second]), "crowded": crowded()}
    texts |= {name: named(given) for name, given in NAMES.items()} | {"big": big()}
    worded = [one[:60].replace(" ", "_") for one in NAMES["hostile"]]
    return texts | {"table": tabled(NAMES["plain"][:8]), "hostile-table": tabled(worded[:8])}


# What is wrong with the pages of some of them.
JUDGES = {"troubles": judge_troubles, "crowd": judge_crowd, "pending-crowd": judge_pending_crowd, "cancelling": judge_cancelling}


def trials(program, room, pages, has_sizes):
    """Yields each page with what is wrong with it; the pages are kept."""
    for name, text in histories().items():
        file = room / f"{name}.json"
        file.write_text(text)
        for recorded in (False, True):
            key = name + "-recorded" * recorded
            page, took, faults = tried(program, file, name, recorded)
            pages[key] = page
            said = "".join(page.texts)
            faults += [f"no text {one!r}" for one in NAMES.get(name, ()) if seen(one, 300) not in said]
            like = {"hostile": "plain", "hostile-table": "table"}.get(name)
            if like and page.tags != pages[like + "-recorded" * recorded].tags:
                faults.append("other tags than with plain names")
            if name in ("go", "typescript", "java", "python"):
                faults += judge_sdk(page, name)
            faults += judge_marked(page, name) if name in MARKED else []
            if name == "many-open" and (len(page.waits) != 41 or page.waits[40] != "10 more"):
                faults.append(f"it waits for {len(page.waits)}, at last {page.waits[-1:]}")
            if name in HEADED:
                faults += page.judge_head(program.run("explain", "--recorded", file))
            faults += JUDGES[name](page) if name in JUDGES else []
            if name in ("table", "hostile-table") and not recorded:
                faults += judge_way(page)
            elif "way" in page.ids:
                faults.append("a table of a run that has none")
            yield key, faults
            if has_sizes:
                print(f"{key}: {len(text.encode()):,} bytes of history, {len(page.html.encode()):,} of page, {took:.2f} s")
    yield from judge_promises(program, room)
    yield "closed run of a table", judge_state(program)
    with (room / "go.json").open() as file:
        made = subprocess.run([program.path, "explain", "--html", "--recorded", "-"], stdin=file, stdout=subprocess.PIPE, timeout=300)
    title = Page(made.stdout.decode()).parts["title"]
    yield "standard input", "" if title == "OrderWorkflow" else f"the title is {title!r}"
    for bad, text in (("no-json", "{"), ("no-events", "{}")):
        file = room / f"{bad}.json"
        file.write_text(text)
        one, other = program.run("explain", "--html", file), program.run("explain", "--recorded", file)
        is_right = not one.stdout and (one.returncode, one.stderr) == (other.returncode, other.stderr)
        yield bad, "" if is_right else f"{one} in place of {other}"


# The pictures of docs/pictures: each the words that make its page, with a function for a history that is made, and the id of the
# heading above it there.
DRAWINGS = {
    "canceled_order": (["explain", "--html", RUN], "way"),
    "canceled_order_over_time": (["explain", "--html", RUN], "picture"),
    "go_order_over_time": (["explain", "--html", "--recorded", of_go], "picture"),
    "broken_order": (["check", "--html", TOP / "examples/broken/order.json"], "states"),
}


def file_of(word, room):
    """A word of a command; of a history that is made the file in which it stands then."""
    if not callable(word):
        return word
    file = room / f"{word.__name__}.json"
    file.write_text(word())
    return file


def shown(program, room, draws):
    """Yields each picture of docs/pictures, with what is wrong with it; it is drawn anew if that is asked for."""
    for name, (given, heading) in DRAWINGS.items():
        words = [file_of(word, room) for word in given]
        file, drawing = TOP / f"docs/pictures/{name}.svg", drawing_of(program.run(*words).stdout.decode(), heading)
        if draws:
            file.write_text(drawing)
        is_right = file.exists() and file.read_text() == drawing
        yield file.name, "" if is_right else f"it is not the picture of {' '.join(map(str, words))}: --draw writes it"


def main():
    parser = words_of(__doc__)
    parser.add_argument("--program", default=str(PROGRAM))
    parser.add_argument("--sizes", action="store_true")
    parser.add_argument("--shots", type=Path)
    parser.add_argument("--draw", action="store_true")
    asked, pages = parser.parse_args(), {}
    need(parser, asked.program)
    program = Program(asked.program)
    if "--html" not in program.run("explain", "--help").stdout.decode():
        parser.error("the program makes no pages")
    with tempfile.TemporaryDirectory() as room:
        rows = chain(trials(program, Path(room), pages, asked.sizes), shown(program, Path(room), asked.draw))
        status = try_rows(rows, asked)
    if asked.shots and shutil.which("chromium"):
        shoot({name: pages[name] for name in ("nap", "racer-id-6", "crowded", "hostile", "big", "table", "troubles") if name in pages}, asked.shots)
    return status


if __name__ == "__main__":
    sys.exit(main())
