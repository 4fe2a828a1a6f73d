#!/usr/bin/env python3
"""Tries the tables of examples/tables with the built program: `check` finds no fault in any, `try` finds that each follows the
scenarios beside it, and `check --html` writes a page that is well formed, with each state of the table and a way from each row
that leaves its state, whose style hides no text. A twin of a table for each of its promises breaks that one: `check` has to print
the way that is written below, `try` to find that the twin follows it, and `check --html` to mark its rows.

    tests/examples.py [TABLE..] [--program PATH..]

The last line is `N tried, M wrong`, and the status is 1 where one is wrong."""

import html
import json
import re
import subprocess
import sys
import tempfile
import xml.etree.ElementTree as tree
from functools import partial
from pathlib import Path

from pages import hiding_rules
from rows import PROCESSORS, PROGRAM, TOP, need, pick, try_rows, words_of

LIMIT_SECONDS = 60
CLOSING = ("complete", "fail", "cancel", "again", "continue")
# Twins of tables: what is another text in them, the number of the promise that they break, and the jobs of a shortest way, or
# how many there are.
TWINS = {
    "order": [
        ([("refunds 2", "refunds 3"), ("refunds < 2", "refunds < 3")], 1,
         "start; done charge; signal cancel" + 3 * "; failed refund; fired again"),
        ([('["calling-off","failed charge","","complete"]',
           '["calling-off","failed charge","","activity refund RefundCard kept","refunding"]')], 2,
         "start; signal cancel; failed charge"),
        ([('["cancel-timer hold","activity refund RefundCard kept"],"refunding"',
           '["cancel-timer hold","activity ship ShipOrder input"],"shipping"')], 3,
         "start; done charge; signal cancel"),
    ],
    "subscription": [
        ([("months 12", "months 13"), ("months < 12", "months < 13")], 1, 73),
        ([('"signal cancel","",["cancel-timer again","complete"]', '"signal cancel","",["cancel-timer again"]')], 2,
         "start; failed charge; signal cancel; fired again"),
    ],
    "approval": [
        ([("reminders 3", "reminders 4"), ("reminders < 3", "reminders < 4")], 1,
         "start; done ask; fired day" + 3 * "; done remind; fired day"),
        ([('["cancel-timer day","fail rejected"]', '["cancel-timer day","complete brought"]')], 2,
         "start; done ask; signal reject"),
    ],
    "trip": [
        ([('"fail no flight"', '"activity hotel BookHotel input","hotel"')], 1, "start; failed flight"),
        ([('["car","failed car"', '["car","cancel","","fail called off"],["car","failed car"')], 2,
         "start; done flight; done hotel; cancel"),
    ],
    "poller": [
        ([("looks 99", "looks 100"), ("looks < 99", "looks < 100")], 1, 201),
        ([('"done look","","complete brought"', '"done look","","continue Next brought"')], 2, "start; done look"),
    ],
}


def jobs_in(scenario):
    """How many jobs a scenario has."""
    return sum(line.partition("=>")[0].count(";") + 1 for line in scenario.splitlines() if line.strip())


def leaves(row):
    """Whether a row closes the run or leads to another state."""
    row = row + [""] * (6 - len(row))
    commands = [row[3]] if isinstance(row[3], str) else row[3]
    closes = any(command.split(" ")[0] in CLOSING for command in commands)
    return closes or row[4] not in ("", "same", row[0])


def faults_of_page(page, table):
    """What is wrong with a page."""
    picture = re.search(r"<svg.*</svg>", page, re.DOTALL)
    if not picture or "<script" in page:
        yield "no picture, or a script"
        return
    drawn = tree.fromstring(picture[0])
    titles = {title.text for title in drawn.iter("title")}
    for state in {row[0] for row in table["rows"]}:
        if state not in titles:
            yield f"no state {state}"
    ways = sum("way" in path.get("class", "").split() for path in drawn.iter("path"))
    if ways != sum(map(leaves, table["rows"])):
        yield f"{ways} ways"
    if table["title"] not in html.unescape(page):
        yield "no title"
    for rule in hiding_rules("".join(re.findall("<style>(.*?)</style>", page, re.DOTALL))):
        yield f"the style hides text: {rule}"


def faults_of(program, path):
    """What is wrong with a table."""
    run = lambda *words: subprocess.run([*program, *words], capture_output=True, text=True, timeout=LIMIT_SECONDS)
    table, scenario = json.loads(path.read_text()), path.with_suffix(".txt").read_text()
    checked = run("check", path)
    if checked.returncode or not checked.stdout.startswith(f"{path.name}: ok, {len(table['rows'])} rows\n"):
        yield f"check: {checked.stdout}{checked.stderr}"
    for words in ((path,), (path, scenario)):
        tried = run("try", *words)
        if tried.returncode or not tried.stdout.endswith(f"{path.name}: ok, {jobs_in(scenario)} jobs\n"):
            yield f"try: {tried.stdout}{tried.stderr}"
    paged = run("check", "--html", path)
    if paged.returncode:
        yield f"check --html: {paged.stderr}"
    else:
        yield from faults_of_page(paged.stdout, table)


def twin_of(table, changes):
    """The text of a table with other texts."""
    text = json.dumps(table, separators=(",", ":"), ensure_ascii=False)
    for old, new in changes:
        assert text.count(old) == 1, f"{old} stands {text.count(old)} times"
        text = text.replace(old, new)
    return text


def faults_of_twin(program, text, number, way):
    """What is wrong with what is said of the promise of this number, which the table breaks."""
    with tempfile.TemporaryDirectory() as folder:
        path = Path(folder, "twin.json")
        path.write_text(text)
        run = lambda *words: subprocess.run([*program, *words], capture_output=True, text=True, timeout=LIMIT_SECONDS)
        checked = run("check", "--json", path)
        found = json.loads(checked.stdout.splitlines()[0])["promises"][number - 1]
        steps = found.get("scenario", [])
        jobs = "; ".join(step["job"] for step in steps)
        if checked.returncode != 1 or (jobs if isinstance(way, str) else len(steps)) != way:
            yield f"status {checked.returncode}, {found}"
        scenario = "".join(f"{step['job']} => {step['gives']}\n" for step in steps)
        tried = run("try", path, scenario)
        if tried.returncode or not tried.stdout.endswith(f"twin.json: ok, {len(steps)} jobs\n"):
            yield f"try: {tried.stdout}{tried.stderr}"
        yield from faults_of_marks(run("check", "--html", path).stdout, number, found["text"], len(steps))


def faults_of_marks(page, number, promise, steps):
    """What is wrong with what a page marks of a broken promise."""
    told = re.findall(r"<li>(.*): rows((?: \d+)*)</li>", page)
    own = [rows.split() for text, rows in told if html.unescape(text) == f"promise {number}, {promise}"]
    if len(own) != 1 or not 0 < len(own[0]) <= steps:
        yield f"the page tells {told}"
    marked = {row for _, rows in told for row in rows.split()}
    count = page.count('<g class="row taken">')
    if count != len(marked):
        yield f"{count} rows are marked, of {sorted(marked)}"


def faults_of_twins(program, path):
    """What is wrong with what is said of the twins of a table."""
    table = json.loads(path.read_text())
    for changes, number, way in TWINS[path.stem]:
        for fault in faults_of_twin(program, twin_of(table, changes), number, way):
            yield f"twin of promise {number}: {fault}"


def all_faults(program, path):
    """What is wrong with a table, and with what is said of its twins."""
    return [*faults_of(program, path), *faults_of_twins(program, path)]


def main():
    parser = words_of(__doc__)
    parser.add_argument("tables", nargs="*", metavar="TABLE", help="names of tables, all where there is none")
    parser.add_argument("--program", nargs="+", default=[str(PROGRAM)])
    asked = parser.parse_args()
    need(parser, asked.program[0])
    tables = {path.stem: partial(all_faults, asked.program, path) for path in sorted((TOP / "examples/tables").glob("*.json"))}
    return try_rows(pick(parser, tables, asked.tables).items(), asked, PROCESSORS)


if __name__ == "__main__":
    sys.exit(main())
