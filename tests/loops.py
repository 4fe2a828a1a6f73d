#!/usr/bin/env python3
"""Closed loops: the stand-in of standin/ for a Temporal server runs many workflows with one worker process or more, makes
trouble, and checks each answer as a server does. In the end each run has to be closed, each history has to replay with
`ok`, the stand-in must have nothing to say against an answer, and the reports of the workers have to agree with what the
stand-in has counted. Each loop prints a line; the last line is `N tried, M wrong`, and the status is 1 where one is wrong.

    tests/loops.py --runs 2000 --samples --workers 1,4,16 --cache 0,10,1000 --trouble all
    tests/loops.py --runs 2000 --orders --trouble all --kill
    tests/loops.py --runs 2000 --tables --trouble all --kill
    tests/loops.py --runs 200 --samples --trouble all --grpc
    tests/loops.py --runs 30000 --mixed

The loops of a seed are not the same twice, since the workers' threads are not. Whoever looks for the cause of a wrong one
finds below a wrong answer what came of the last tasks of its run, and in the folder that is named by --keep the histories and
what the workers said.
"""

import argparse
import json
import random
import re
import subprocess
import sys
import tempfile
import time
from concurrent.futures import ThreadPoolExecutor
from itertools import product
from pathlib import Path

from rows import ORDERS, PROGRAM, need, try_rows, words_of
from support import BRIDGE, take_packages

from handlers import Till
from peers import Settings
from pipes import Pipes
from server import Server
from table_runs import Tables
from troubles import KINDS, Troubles, names_of
from workflows import STRANGE, Orders, Own, Samples
from world import World

# What the workers ask for, where activities are on a Task Queue of their own.
POLICIES = """
[activities]
task_queue = "till"
start_to_close = 60
heartbeat = 30
retry = { maximum_attempts = 1 }
"""
# How long a loop may take at least, and for each run.
LIMIT_SECONDS, RUN_SECONDS = 600, 0.1
# What --mixed asks for: queries of a run at most, the seconds between kills, and the runs of a part, of which some are at once.
QUERIES, KILL_SECONDS, PART, AT_ONCE = 4, 10.0, 1_000, 12
END_SECONDS = 30
MOST_WRONG = 100
REPORT = r"taken (\d+), completed (\d+), failed (\d+), in hand (\d+)"
CALLS = r"polls (\d+), empty polls (\d+), answers not found (\d+), answers refused (\d+)"


class Loop:
    """One closed loop."""

    def __init__(self, options, seed, workers, cache):
        self.options, self.workers, self.cache = options, max(workers, 2) if cache else workers, cache
        self.troubles = Troubles(seed, options.trouble)
        self.workflows = workflows_of(options, self.troubles.dice)
        has_till = bool(options.till)
        self.world = World(self.troubles, self.workflows, options.runs, options.open, options.activity_workers > 0 or has_till)
        self.world.most_queries = options.queries
        settings = Settings(queues=("q", "till") if has_till else ("q",), is_sticky=cache > 0, has_policies=has_till)
        self.server = Server(settings, self.troubles, self.world)
        self.server.queries.is_judged = options.queries > 0
        self.world.handlers = Till(self.server) if has_till else None
        self.front = front(options, self.server, self.troubles)
        self.dice, self.begun, self.killed, self.count = random.Random(seed), time.monotonic(), 0, 0
        self.title = f"seed {seed}, {workers} workers, cache {cache}"

    def command(self, identity):
        """The command of a worker."""
        workers, activity_workers = self.sizes(identity)
        is_till = identity.startswith("till")
        words = [*(self.options.till if is_till else self.options.program), "work", "--task-queue", "till" if is_till else "q"]
        words += ["--namespace", "default", "--identity", identity, "--workers", workers, "--activity-workers", activity_workers]
        words += ["--cache", 0 if is_till else self.cache, "--activity-timeout", 60, "--activity-attempts", 1, "--sticky-timeout", 10]
        words += ["--policies", self.options.policies] if self.options.till and not is_till else []
        return [str(word) for word in words] + self.options.more

    def sizes(self, identity):
        """How many workers of each kind a process has."""
        return (1, 3) if identity.startswith("till") else (self.workers, self.options.activity_workers)

    def start_missing(self):
        """Starts the processes that are not there: those for workflows, and one for activities where there is to be one."""
        names = [process.peer.name.partition("-")[0] for process in self.living()]
        missing = ["worker"] * (self.options.processes - names.count("worker"))
        for kind in missing + (["till"] if self.options.till and "till" not in names else []):
            self.count += 1
            name = f"{kind}-{self.count}"
            self.front.start(self.command(name), name, sum(self.sizes(name)))

    def living(self):
        """The workers that are neither killed nor cut off."""
        return [process for process in self.front.processes if not process.peer.is_gone]

    def is_over(self):
        """Whether all runs are closed, or it takes too long, or too much is wrong."""
        is_late = time.monotonic() - self.begun > self.options.limit
        return self.world.is_over() or is_late or len(self.server.findings.wrong) > MOST_WRONG

    def run(self):
        """Runs the loop, and answers what is wrong."""
        self.start_missing()
        killed_at = time.monotonic()
        while not self.is_over():
            self.front.turn()
            if self.options.kill and time.monotonic() - killed_at > self.options.kill:
                killed_at = time.monotonic()
                self.killed += 1
                self.dice.choice([self.front.kill, self.front.cut])(self.dice.choice(self.living()))
            if self.options.kill:
                self.start_missing()
            if not self.living():
                break
        ended = self.front.stop_all(END_SECONDS)
        self.keep(ended)
        wrong = list(self.server.findings.wrong)
        wrong += [f"not closed: {run.kind} {run.workflow_id}" for run in self.server.runs.all if not run.closed]
        wrong += self.world.failures
        if not self.server.findings.counts["given"]:
            wrong.append("no task was given to a worker")
        if self.server.queries.open:
            wrong.append(f"{self.server.queries.open} queries without an answer")
        return wrong + self.replayed() + [what for process in ended for what in self.reported(process)]

    def keep(self, ended):
        """Writes what the workers said to the folder for it."""
        if self.options.keep:
            for process in ended:
                Path(self.options.keep, f"{process.peer.name}.txt").write_text(process.report())

    # Histories.

    def replayed(self):
        """What replay says against the histories."""
        with tempfile.TemporaryDirectory() as room:
            folder = Path(self.options.keep or room)
            runs = [run for run in self.server.runs.all if run.kind != STRANGE and not self.world.is_outside(run.kind)]
            for at, run in enumerate(runs):
                Path(folder, f"{at:06}-{run.kind}.json").write_text(json.dumps({"events": run.events}))
            ran = self.replay(folder)
        bad = [line for line in ran if not re.search(r": ok, \d+ tasks$|^\d+ files, \d+ ok$", line)]
        whole = f"{len(runs)} files, {len(runs)} ok"
        return bad if ran and ran[-1] == whole else bad + [f"replay ends with {ran[-1:]}"]

    def replay(self, folder):
        words = [*self.options.program, "replay", str(folder)]
        return subprocess.run(words, capture_output=True, text=True, timeout=LIMIT_SECONDS).stdout.splitlines()

    # Reports.

    def reported(self, process):
        """What is wrong with the end of a worker and with its report."""
        said, name, status = process.report(), process.peer.name, process.child.returncode
        may_lose = self.troubles.met.get("calls") or process.peer.is_disturbed
        if status not in ((0, 1) if may_lose else (0,)):
            return [f"{name}: status {status}: {said[-500:]}"]
        report, calls = re.search(REPORT, said), re.search(CALLS, said)
        if not report or not calls:
            return [f"{name}: no report: {said[-500:]}"]
        taken, completed, failed, in_hand = map(int, report.groups())
        not_found, refused = map(int, calls.groups()[2:])
        rows = [("in hand", in_hand, 0), ("taken", taken, completed + failed + not_found + refused)]
        if not process.peer.is_cut and not process.peer.is_disturbed:
            # Of one whose input has ended, or whose connection was lost, nobody knows which responses reached it.
            rows += self.rows_of(process.peer, calls)
        wrong = [f"{name}: {what} {said}, by the server {counted}" for what, said, counted in rows if said != counted]
        return wrong + self.bounds(process.peer, taken)

    def rows_of(self, peer, calls):
        """What a worker has counted of its calls, beside what the server has."""
        counts = peer.counts
        _, empty, not_found, refused = map(int, calls.groups())
        # The bridge gives an empty poll for one that is late.
        late = counts["late polls"] if self.options.grpc else 0
        yield "empty polls", empty, counts["empty"] + late
        yield "answers not found", not_found, counts[5]
        yield "answers refused", refused, counts[3] + counts["answers failed"]
        if not self.troubles.met.get("calls"):
            yield "sticky queues given up", counts["farewells"], int(self.cache > 0 and not peer.name.startswith("till"))

    def bounds(self, peer, taken):
        """A worker takes no more tasks than it was given, and no fewer than it answered."""
        given = peer.counts["given"] + peer.counts["activities given"]
        answers = peer.counts["answers"] + peer.counts["activity answers"]
        if answers <= taken <= given or peer.is_disturbed:
            return []
        return [f"{peer.name}: taken {taken}, by the server {answers} answers to {given} tasks"]

    def line(self):
        """What the loop did."""
        counts, peers = self.server.findings.counts, self.server.peers
        hits, misses = (sum(peer.counts[what] for peer in peers) for what in ("hits", "misses"))
        refused = counts["unhandled"]
        not_found = sum(peer.counts[5] for peer in peers)
        seconds = time.monotonic() - self.begun
        met = ", ".join(f"{name} {times}" for name, times in self.troubles.met.items() if times)
        line = f"{self.title}: {len(self.server.runs.all)} runs, {counts['given']} tasks, {hits} hits, {misses} misses, "
        if counts["asked"] or counts["asked beside"]:
            line += f"{counts['asked']} queries, {counts['asked beside']} beside tasks with {counts['left out']} left out, "
        if counts["dropped"]:
            line += f"{counts['dropped']} discarded, "
        if counts["beats"]:
            line += f"{counts['beats']} beats with {counts['cancels heard']} cancels, {counts['activities canceled']} canceled, "
        line += f"{not_found} not found, {refused} refused, {self.killed} killed, {seconds:.1f} s"
        return line + (f"; {met}" if met else "")


def workflows_of(asked, dice):
    """The workflows that are run."""
    if asked.kinds:
        return Own(dice, asked.kinds, asked.timers, asked.signals, asked.input)
    if asked.tables:
        return Tables(dice, Till.kinds) if asked.till else Tables(dice)
    return Orders(dice) if asked.orders else Samples(dice)


def front(asked, server, troubles):
    """What stands between the server and the workers."""
    if not asked.grpc:
        return Pipes(server, troubles)
    from grpc_front import Front

    return Front(server, asked.bridge, asked.away)


def numbers(text):
    return [int(word) for word in text.split(",")]


def names(text):
    return [word for word in text.split(",") if word]


def firings(text):
    """Which timers fire, and after how many milliseconds where it is not after their own time."""
    found = {}
    for word in names(text):
        name, equals, seconds = word.partition("=")
        found[name] = round(float(seconds) * 1000) if equals else None
    return {} if text == "none" else found


def values(text):
    found = json.loads(text)
    if not isinstance(found, list):
        raise ValueError(text)
    return found


def add_options_of_kinds(parser):
    """What goes with --kinds."""
    found = parser.add_argument_group("with --kinds (docs/use/LIVE.md)")
    found.add_argument("--timers", type=firings, default="all", help="timers that fire: all, none, or names with commas; NAME=SECONDS "
                       "or all=SECONDS fire after so many seconds in place of their own")
    found.add_argument("--signals", type=names, default=[], help="names of signals, with commas, that come at random until a run closes")
    found.add_argument("--input", type=values, help="the input of each run, as a JSON list of its values")


def options():
    """The command line."""
    parser = words_of(__doc__)
    parser.add_argument("--runs", type=int, default=200, help="runs that are started in each loop")
    parser.add_argument("--open", type=int, default=100, help="how many of them are open at once")
    which = parser.add_mutually_exclusive_group()
    which.add_argument("--samples", action="store_true", help="the seven samples of wfhost (otherwise)")
    which.add_argument("--orders", action="store_true", help="orders, by order_worker")
    which.add_argument("--tables", action="store_true", help="runs of random tables, by wfhost")
    which.add_argument("--kinds", type=names, help="workflow types, with commas, of the program that --program names")
    parser.add_argument("--workers", type=numbers, default=[4], help="numbers of workers, with commas")
    parser.add_argument("--activity-workers", type=int, default=0, help="0: the stand-in serves the activities")
    parser.add_argument("--cache", type=numbers, default=[10], help="capacities of the cache, with commas")
    parser.add_argument("--trouble", type=names_of, default="all", help="none, or kinds with commas, where -KIND leaves one out: all, " + ", ".join(KINDS))
    parser.add_argument("--till", type=str.split, nargs="?", const=[str(ORDERS)], help="with --tables: the activities are "
                        "on a Task Queue of their own, which policies name, and this program, otherwise order_worker, serves them and beats")
    parser.add_argument("--queries", type=int, nargs="?", const=QUERIES, default=0, help="asks each run so many queries at most")
    parser.add_argument("--kill", type=float, nargs="?", const=1.0, default=0, help="every so many seconds kills a worker or ends its input; "
                        "with --grpc kills a bridge, or the worker behind it")
    parser.add_argument("--mixed", action="store_true", help=f"for long loops: --tables --till --queries --kill {KILL_SECONDS:g} --processes 2 "
                        f"--part {PART} --at-once {AT_ONCE}")
    parser.add_argument("--part", type=int, default=0, help="a loop of more runs is done in parts of so many, each with a seed of its own")
    parser.add_argument("--at-once", type=int, help="how many loops or parts are at work at once, each in a process of its own (otherwise "
                        "1); most of their time goes to waits")
    parser.add_argument("--grpc", action="store_true", help="through the bridge, over gRPC")
    parser.add_argument("--bridge", default=BRIDGE, help="with --grpc, another bridge")
    parser.add_argument("--away", type=float, default=3, help="with --grpc, for how many seconds the server is away each time")
    parser.add_argument("--processes", type=int, default=1, help="worker processes on the one queue")
    parser.add_argument("--seeds", type=numbers, default=[1], help="seeds, with commas")
    parser.add_argument("--limit", type=float, help=f"seconds that a loop may take (otherwise {RUN_SECONDS:g} a run, and {LIMIT_SECONDS} at least)")
    parser.add_argument("--program", type=str.split, help="another program, as words")
    parser.add_argument("--more", type=str.split, default=[], help="more options of the worker, as words")
    parser.add_argument("--keep", help="a folder for the histories and what the workers said")
    parser.add_argument("--is-part", action="store_true", help=argparse.SUPPRESS)
    add_options_of_kinds(parser)
    found = parser.parse_args()
    if found.grpc:
        take_packages("--grpc needs")
    if found.mixed:
        mix(found)
    found.at_once = found.at_once or 1
    found.limit = found.limit or max(LIMIT_SECONDS, RUN_SECONDS * found.runs)
    if found.kinds and not found.program:
        parser.error("--kinds wants the program that has them: --program PROGRAM")
    found.program = found.program or [str(ORDERS if found.orders else PROGRAM)]
    need(parser, found.program[0])
    return found


def mix(asked):
    """Sets what --mixed asks for, where nothing else is asked for."""
    asked.tables, asked.till, asked.queries = True, asked.till or [str(ORDERS)], asked.queries or QUERIES
    asked.kill, asked.processes = asked.kill or KILL_SECONDS, max(asked.processes, 2)
    asked.part, asked.at_once = asked.part or PART, asked.at_once or AT_ONCE


def main():
    asked = options()
    if asked.keep:
        Path(asked.keep).mkdir(parents=True, exist_ok=True)
    if asked.part and not asked.is_part:
        return try_rows(all_parts(asked), asked)
    with tempfile.TemporaryDirectory() as folder:
        asked.policies = Path(folder, "policies.toml")
        asked.policies.write_text(POLICIES)
        return try_rows(all_loops(asked), asked)


def parts_of(asked):
    """The options of each part of each loop."""
    for seed, workers, cache in product(asked.seeds, asked.workers, asked.cache):
        for at, first in enumerate(range(0, asked.runs, asked.part)):
            runs = min(asked.part, asked.runs - first)
            keep = ["--keep", str(Path(asked.keep, f"{seed}-{workers}-{cache}-{at}"))] if asked.keep else []
            yield ["--runs", runs, "--part", runs, "--seeds", seed + 1_000 * at, "--workers", workers, "--cache", cache, "--at-once", 1, *keep]


def run_part(words):
    """Runs a part in a process of its own: what it has printed."""
    words = [sys.executable, *sys.argv, *map(str, words), "--is-part"]
    return subprocess.run(words, stdout=subprocess.PIPE, text=True).stdout.splitlines()


def all_parts(asked):
    """Runs all loops in parts, some at once: yields each part."""
    begun = time.monotonic()
    with ThreadPoolExecutor(asked.at_once) as threads:
        for number, lines in enumerate(threads.map(run_part, parts_of(asked)), 1):
            print("\n".join(lines[:-1]), flush=True)
            yield f"part {number}", "" if lines[-1:] == ["1 tried, 0 wrong"] else f"it ends with {lines[-1:]}"
    print(f"{asked.runs} runs in parts of {asked.part}, {asked.at_once} at once: {time.monotonic() - begun:.0f} s")


def all_loops(asked):
    """Runs all loops: yields each, with what is wrong."""
    for seed, workers, cache in product(asked.seeds, asked.workers, asked.cache):
        loop = Loop(asked, seed, workers, cache)
        faults = loop.run()
        print(loop.line(), flush=True)
        yield loop.title, faults


if __name__ == "__main__":
    sys.exit(main())
