#!/usr/bin/env python3
"""Tries the stand-in itself, by a worker that needs no built program (tests/small_worker.py): as it is, nothing may be wrong
with it, under all trouble and kills; and with a mistake now and then, the loop has to find that mistake. Then by single calls,
whose order is that of a row: a worker that answers from a run which it may have cached is not blamed, any other is. The last
line is `N tried, M wrong`, and the status is 1 where one is wrong."""

import subprocess
import sys
from functools import partial

from rows import TOP, try_rows, words_of

sys.path.insert(1, str(TOP / "standin"))
sys.dont_write_bytecode = True

from peers import Peer, Settings  # noqa: E402
from server import Server  # noqa: E402
from troubles import Troubles  # noqa: E402
from workflows import Own  # noqa: E402
from world import World  # noqa: E402

LOOPS, WORKER = TOP / "tests/loops.py", f"{sys.executable} {TOP / 'tests/small_worker.py'}"
LIMIT_SECONDS = 300
# The words of a loop, the mistake that its worker makes, and what the loop has to say then.
ROWS = [
    ("--tables --runs 100 --trouble all --queries --kill 4", "", "1 tried, 0 wrong"),
    ("--orders --runs 100 --trouble all --queries --kill 4", "", "1 tried, 0 wrong"),
    ("--tables --runs 100 --trouble all --queries --till", "", "1 tried, 0 wrong"),
    ("--tables --runs 60 --trouble metadata", "", "1 tried, 0 wrong"),
    ("--tables --runs 400 --trouble metadata", "metadata", "it gives"),
    ("--tables --runs 400 --trouble metadata", "header", "the header is"),
    ("--tables --runs 60 --trouble none --queries", "state", "and not by one of"),
    ("--orders --runs 60 --trouble none --queries", "state", "and not by one of"),
    ("--tables --runs 60 --trouble none", "commands", "it gives"),
    ("--orders --runs 60 --trouble none", "commands", "it gives"),
    ("--tables --runs 60 --trouble none --queries", "silent", "is not answered"),
    ("--tables --runs 100 --trouble none --till", "policy", "MaximumInterval cannot be less than InitialInterval"),
    ("--tables --runs 200 --trouble none --till", "token", "which it was not given"),
    ("--tables --runs 200 --trouble beaten --till", "beat", "it beats with"),
    ("--tables --runs 300 --trouble beaten --till", "taken", "PrintLabels b'activity"),
]
# What comes to a run and what its worker of two pollers does, in order, and what the stand-in has to say of that. A `poll` is one
# of the sticky queue, `normal` one of the other. An answer to a task of the sticky queue without `fetch` is from a cached run.
BLAMED = "worker: nap was answered from a cached run that ends in "
TALKS = [
    ("normal poll start answer poll signal answer", ""),
    ("normal poll start answer poll signal fetch answer", ""),
    ("normal poll start answer signal fetch answer poll poll signal answer", ""),
    ("normal poll start lost answer poll signal answer", BLAMED + "None, not 3"),
    ("normal poll start lost answer poll signal fetch answer", ""),
    ("normal poll start answer poll signal lost answer poll signal answer", BLAMED + "3, not 7"),
    # The task of an update is discarded, and the run that was cached before is not cached any more.
    ("normal poll start answer poll update answer poll signal answer", BLAMED + "None, not 3"),
    ("normal poll start answer poll update fetch answer poll signal answer", BLAMED + "None, not 3"),
    ("normal poll start answer poll update fetch answer poll signal fetch answer", ""),
    ("normal normal start answer normal update leave answer poll signal answer", BLAMED + "None, not 3"),
    # That task comes before a poller has read the response to the answer before, and caches the run then.
    ("normal poll start answer update fetch answer poll signal answer", ""),
    ("normal normal start answer update leave answer poll signal answer", ""),
    ("normal poll start answer update fetch answer poll signal answer poll update answer poll signal answer", BLAMED + "None, not 7"),
    ("normal poll start answer update answer poll signal answer", BLAMED + "None, not 3"),
]


class Planned(Troubles):
    """The trouble that is planned next, and no other."""

    planned = None

    def happens(self, name):
        is_now = name == self.planned
        if is_now:
            self.planned = None
        return is_now


class Talk:
    """A server, and a worker that calls it by words."""

    def __init__(self):
        self.troubles, self.task = Planned(1, ()), None
        world = World(self.troubles, Own(self.troubles.dice, ("Nap",), {}, ()), 0, 0)
        self.server, self.peer = Server(Settings(), self.troubles, world), Peer("worker", 2)
        self.server.peers.append(self.peer)

    def call(self, method, reply, **params):
        self.server.call(self.peer, method, {"namespace": "default", **params}, reply)

    sticky = {"kind": "TASK_QUEUE_KIND_STICKY", "name": "worker:q", "normalName": "q"}

    def poll(self, queue=sticky):
        self.call("PollWorkflowTaskQueue", self.take, identity="worker", taskQueue=queue)

    def normal(self):
        self.poll({"kind": "TASK_QUEUE_KIND_NORMAL", "name": "q"})

    def take(self, task, error):
        self.task = task

    def fetch(self):
        self.call("GetWorkflowExecutionHistory", lambda *_: None, execution=self.run.execution)

    def answer(self):
        sticky = {"scheduleToStartTimeout": "10s", "workerTaskQueue": self.sticky}
        words = {"identity": "worker", "taskToken": self.task["taskToken"], "stickyAttributes": sticky}
        self.call("RespondWorkflowTaskCompleted", lambda *_: None, **words)

    def lost(self):
        self.troubles.planned = "lost"

    def start(self):
        self.run = self.server.runs.start("Nap", "nap")

    def signal(self):
        self.server.runs.signal(self.run, "noise")

    def update(self):
        self.troubles.planned = "speculative"
        self.server.runs.update(self.run)

    def leave(self):
        self.run.leave_sticky(False)


def talked(words):
    """What the stand-in has found."""
    talk = Talk()
    for word in words.split():
        getattr(talk, word)()
    return "\n".join(talk.server.findings.wrong)


def said(words, mistake):
    command = [sys.executable, str(LOOPS), *words.split(), "--program", WORKER, "--limit", "120"]
    if "--till" in command:
        command.insert(command.index("--till") + 1, WORKER)
    if mistake:
        command += ["--more", f" --wrong {mistake}"]
    return subprocess.run(command, capture_output=True, text=True, timeout=LIMIT_SECONDS).stdout


def fault_of(words, mistake, wanted):
    """What is wrong with what a loop says."""
    found = said(words, mistake)
    return "" if wanted in found else f"no `{wanted}` in\n{found}"


def fault_of_talk(words, wanted):
    """What is wrong with what a talk comes to."""
    found = talked(words)
    return "" if found.startswith(wanted) and bool(found) == bool(wanted) else f"not `{wanted}`, but\n{found}"


if __name__ == "__main__":
    rows = [(f"{words} {mistake}".strip(), partial(fault_of, words, mistake, wanted)) for words, mistake, wanted in ROWS]
    rows += [(words, partial(fault_of_talk, words, wanted)) for words, wanted in TALKS]
    sys.exit(try_rows(rows, words_of(__doc__).parse_args()))
