#!/usr/bin/env python3
"""Refuses each request for memory of a built program in turn: request 1, 2, 3, .. alone, and again with all later ones refused,
until a run meets no refusal. The requests are counted and refused by a few lines of C, which this script compiles.

Each run of `wfhost replay` and `wfhost serve` has to end in one of these ways: what it prints with ample memory; status 2 with
`wfhost: out of memory` and nothing on standard output; or status 1 with a whole report, in which the lines that differ say
`out of memory` (replay), or the totals balance with nothing in hand (serve). Beside a whole report of serve, standard error has a
line for each failed task, then at most one that a worker has a fault, and the hint that is there with ample memory; one of the
first two kinds is there.

Of the calls that bench_trials makes, only the requests of the call itself are refused: those between the line on what stands before it
and the line with its answer. Each run has to print what it prints with ample memory, or that memory is out and what may stand after it,
which the table CALLS says. A call of the table that is never out of memory has to answer the same however many requests are refused.

It is no part of the gate. It ends with status 1 where a run ends in another way."""

import os
import re
import subprocess
import sys
import tempfile
from pathlib import Path

TOP = Path(__file__).resolve().parent.parent
PROGRAM = TOP / "crates/wfhost/out/wfhost"
CALLER = TOP / "crates/bench_trials/out/bench_trials"
EXAMPLES = str(TOP / "examples/histories")
LIMIT_SECONDS = 60
LAST = 2**63
OUT_OF_MEMORY = "wfhost: out of memory\n"
TOTALS = re.compile(r"taken (\d+), completed (\d+), failed (\d+), in hand 0")
TALLY = re.compile(r"(.+): (\d+) tasks, (\d+) completed, (\d+) failed")
FAILURE = re.compile(r"wfhost: (.+): task at \d+: .+")
FAULT = "wfhost: a worker has a fault: a call of its source failed\n"
COMMANDS = [
    ["replay", EXAMPLES],
    *(
        ["serve", EXAMPLES, "--workers", workers, "--cache", cache, "--cache-events", events]
        for workers in ("1", "2")
        for cache, events in (("0", "0"), ("1", "0"), ("100", "0"), ("100", "12"))
    ),
]

NO_MEMORY = r"Err\(OutOfMemory\)"
UNANSWERED = r"Err\(OutOfMemory\)|Ok\(NoMemory \{ name: TaskName\(3\) \}\)"
ANSWERED = r"Ok\(Workflow \{ name: TaskName\(3\), hit: false, steps: 2, outcome: Completed \}\)"
CHECKED = (
    r"Ok\(\[Line \{ name: Text \{ text: \"nap\" \}, verdict: (OutOfMemory|Good\(ReplayedTasks \{ tasks: 2, live: false \}\)) \}, "
    r"Line \{ name: Text \{ text: \"live\" \}, verdict: (OutOfMemory|Good\(ReplayedTasks \{ tasks: 2, live: true \}\)) \}\]\)"
)
NOTHING = r"\(\)"
SAME = None
FREE = r"workflow: SlotCount \{ free: 1, reserved: 0, held: 0 \}, activity: SlotCount \{ free: 1, reserved: 0, held: 0 \} \}"
UNTAKEN = r"Counts \{ taken: 0, completed: 0, failed: 0, in_hand: 0, cached: 0, cached_events: 0, " + FREE
# The run is given to the cache also where its answer could not be sent.
FAILED = r"Counts \{ taken: 1, completed: 0, failed: 1, in_hand: 0, cached: (0, cached_events: 0|1, cached_events: 3), " + FREE
UNCACHED = r"Counts \{ taken: 1, completed: 1, failed: 0, in_hand: 0, cached: 0, cached_events: 0, " + FREE
# The second task of a run whose first answer was taken, over a source that caches only runs whose answers it took.
NEXT_UNANSWERED = r"Err\(OutOfMemory\)|Ok\(NoMemory \{ name: TaskName\(8\) \}\)"
NEXT_ANSWERED = r"Ok\(Workflow \{ name: TaskName\(8\), hit: true, steps: 2, outcome: Completed \}\)"
NEXT_FAILED = r"Counts \{ taken: 2, completed: 1, failed: 1, in_hand: 0, cached: 0, cached_events: 0, " + FREE
NEXT_UNCACHED = r"Counts \{ taken: 2, completed: 2, failed: 0, in_hand: 0, cached: 0, cached_events: 0, " + FREE
# The calls of bench_trials, and the ways in which each may want memory: an answer, and what stands after it (SAME: what stood before).
CALLS = {
    "read_events": [(NO_MEMORY, SAME)],
    "push": [(NO_MEMORY, SAME)],
    "issue": [(NO_MEMORY, SAME)],
    "ask": [(NO_MEMORY, SAME)],
    "reduced": [(NO_MEMORY, NOTHING)],
    "jobs": [(NO_MEMORY, SAME)],
    "step": [(NO_MEMORY, SAME)],
    "from_first": [("OutOfMemory", NOTHING)],
    "check": [(NO_MEMORY, NOTHING)],
    "answer": [(NO_MEMORY, SAME)],
    "advance": [(r"\"OutOfMemory\"", NOTHING)],
    "advance by a gap": [],
    "replay_task": [("OutOfMemory", NOTHING)],
    "replay_task from the first": [("OutOfMemory", NOTHING)],
    "replay_task as told": [("OutOfMemory", NOTHING), (r"Source\(OutOfMemory\)", NOTHING)],
    "put": [(r"\(\"NoMemory\", Some\(8\)\)", SAME)],
    "put of a longer run": [],
    "give_run": [(r"\(\"NoMemory\", Some\(3\)\)", SAME)],
    "Books::open": [("OutOfMemory", NOTHING)],
    "Slots::open": [(NO_MEMORY, NOTHING)],
    "Sticky::open": [(NO_MEMORY, NOTHING)],
    "HostState::open": [("OutOfMemory", NOTHING)],
    "HostState::open without workflow slots": [],
    "Host::open": [("OutOfMemory", NOTHING)],
    "serve_one": [(UNANSWERED, UNTAKEN), (UNANSWERED, FAILED), (ANSWERED, UNCACHED)],
    "serve_one of the next task": [(NEXT_UNANSWERED, SAME), (NEXT_UNANSWERED, NEXT_FAILED), (NEXT_ANSWERED, NEXT_UNCACHED)],
    "replay_inputs": [(NO_MEMORY, NOTHING), (CHECKED, NOTHING)],
}
# Of the calls that take a task: how its counts begin then, and what a run has to end in that is out of memory after that.
TAKEN = {
    "serve_one": ("taken: 1", "Ok(NoMemory { name: TaskName(3) })", FAILED),
    "serve_one of the next task": ("taken: 2", "Ok(NoMemory { name: TaskName(8) })", NEXT_FAILED),
}


class Refusals:
    """Runs of the program with some requests refused."""

    def __init__(self, room):
        self.count = Path(room, "count")
        self.library = Path(room, "refusals.so")
        source = Path(__file__).with_suffix(".c")
        subprocess.run(["cc", "-O1", "-shared", "-fPIC", "-o", self.library, source], check=True)

    def run(self, program, words, of_call, first=0, last=0):
        """What a program does where the requests from the first to the last are refused, and how many requests there were; of those of
        a call alone, if so."""
        refused = {"LD_PRELOAD": str(self.library), "REFUSE_COUNT": str(self.count)}
        refused |= {"REFUSE_FROM": str(first), "REFUSE_TO": str(last)}
        refused |= {"REFUSE_BEHIND_LINE": "1"} if of_call else {}
        ran = subprocess.run([program, *words], capture_output=True, text=True, timeout=LIMIT_SECONDS, env=os.environ | refused)
        asked = int.from_bytes(self.count.read_bytes(), sys.byteorder)
        return (ran.returncode, ran.stdout, ran.stderr), asked

    def each(self, program, words, of_call=False):
        """How each run ends that refuses a request, alone or with all later ones, the last ones of a kind meeting no refusal."""
        for last in (lambda number: number, lambda number: LAST):
            number, met = 1, True
            while met:
                ran, asked = self.run(program, words, of_call, number, last(number))
                yield number, ran
                met, number = number <= asked, number + 1


def is_replay_report(out, ample):
    """Whether the lines that differ from the ample report say that memory was short, and the last line counts the others."""
    lines, wanted = out.splitlines(), ample.splitlines()
    if len(lines) != len(wanted):
        return False
    good = 0
    for line, other in zip(lines[:-1], wanted[:-1]):
        name = other.partition(": ")[0]
        if line not in (other, f"{name}: out of memory"):
            return False
        good += line == other and ": ok" in line
    return lines[-1] == f"{len(lines) - 1} files, {good} ok"


def is_replay(out, error, ample):
    """Whether the report is one of replay, and standard error says what it says with ample memory."""
    return is_replay_report(out, ample[1]) and error == ample[2]


def is_service(out, error, ample):
    """Whether the report is one of serve, and standard error has a line for each failed task, file by file, and at most one that a
    worker has a fault, at least one in all, before what it says with ample memory."""
    if not is_service_report(out, ample[1]) or not error.endswith(ample[2]):
        return False
    tallies = [TALLY.fullmatch(line) for line in out.splitlines()[:-1]]
    said = error.removesuffix(ample[2])
    told = [FAILURE.fullmatch(line) for line in said.removesuffix(FAULT).splitlines()]
    return said != "" and all(told) and [it[1] for it in told] == [it[1] for it in tallies for _ in range(int(it[4]))]


def is_service_report(out, ample):
    """Whether each file has its line, the lines' numbers add up, and the totals balance with nothing in hand."""
    lines, wanted = out.splitlines(), ample.splitlines()
    totals = TOTALS.fullmatch(lines[-1]) if lines else None
    if len(lines) != len(wanted) or not totals:
        return False
    tallies = [TALLY.fullmatch(line) for line in lines[:-1]]
    if not all(tallies) or [it[1] for it in tallies] != [line.rpartition(": ")[0] for line in wanted[:-1]]:
        return False
    taken, completed, failed = (int(it) for it in totals.groups())
    return taken == completed + failed and all(int(it[2]) == int(it[3]) + int(it[4]) for it in tallies)


def why_wrong(words, ran, ample):
    """What is wrong with how a run ended, if anything is."""
    status, out, error = ran
    if ran == ample or ran == (2, "", OUT_OF_MEMORY):
        return ""
    is_whole = is_replay if words[0] == "replay" else is_service
    if status == 1 and is_whole(out, error, ample):
        return ""
    return f"status {status}, standard output {out!r}, standard error {error!r}"


def try_program(refusals, words):
    """Refuses each request of the program in turn, tells how many runs there were, and returns how many were wrong."""
    ample, _ = refusals.run(PROGRAM, words, False)
    runs = list(refusals.each(PROGRAM, words))
    wrong = [(number, why_wrong(words, ran, ample)) for number, ran in runs]
    return tell(" ".join(words[:1] + words[2:]), len(runs), [it for it in wrong if it[1]])


def parts_of(name, out):
    """What stands before a call, what it answers and what stands after it, as bench_trials prints them; None where it does not."""
    heads, lines = [f"{name} {part}: " for part in ("before", "answer", "after")], out.splitlines()
    if len(lines) != len(heads) or not all(line.startswith(head) for line, head in zip(lines, heads)):
        return None
    return [line.removeprefix(head) for line, head in zip(lines, heads)]


def wants_memory(name, ran, ample):
    """Whether a call ended out of memory in one of its ways, with what may stand after it."""
    parts, wanted = parts_of(name, ran[1]), parts_of(name, ample[1])
    if ran[0] != 0 or ran[2] or not parts or parts[0] != wanted[0]:
        return False
    before, answer, after = parts
    return any(
        re.fullmatch(said, answer) and (after == before if left is SAME else re.fullmatch(left, after)) for said, left in CALLS[name]
    )


def try_call(refusals, name):
    """Refuses each request of a call in turn, tells how many runs there were, and returns how many were wrong."""
    ample, asked = refusals.run(CALLER, [name], True)
    if ample[0] != 0 or not parts_of(name, ample[1]):
        return tell(name, 1, [(0, f"with ample memory: {ample}")])
    runs = list(refusals.each(CALLER, [name], True))
    wrong = [(number, str(ran)) for number, ran in runs if ran != ample and not wants_memory(name, ran, ample)]
    wants = sum(ran != ample for _, ran in runs)
    if CALLS[name] and not wants:
        wrong.append((0, "no run wanted memory"))
    if name in TAKEN:
        wrong += after_use(name, runs)
    return tell(f"{name}, {asked} requests", len(runs), wrong, f", {wants} out of memory")


def after_use(name, runs):
    """What is wrong with the first run of `serve_one` whose task was taken before the refusal, if anything is: it has to fail."""
    taken, unanswered, failed = TAKEN[name]
    for number, ran in runs:
        _, answer, after = parts_of(name, ran[1])
        if taken in after:
            is_right = answer == unanswered and re.fullmatch(failed, after)
            return [] if is_right else [(number, f"the first growth after the use: {ran}")]
    return [(0, "no run took the task")]


def tell(title, runs, wrong, more=""):
    """Tells how many runs there were and what was wrong with them, and returns how many were wrong."""
    for number, why in wrong[:8]:
        print(f"{title}, request {number}: {why}")
    print(f"{title}: {runs} runs{more}, {len(wrong)} wrong", flush=True)
    return len(wrong)


def main():
    if not PROGRAM.exists():
        sys.exit("the program is not built: run `./wfhost --build`")
    if not CALLER.exists():
        sys.exit("the program of the calls is not built: run `rt run` in crates/bench_trials")
    with tempfile.TemporaryDirectory() as room:
        refusals = Refusals(room)
        bad = sum(try_call(refusals, name) for name in CALLS)
        bad += sum(try_program(refusals, words) for words in COMMANDS)
    return 1 if bad else 0


if __name__ == "__main__":
    sys.exit(main())
