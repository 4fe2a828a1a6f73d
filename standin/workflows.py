"""What is known of the workflows that are run: their types and inputs, what comes to them from outside, and which answers
are right.

`Samples` are the seven workflows of `wh_sample_workflows` that the program has code for, `Orders` those of `order`, and
`Own` are workflows of which only the types are known. Those of `Followed` are followed beside the worker: of each task it
is known which commands it has to give, and of each history what a query gives there.
"""

import base64
import json

from courses import Course, Fault, built_in, fault_of
from programs import PROGRAMS

SECOND, DAY = 1_000, 86_400_000
# A type that nobody serves, and what a worker has to say of it.
STRANGE, SAID_OF_STRANGE = "Nobody", "task at 1: UnknownWorkflow"
OPENINGS = ("activityTaskScheduledEventAttributes", "startChildWorkflowExecutionInitiatedEventAttributes")
# What a run begins with that the one which continues it begins with too. None is retried after a failure.
CARRIED = {
    "memo": {"fields": {"team": {"metadata": {"encoding": "anNvbi9wbGFpbg=="}, "data": "InNob3Ai"}}},
    "retryPolicy": {"initialInterval": "1s", "backoffCoefficient": 2.0, "maximumAttempts": 1},
    "searchAttributes": {
        "indexedFields": {"City": {"metadata": {"encoding": "anNvbi9wbGFpbg==", "type": "S2V5d29yZA=="}, "data": "IlBhcmlzIg=="}}
    },
}
# The fields of the headers of clients that trace their runs and signals, which the run's activities and children get too.
TRACES = (("trace",), ("trace", "baggage"), ("baggage",))
NOISE = ("noise", [1, "two"])
# How many signals a workflow of one's own gets until it has to be closed, and how many milliseconds pass between two.
MOST_SIGNALS, SIGNAL_GAPS = 40, (100, 10 * SECOND, 600 * SECOND, DAY, 20 * DAY)


def base64_of(text):
    return base64.b64encode(text.encode()).decode()


def header_of(names, value):
    """Returns a header of these fields."""
    metadata = {"encoding": base64_of("json/plain"), "kind": base64_of("trace")}
    return {"fields": {name: {"metadata": metadata, "data": base64_of(json.dumps(f"{name} {value}"))} for name in names}}


def payloads(*values):
    """Returns JSON values as payloads."""
    metadata = {"encoding": base64_of("json/plain")}
    return {"payloads": [{"metadata": metadata, "data": base64_of(json.dumps(value))} for value in values]}


class Workflows:
    """Some workflow types, with what is the same for all of them."""

    # Types to start, the time in which runs start, and the time in which something comes to a run from outside.
    kinds, spread, lifetime = (), 60 * SECOND, 60 * SECOND
    # Types of children that another worker would serve.
    outside = ()
    # Whether a run that waits for nothing is a fault.
    must_close = False
    # After how many milliseconds a run that is still open is terminated, or None.
    ends_after = None

    def __init__(self, dice):
        self.dice = dice

    def next_kind(self, open_runs):
        """Returns the type of the next run."""
        return self.dice.choice(self.kinds)

    def companion(self, kind):
        """Returns the type and the id of a run that is started before one of this type, or None."""
        return None

    def input(self, kind, number, workflow_id):
        """Returns the input of a run, or None."""
        return payloads(f"person {number}") if self.dice.random() < 0.8 else None

    def carried(self):
        """Returns what a run begins with besides its input, and carries over when it continues as new: each of it
        often, and often not."""
        return {name: value for name, value in CARRIED.items() if self.dice.random() < 0.3}

    def signals(self, run):
        """Returns signals that may come to a run, each with how often, its name, and its values."""
        return [(0.2, *NOISE)]

    def cancels(self, run):
        """Returns how often a run is requested to cancel."""
        return 0

    def next_signal(self, run, count):
        """Returns the milliseconds until a further signal of a run that has had this many, and its name, or None."""
        return None

    def timer(self, name, delay):
        """Returns after how many milliseconds a timer fires, or None if it never does."""
        return delay

    def is_outside(self, kind):
        return kind in self.outside

    def fault(self, run, commands):
        """Returns what is wrong with the commands of a run, or an empty text."""
        return ""

    def cannot_close(self, run):
        """Returns whether a run waits for nothing."""
        return False

    # Queries.

    # The query types of each workflow type.
    knows = {}

    def asks(self, run):
        """Returns the type and the arguments of a query for a run."""
        known = self.knows.get(run.kind, ())
        kind = self.dice.choice(known) if known and self.dice.random() < 0.75 else self.dice.choice(("weather", "__stack_trace", "__open_sessions"))
        return kind, self.dice.choice((None, payloads(), payloads({"from": 1}, "x")))

    def queried(self, run, events, kind, values, is_beside=False):
        """Returns the result of a query at a history of a run, after its last completed task, or after the one being
        processed if the query comes with that: `(True, JSON value)` or `(False, text)`; None if that is not known."""
        known = self.knows.get(run.kind, ())
        if run.kind == STRANGE:
            return False, SAID_OF_STRANGE
        if kind.startswith("__"):
            return built_in(kind)
        return None if kind in known else (False, f"unknown query type {kind}; known: {', '.join(known) or 'none'}")

    def goes_on(self, run):
        """Returns whether a run that is watched may go on; otherwise it is terminated."""
        return True

    def failure(self, run, events):
        """Returns the message with which the task has to fail that ends a history of a run, or None."""
        return None

    def fails(self, run):
        """Returns whether the task of a run that is being processed has to fail."""
        return False

    def is_long(self, run):
        """Returns whether a run has to be terminated after a task that it has completed."""
        return False

    def failed(self, run):
        """Notes that a task of a run was failed, as it has to be."""

    def closed(self, run):
        """Notes that a run has closed."""


class Followed(Workflows):
    """Workflows that are followed beside the worker, each run by a program that `begin` makes."""

    def __init__(self, dice):
        super().__init__(dice)
        self.courses = {}

    def begin(self, kind, payloads):
        return PROGRAMS[kind]()

    def course(self, run):
        """Returns the course of a run, up to its last event."""
        course = self.courses.get(run)
        if course is None:
            course = self.courses[run] = Course(self.begin)
        course.read(run.events)
        return course

    def fault(self, run, commands):
        return fault_of(self.course(run), run.events + run.unwritten(), run.task.started, commands)

    def queried(self, run, events, kind, values, is_beside=False):
        if run.kind == STRANGE:
            return super().queried(run, events, kind, values)
        course = Course(self.begin)
        course.read(events)
        return course.queried_beside(kind, values) if is_beside else course.queried(kind, values)

    def fails(self, run):
        try:
            self.course(run).answered(run.events + run.unwritten())
        except Fault:
            return True
        return False

    def failure(self, run, events):
        course = Course(self.begin)
        course.read(events)
        try:
            if course.is_live:
                course.activated()
        except Fault as fault:
            return f"task at {course.started}: {fault}"
        return None

    def closed(self, run):
        self.courses.pop(run, None)


class Samples(Followed):
    """The samples."""

    kinds = ("Nap", "Greet", "Branch", "Family", "Racer", "Caller", "Relay")
    knows = {"Racer": ("phase",)}

    def next_kind(self, open_runs):
        """Returns the type of the next run. The child of a Family has the same id in each, so most wait for the one
        before."""
        kind, is_family = self.dice.choice(self.kinds), any(run.kind == "Family" for run in open_runs)
        if kind == "Family" and is_family and self.dice.random() < 0.9:
            return self.next_kind(open_runs)
        return "Family" if not is_family and self.dice.random() < 0.5 else kind

    def companion(self, kind):
        return ("Nap", "other") if kind == "Caller" and self.dice.random() < 0.7 else None

    def input(self, kind, number, workflow_id):
        """Returns the input of a run. A Relay gets up to four values, each for a run."""
        if kind == "Relay":
            return payloads(*(f"leg {leg} of {number}" for leg in range(self.dice.randrange(5))))
        return super().input(kind, number, workflow_id)

    def signals(self, run):
        return super().signals(run) + ([(0.6, "stop", [])] if run.kind == "Family" else [])

    def cancels(self, run):
        return 0.4 if run.kind == "Greet" else 0

    def cannot_close(self, run):
        """Returns whether the opening of a run was called off in the very task of its start, which drops both, so that
        its table has no way to close."""
        opened = any(name in event for event in run.events for name in OPENINGS)
        return run.kind in ("Greet", "Family") and run.before > 0 and run.task is None and not opened


class Orders(Followed):
    """Orders. Their children are runs of a type that is not registered with the worker of orders."""

    kinds, spread, lifetime = ("Order",), DAY, 2 * DAY
    outside, knows = ("Ship", "ShipTracked"), {"Order": ("status",)}

    def input(self, kind, number, workflow_id):
        """Returns the input of a run. Most orders have a name, from which their child has an id of its own: the
        children of the others have one id, so that of two at a time the second is refused."""
        price = {"cents": number}
        if self.dice.random() < 0.7:
            return payloads(price, workflow_id)
        # A number is no name, nor is a text whose JSON has an escape.
        return self.dice.choice([None, payloads(price), payloads(price, number), payloads(price, f"{workflow_id}\n")])

    def signals(self, run):
        return super().signals(run) + [(0.5, "cancel", [])]



class Own(Workflows):
    """Workflows of one's own. Children of other types are served by the stand-in, and signals come until a run closes."""

    must_close = True

    def __init__(self, dice, kinds, fires, names, values=None):
        """`fires` returns, for the name of a timer or for `all`, after how many milliseconds it fires, or None for its
        own time. `names` are those of signals, and `values` the input of each run."""
        super().__init__(dice)
        self.kinds, self.fires, self.names, self.values = kinds, fires, names, values

    def input(self, kind, number, workflow_id):
        return super().input(kind, number, workflow_id) if self.values is None else payloads(*self.values)

    def next_signal(self, run, count):
        if not self.names or count >= MOST_SIGNALS:
            return None
        return self.dice.randrange(self.dice.choice(SIGNAL_GAPS)), self.dice.choice(self.names)

    def timer(self, name, delay):
        if name not in self.fires and "all" not in self.fires:
            return None
        fires = self.fires.get(name, self.fires.get("all"))
        return delay if fires is None else fires

    def is_outside(self, kind):
        return kind not in self.kinds and kind != STRANGE

    def queried(self, run, events, kind, values, is_beside=False):
        return None

    def cannot_close(self, run):
        return run.task is None
