"""The stand-in's server: its parts, how it handles a request, and when its clock goes on.

It knows nothing of pipes or of gRPC: a request is a call of `Server.call`, and its response is a call of the callback
passed with it. Each part has one duty, and finds the others here.
"""

from activities import Activities
from answers import Answers
from clock import Clock
from findings import Findings, Tokens, text_of
from histories import Histories
from messages import REQUESTS, fault_in
from peers import INVALID, InHand, Refused
from polls import Polling, Polls
from queries import Queries
from queues import Queues
from relations import Relations
from runs import Runs
from tasks import WorkflowTasks

# How many seconds a worker that is processing something is waited for before the clock goes on, and how many if only a
# poll is missing.
PATIENCE, SHORT_PATIENCE = 1.0, 0.005
# The codes with which an answer fails for good, since nobody retries it.
FINAL_CODES = (2, 8, 10, 13)
# The calls that are not answers to tasks; no worker counts their refusals.
UNCOUNTED = ("RespondQueryTaskCompleted", "RecordActivityTaskHeartbeat")


class Server:
    """The whole server."""

    def __init__(self, settings, troubles, world):
        self.settings, self.troubles, self.world = settings, troubles, world
        self.peers, self.final_codes = [], FINAL_CODES
        # By how many milliseconds the clock jumps next.
        self.jump_by = 0
        self.clock, self.findings, self.tokens, self.in_hand = Clock(), Findings(), Tokens(), InHand()
        self.polls = Polls(troubles.dice)
        self.queues, self.polling = Queues(self.polls), Polling(self)
        self.histories, self.runs, self.relations = Histories(self), Runs(self), Relations(self)
        self.queries, self.activities = Queries(self), Activities(self)
        self.tasks = WorkflowTasks(self)
        self.answers = Answers(self)
        world.server = self
        self.calls = {
            "GetWorkflowExecutionHistory": self.histories.fetch,
            "RespondWorkflowTaskCompleted": self.answers.completed,
            "RespondWorkflowTaskFailed": self.answers.failed,
            "RespondQueryTaskCompleted": self.queries.answered,
            "RespondActivityTaskCompleted": self.activities.completed,
            "RespondActivityTaskFailed": self.activities.failed,
            "RespondActivityTaskCanceled": self.activities.canceled,
            "RecordActivityTaskHeartbeat": self.activities.beat,
            "ShutdownWorker": self.tasks.give_up_queue,
        }

    # Time.

    def all_wait(self):
        """Returns whether no task is being processed, and each poller of each process polls."""
        return not self.in_hand and all(peer.polls >= peer.pollers for peer in self.peers if not peer.is_gone)

    def go_on(self, idle):
        """Lets time go on if all wait, or if nothing came for this many seconds; returns whether all wait. What is
        being processed for longer is no longer waited for: the worker withholds its answer, or is stuck."""
        if self.jump_by:
            jump_by, self.jump_by = self.jump_by, 0
            self.clock.run_to(self.clock.now + jump_by)
        if idle > PATIENCE:
            self.in_hand.clear()
        all_wait = self.all_wait()
        if all_wait or (idle > SHORT_PATIENCE and not self.in_hand):
            self.clock.jump() or self.world.end_stuck()
        return all_wait

    # Calls.

    def call(self, peer, method, params, reply):
        """Handles a request. `reply` is called once, now or later, with a result or with a code and a message."""
        self.clock.now += 1
        form = REQUESTS.get(method)
        fault = f"no call {method}" if form is None else fault_in(params, form, method) or self.strange(peer, method, params)
        if fault:
            self.findings.blame(peer, fault)
            return reply(None, (INVALID, fault))
        if method.startswith("Poll"):
            return self.polling.take(peer, method == "PollActivityTaskQueue", params, reply)
        with self.queues.hold():
            try:
                result, error = self.response(peer, method, params)
            except Refused as why:
                if method not in UNCOUNTED:
                    peer.counts[why.code] += 1
                result, error = None, (why.code, why.message)
            self.note(peer, method, params, result, error)
            if self.world.handlers:
                self.world.handlers.replied(peer, method, params, result, error)
            reply(result, error)

    def response(self, peer, method, params):
        """Returns the response to an answer or to a call for a page, which may fail for good, before or after it takes
        effect."""
        take = self.calls[method]
        if not self.troubles.happens("calls"):
            return take(peer, params), None
        known = dict(peer.cached)
        if self.troubles.dice.random() < 0.5:
            take(peer, params)
        # Whether or not its answer was accepted, the worker does not learn it, and keeps no run for it. What it learned
        # before still holds, as when the same task was given twice and its other answer was acknowledged.
        peer.cached = known
        peer.counts["answers failed"] += method.startswith("Respond") and method not in UNCOUNTED
        self.tasks.give_up(peer, params)
        return None, (self.troubles.dice.choice(self.final_codes), "the server can't answer now")

    def note(self, peer, method, params, result, error):
        """Notes how an answer or a call for a history ended, in the account of its run."""
        given = self.tasks.given.get((params.get("taskToken"), peer))
        run = given.run if given else self.runs.find(params["execution"]) if "execution" in params else None
        if run is not None:
            what = f"{method} of {text_of(given.task.token)}" if given else method
            how = f"code {error[0]}" if error else "discarded" if "resetHistoryEventId" in result else "taken"
            run.account.note(peer, f"{what}: {how}, the last task started in event {run.before}")

    def strange(self, peer, method, params):
        """Returns what is wrong with the namespace or the identity of a request, or an empty text."""
        if params["namespace"] != self.settings.namespace:
            return f"{method} has the namespace {params['namespace']}"
        identity = params.get("identity", peer.identity)
        if peer.identity is None:
            peer.identity = identity
        others = [other.identity for other in self.peers if other is not peer]
        if identity != peer.identity or identity in others:
            return f"{method} has the identity {identity}"
        return ""

    def leave(self, peer):
        """Forgets a process that is gone, with all that it was processing."""
        peer.is_gone = True
        self.polls.take_all(peer)
        self.in_hand.leave(peer)
