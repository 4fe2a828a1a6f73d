"""Queries: how they are sent, on their own or with a task, and which answers are right.

A query on its own waits in the sticky queue of its run, and after a while in the normal one, and gets the history as it
is when a poll takes it. Its answer is from the state after the last completed task: of the history that was given, of
one that the run has had since, or of one that the worker fetched meanwhile. A query with a task is answered with that
task, from the state after the task. One that the answer omits, or whose task nobody completes, is sent again on its
own. With `follow_tasks`, as in a server, a query of a run that has a task waits: it comes with the task when that is given, or
on its own when the run has none.
"""

import base64
import json
import time

from findings import readable
from histories import page_of
from history import left_out
from peers import NOT_FOUND, UNAVAILABLE, Refused
from queues import Offer

ANSWERED, FAILED = "QUERY_RESULT_TYPE_ANSWERED", "QUERY_RESULT_TYPE_FAILED"
# After how many milliseconds a query that no poll takes leaves the sticky queue, and after how many a query that was
# taken and not answered is given up and sent again. A worker that has it gets at least this many real seconds.
STICKY_TIMEOUT, TIMEOUT, PATIENCE = 5_000, 10_000, 30.0
# How many are sent with one task at most.
MOST_BESIDE = 3


class Asked:
    """A query."""

    def __init__(self, run, kind, values, then=None):
        """`then(is_answered, payloads or text)` is called with the answer."""
        self.run, self.kind, self.values, self.then = run, kind, values, then
        self.is_answered = False

    @property
    def form(self):
        return left_out({"queryType": self.kind, "queryArgs": self.values})


class Taken:
    """A query that a poll has taken: who has it, and the histories at which it may be answered."""

    def __init__(self, asked, peer):
        self.asked, self.peer = asked, peer
        self.first, self.fetched, self.is_excused, self.given_at = len(asked.run.events), [], False, time.monotonic()


class Queries:
    """What the server does with queries."""

    def __init__(self, server):
        self.server, self.counts = server, server.findings.counts
        # Those that a poll has taken, by their tokens; how many are sent and not answered; and whether answers are
        # judged, or only their form.
        self.taken, self.open, self.is_judged = {}, 0, False
        # Whether queries of clients follow tasks, and those that do, by their runs.
        self.follow_tasks, self.waiting = False, {}

    # How they are sent.

    def plan(self, run):
        """Lets a client query a run now."""
        workflows = self.server.world.workflows
        asked = Asked(run, *workflows.asks(run))
        self.open += 1
        self.counts["asked"] += 1
        self.offer(asked)

    def ask_for(self, run, kind, values, then):
        """Sends a query of a real client."""
        self.open += 1
        self.counts["asked"] += 1
        self.waiting.setdefault(run, []).append(Asked(run, kind, values, then))
        self.settle(run)

    def settle(self, run):
        """Sends the queries of a run on their own that wait, unless they follow a task."""
        if run in self.waiting and not (self.follow_tasks and run.task):
            for asked in self.waiting.pop(run):
                self.offer(asked)

    def ask(self, poll, run, is_sticky):
        """Gives a query to a poll now."""
        self.open += 1
        self.counts["asked"] += 1
        self.give(poll, Asked(run, *self.server.world.workflows.asks(run)), is_sticky)

    def offer(self, asked):
        """Lets a query wait to be taken."""
        if asked.run.sticky and asked.run.sticky[0] not in self.server.tasks.given_up:
            self.offer_in(asked, asked.run.sticky[0])
        else:
            self.offer_in(asked, asked.run.queue)

    def offer_in(self, asked, name):
        is_waiting, queue = [True], asked.run.queue

        def leave():
            if is_waiting[0] and not asked.is_answered:
                is_waiting[0] = False
                self.offer_in(asked, queue)

        def give(poll):
            is_waiting[0] = False
            return self.give(poll, asked, name != queue)

        if name != queue:
            self.server.clock.at(STICKY_TIMEOUT, leave)
        self.server.queues.add((False, name), Offer(lambda: is_waiting[0] and not asked.is_answered, give, leave))

    def give(self, poll, asked, is_sticky):
        """Gives a query to a poll. One of a sticky queue has no events, or only those since the last task."""
        token, peer, run = self.server.tokens.new("query"), poll.peer, asked.run
        self.taken[token] = taken = Taken(asked, peer)
        peer.counts["queries"] += 1
        self.counts["queries given"] += 1
        self.server.clock.at(TIMEOUT, lambda: self.time_out(token))
        if self.server.troubles.happens("lost"):
            taken.is_excused = True
            self.counts["lost polls"] += 1
            poll.answer(None, (UNAVAILABLE, "the connection is lost"))
            return True
        self.server.in_hand.add(token, peer)
        result = {"taskToken": token, "workflowExecution": run.execution, "workflowType": {"name": run.kind}}
        if run.before:
            result["previousStartedEventId"] = str(run.before)
        events = run.events[run.before if is_sticky else 0 : taken.first]
        if is_sticky and self.server.troubles.dice.random() < 0.7:
            events = []
        page = page_of(self.server.histories.pages.first(run.execution, events))
        poll.answer({**result, "startedEventId": "0", "history": {}, **page, "query": asked.form})
        return True

    def time_out(self, token):
        """Sends a query again that nobody has answered. A worker that is alive gets some real seconds for it."""
        taken = self.taken.get(token)
        if taken is None:
            return
        has_it = not (taken.is_excused or taken.peer.is_gone or taken.peer.is_disturbed)
        if has_it and time.monotonic() - taken.given_at < PATIENCE:
            return self.server.clock.at(TIMEOUT, lambda: self.time_out(token))
        if has_it:
            self.server.findings.blame(taken.peer, f"the query {readable(token)} is not answered")
        del self.taken[token]
        self.server.in_hand.forget(token)
        self.counts["queries timed out"] += 1
        self.offer(taken.asked)

    def saw(self, peer, run, events):
        """Notes that a worker has fetched a history, from which it may answer the queries of this run that it has."""
        for taken in self.taken.values():
            if taken.peer is peer and taken.asked.run is run:
                taken.fetched.append(events)

    # Answers to queries on their own.

    def answered(self, peer, params):
        token = params["taskToken"]
        taken = self.taken.get(token)
        if taken is None or taken.peer is not peer:
            if not text_begins(token) or (taken is not None and not peer.is_disturbed):
                self.server.findings.blame(peer, f"an answer to {readable(token)}, which it was not asked")
            raise Refused(NOT_FOUND, "no such query")
        del self.taken[token]
        self.server.in_hand.discard(token, peer)
        self.counts["queries answered"] += 1
        self.judge(peer, taken, answer_in(params, "completedType", "queryResult"))
        self.end(taken.asked, params, "completedType", "queryResult")
        return {}

    def give_up(self, peer, params):
        """Excuses a worker for which a call about a query has failed: it may say so, or not answer it."""
        for token, taken in self.taken.items():
            if taken.peer is peer and (token == params.get("taskToken") or taken.asked.run.execution == params.get("execution")):
                taken.is_excused = True
                self.server.in_hand.discard(token, peer)

    def judge(self, peer, taken, given):
        """Blames a worker for an answer that is not one of the right ones."""
        right = self.right(taken)
        is_excused = taken.is_excused and given[0] is False
        if right is not None and given not in right and not is_excused:
            run = taken.asked.run
            what = f"the query {taken.asked.kind} of {run.kind} {run.workflow_id} is answered by {given}, and not by one of {right}"
            self.server.findings.blame(peer, what)

    def right(self, taken):
        """Returns the right answers, or None if any will do."""
        if not self.is_judged:
            return None
        run, found, queried = taken.asked.run, [], self.server.world.workflows.queried
        for last in range(taken.first, len(run.events) + 1):
            found.append(queried(run, run.events[:last], taken.asked.kind, taken.asked.values))
        found += [queried(run, events, taken.asked.kind, taken.asked.values) for events in taken.fetched]
        return None if None in found else [one for at, one in enumerate(found) if one not in found[:at]]

    # Queries with a task.

    def of_task(self, run):
        """Returns the queries that come with the task of a run, by their names."""
        if self.server.troubles.happens("queries"):
            return self.beside(run)
        return {f"query {at}": asked for at, asked in enumerate(self.waiting.pop(run, []))}

    def beside(self, run):
        """Returns queries that are made to come with a task, by their names."""
        dice, workflows = self.server.troubles.dice, self.server.world.workflows
        found = {f"query {at}": Asked(run, *workflows.asks(run)) for at in range(dice.randrange(1, MOST_BESIDE + 1))}
        self.open += len(found)
        self.counts["asked beside"] += len(found)
        return found

    def answered_beside(self, peer, run, results):
        """Checks the query results of the answer to the task being processed."""
        task = run.task
        for name in results.keys() - task.queries.keys():
            self.server.findings.blame(peer, f"the query {name} is answered, which the task did not bring")
        events = run.events + run.unwritten()
        for name, asked in task.queries.items():
            if name not in results:
                self.counts["left out"] += 1
                continue
            given = answer_in(results[name], "resultType", "answer")
            right = self.server.world.workflows.queried(run, events, asked.kind, asked.values, True) if self.is_judged else None
            if right is not None and given != right:
                what = f"the query {asked.kind} beside a task of {run.kind} {run.workflow_id}"
                self.server.findings.blame(peer, f"{what} is answered by {given}, and not by {right}")
            self.counts["answered beside"] += 1
            self.end(asked, results[name], "resultType", "answer")

    def end(self, asked, params, kind, payloads):
        """Hands on the answer of a query."""
        asked.is_answered = True
        self.open -= 1
        if asked.then:
            is_answered = params[kind] == ANSWERED
            asked.then(is_answered, params.get(payloads, {}) if is_answered else params.get("errorMessage", ""))

    def ask_again(self, run, task):
        """Sends the queries of a run's task that is over again, if nobody has answered them: on their own, or with the next
        task if they follow tasks and there is one soon."""
        queries, task.queries = task.queries, {}
        left = [asked for asked in queries.values() if not asked.is_answered]
        if left:
            self.waiting.setdefault(run, []).extend(left)
        if not self.follow_tasks:
            return self.settle(run)
        self.server.clock.at(0, lambda: self.settle(run))


def text_begins(token):
    """Returns whether a token is that of a query."""
    return base64.b64decode(token).startswith(b"query ")


def answer_in(params, kind, payloads):
    """Returns what an answer says: `(True, JSON value)`, or `(False, text)`; an invalid answer is returned as it is."""
    if params[kind] == FAILED:
        return False, params.get("errorMessage", "")
    found = params.get(payloads, {}).get("payloads", [])
    if len(found) == 1 and base64.b64decode(found[0].get("metadata", {}).get("encoding", "")) == b"json/plain":
        try:
            return True, json.loads(base64.b64decode(found[0].get("data", "")))
        except ValueError:
            pass
    return params
