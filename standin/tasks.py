"""Workflow tasks: how they wait in queues, and what a poll gets."""

from findings import text_of
from histories import page_of
from history import left_out, time_text
from peers import UNAVAILABLE, Given
from queues import Offer

TASK_TIMEOUT, HOUR = 10_000, 3_600_000


def is_waiting(run, task, name):
    """Returns whether a task still waits in the queue of this name."""
    return run.task is task and task.started is None and task.queue == name


class WorkflowTasks:
    """What the server does with workflow tasks until they are answered."""

    def __init__(self, server):
        self.server, self.troubles, self.clock = server, server.troubles, server.clock
        self.counts, self.given = server.findings.counts, {}
        # The sticky queues that their workers have given up.
        self.given_up = set()

    # Queues.

    def offer(self, run):
        """Lets the workflow task of a run wait to be taken."""
        task, world = run.task, self.server.world
        if world.is_outside(run.kind):
            return self.clock.at(world.outside_time(), lambda: self.serve_outside(run, task))
        if run.sticky and task.queue == run.sticky[0]:
            if self.troubles.happens("sticky"):
                is_recorded = self.troubles.dice.random() < 0.5
                return self.clock.at(run.sticky[1] if is_recorded else 1, lambda: self.leave_sticky(run, task, is_recorded))
            self.clock.at(run.sticky[1], lambda: self.leave_sticky(run, task, True))
        name = task.queue
        waits, leaves = lambda: is_waiting(run, task, name), lambda: self.leave_sticky(run, task, False)
        self.server.queues.add((False, name), Offer(waits, lambda poll: self.give(poll, run), leaves))

    def leave_sticky(self, run, task, is_recorded):
        """Moves a task that still waits in its sticky queue to the normal one."""
        if run.sticky and is_waiting(run, task, run.sticky[0]):
            self.counts["sticky timeouts" if is_recorded else "sticky drops"] += 1
            run.leave_sticky(is_recorded)

    def give_up_queue(self, peer, params):
        """Gives up the sticky queue of a worker."""
        name = params["stickyTaskQueue"]
        peer.sticky = peer.sticky or name
        if name != peer.sticky or name in [other.sticky for other in self.server.peers if other is not peer]:
            self.server.findings.blame(peer, f"the sticky queue {name} is given up")
        peer.counts["farewells"] += 1
        self.given_up.add(name)
        for offer in self.server.queues.take_all((False, name)):
            offer.leave()
        return {}

    def serve_outside(self, run, task):
        """Answers a task of a run that another worker would serve: completes the run."""
        if run.task is task and run.closed is None:
            run.start_task(self.server.tokens.new("outside"), "another")
            run.complete_task()
            run.close(*self.server.world.outside_end(run))

    # Polls.

    def give(self, poll, run):
        """Gives the workflow task of a run to a poll; returns whether the poll got it, and not a query before it."""
        task = run.task
        if self.troubles.happens("queries"):
            self.server.queries.ask(poll, run, task.queue != run.queue)
            poll = self.server.polls.take((False, task.queue))
            if poll is None:
                return False
        is_partial = task.queue != run.queue
        beyond = run.start_task(self.server.tokens.new("task"), poll.peer.identity)
        events = run.events[run.before if is_partial else 0 :] + beyond
        task.queries = self.server.queries.of_task(run)
        self.clock.at(TASK_TIMEOUT, lambda: self.time_out(run, task))
        self.counts["given"] += 1
        if self.troubles.happens("lost"):
            self.counts["lost polls"] += 1
            poll.answer(None, (UNAVAILABLE, "the connection is lost"))
        else:
            self.hand_out(poll, run, events, is_partial)
        return True

    def hand_out(self, poll, run, events, is_partial):
        """Gives these events of a run's task to a poll, and perhaps to another one too. Then something may come to the
        run."""
        task = run.task
        self.hand_to(poll, run, events, is_partial)
        if self.troubles.happens("twice"):
            second = self.server.polls.take((False, task.queue))
            if second is not None:
                self.counts["given twice"] += 1
                self.hand_to(second, run, events, is_partial)
        if self.troubles.happens("timeouts"):
            self.time_out(run, task)
        elif self.troubles.happens("during"):
            self.server.world.disturb(run)
        elif self.troubles.happens("jumps"):
            self.server.jump_by = self.troubles.dice.randrange(HOUR)

    def hand_to(self, poll, run, events, is_partial):
        peer, task = poll.peer, run.task
        peer.counts["given"] += 1
        key = (task.token, peer)
        if key in self.given:
            self.given[key].times += 1
        else:
            self.given[key] = Given(peer, run, task, is_partial)
        run.account.note(peer, f"is given {text_of(task.token)} {self.given[key]}")
        if self.server.world.is_answered(run, task.attempt):
            self.server.in_hand.add(*key)
        poll.answer(self.task_of(run, events, is_partial))

    def task_of(self, run, events, is_partial):
        """Returns a workflow task, as a poll's result. The last events of a speculative one are in the poll itself."""
        task, is_whole = run.task, is_partial and run.task.is_speculative
        page = (events, "") if is_whole else self.server.histories.pages.first(run.execution, events)
        result = {
            "taskToken": task.token,
            "workflowExecution": run.execution,
            "workflowType": {"name": run.kind},
            "previousStartedEventId": str(run.before) if run.before else "",
            "startedEventId": str(task.started),
            "attempt": task.attempt,
            "scheduledTime": time_text(task.time),
            "startedTime": time_text(task.started_time),
            "queries": {name: asked.form for name, asked in task.queries.items()} or None,
        }
        return left_out({**result, "history": {}, **page_of(page)})

    # What becomes of a task that nobody answers.

    def time_out(self, run, task):
        if run.task is task and task.started is not None:
            self.counts["timed out"] += 1
            self.server.in_hand.forget(task.token)
            run.end_task("WorkflowTaskTimedOut", {"timeoutType": "TIMEOUT_TYPE_START_TO_CLOSE"})
            run.need_task()

    def give_up(self, peer, params):
        """Notes that a call for a task has failed: the worker no longer answers the task."""
        self.server.queries.give_up(peer, params)
        execution = params.get("execution", {})
        for token in self.server.in_hand.tokens_of(peer):
            given = self.given.get((token, peer))
            if token == params.get("taskToken") or given and given.run.execution == execution:
                self.server.in_hand.discard(token, peer)
