"""Answers to workflow tasks: what is wrong with them, and what they do."""

import commands
from findings import readable
from messages import milliseconds_of
from peers import INVALID, NOT_FOUND, Refused

BAD_COMMAND = "WORKFLOW_TASK_FAILED_CAUSE_BAD_SCHEDULE_ACTIVITY_ATTRIBUTES"
UNHANDLED = "WORKFLOW_TASK_FAILED_CAUSE_UNHANDLED_COMMAND"


class Answers:
    """What the server does with answers to workflow tasks."""

    def __init__(self, server):
        self.server, self.findings, self.counts = server, server.findings, server.findings.counts

    def completed(self, peer, params):
        """Completes a task."""
        given = self.given_to(peer, params)
        self.check(given, params)
        peer.counts["completed"] += 1
        run, made = self.still(given), params.get("commands", [])
        self.server.in_hand.forget(given.task.token)
        self.judge(peer, run, made)
        self.server.queries.answered_beside(peer, run, params.get("queryResults", {}))
        run.sticky = sticky_of(params.get("stickyAttributes"))
        is_dropped = given.task.is_speculative and not made
        if is_dropped:
            self.counts["dropped"] += 1
            run.drop_task()
        else:
            run.complete_task()
            commands.apply(run, made)
            if self.server.world.workflows.is_long(run):
                self.server.runs.terminate(run)
        return self.taken(given, {"resetHistoryEventId": str(run.before)} if is_dropped and run.before else {})

    def failed(self, peer, params):
        """Fails a task."""
        given = self.given_to(peer, params)
        peer.counts["failed"] += 1
        if given.task.attempt > 1:
            self.findings.blame(peer, f"a failure is answered at attempt {given.task.attempt}")
        self.server.world.failed(given, params["failure"]["message"])
        run = self.still(given)
        self.server.in_hand.forget(given.task.token)
        self.counts["failed tasks"] += 1
        run.end_task("WorkflowTaskFailed", {"cause": params["cause"], "failure": params["failure"]})
        run.need_task()
        return {}

    def given_to(self, peer, params):
        """Returns what was given under the token of an answer. A second answer is a fault of the worker."""
        token = params["taskToken"]
        given = self.server.tasks.given.get((token, peer))
        if given is None:
            self.findings.blame(peer, f"an answer to {readable(token)}, which it was not given")
            raise Refused(NOT_FOUND, "no such task")
        if given.answers == given.times and given.repeats:
            given.repeats -= 1
            self.counts["repeated"] += 1
            raise Refused(NOT_FOUND, "workflow task not found")
        given.answers += 1
        if given.answers > given.times:
            self.findings.blame(peer, f"one more answer to {readable(token)}")
        self.server.in_hand.discard(token, peer)
        peer.counts["answers"] += 1
        return given

    def still(self, given):
        """Returns the run of an answer whose task is still being processed."""
        if given.run.task is not given.task:
            raise Refused(NOT_FOUND, "workflow task not found")
        return given.run

    def judge(self, peer, run, made):
        """Refuses commands that have a fault, or that close a run to which something has come."""
        fault = commands.fault_of(run, made, self.server.settings) or self.server.world.completed(run, made)
        if fault:
            self.findings.blame(peer, f"{run.kind} {run.workflow_id}: {fault}{run.account}")
            self.refuse(run, BAD_COMMAND, fault)
        if commands.closes(made) and commands.left_held(run, made):
            self.counts["unhandled"] += 1
            self.refuse(run, UNHANDLED, "UnhandledCommand")

    def refuse(self, run, cause, message):
        run.end_task("WorkflowTaskFailed", {"cause": cause, "failure": {"message": message}})
        run.need_task()
        raise Refused(INVALID, message)

    def taken(self, given, result):
        """Returns the response to an accepted answer, unless it is lost."""
        self.counts["taken"] += 1
        if self.server.troubles.happens("lost"):
            self.counts["lost answers"] += 1
            raise Refused(NOT_FOUND, "workflow task not found")
        if "resetHistoryEventId" in result:
            given.peer.discard(given)
        else:
            given.peer.acknowledge(given)
        return result

    # What is wrong with an answer apart from its commands.

    def check(self, given, params):
        self.check_sticky(given.peer, given.run, params.get("stickyAttributes"))
        self.check_cached(given)

    def check_sticky(self, peer, run, sticky):
        if (sticky is not None) != self.server.settings.is_sticky:
            self.findings.blame(peer, "an answer has stickyAttributes without a cache, or none with one")
        elif sticky and sticky["workerTaskQueue"] != {
            "kind": "TASK_QUEUE_KIND_STICKY",
            "name": peer.sticky or sticky["workerTaskQueue"]["name"],
            "normalName": run.queue,
        }:
            self.findings.blame(peer, f"an answer has the sticky queue {sticky['workerTaskQueue']}")

    def check_cached(self, given):
        """Checks that a part of a history is answered from a run that ends where the part begins."""
        peer, workflow_id = given.peer, given.run.workflow_id
        if given.is_partial and given.has_fetched:
            peer.counts["misses"] += 1
        elif given.is_from_cache:
            peer.counts["hits"] += 1
            given.hits += 1
            if given.last_cached != given.before:
                kind = f"at attempt {given.task.attempt}, given {given.times} times" + (", speculative" if given.is_speculative else "")
                where = f"a cached run that ends in {given.last_cached}, not {given.before}, {kind}"
                self.findings.blame(peer, f"{workflow_id} was answered from {where}{given.run.account}")
            elif given.hits > 1:
                self.findings.blame(peer, f"{workflow_id} was answered twice from one cached run{given.run.account}")


def sticky_of(attributes):
    """Returns the sticky queue that an answer names and its timeout in milliseconds, or None."""
    return attributes and (attributes["workerTaskQueue"]["name"], milliseconds_of(attributes["scheduleToStartTimeout"]))
