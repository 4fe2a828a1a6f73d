"""Activities: those that the stand-in serves itself, and those that workers poll for."""

from findings import readable
from history import left_out, time_text
from messages import milliseconds_of
from peers import INVALID, NOT_FOUND, UNAVAILABLE, Refused
from queues import Offer


def is_open(run, activity):
    return run.closed is None and run.activities.get(activity.scheduled) is activity


class Activities:
    """What the server does with activities."""

    def __init__(self, server):
        # By token: the run, the activity and the worker that has it; and those that were answered.
        self.server, self.troubles, self.by_token, self.over = server, server.troubles, {}, set()

    def schedule(self, run, activity):
        world, activity.scheduled_at = self.server.world, self.server.clock.now
        activity.first_scheduled_at = activity.first_scheduled_at or activity.scheduled_at
        if world.serves(activity):
            delay, duration, end = world.activity(activity)
            return self.server.clock.at(delay, lambda: self.start_here(run, activity, duration, end))
        offer = Offer(lambda: is_open(run, activity) and activity.token is None, lambda poll: self.give(poll, run, activity))
        self.server.queues.add((True, activity.queue), offer)

    def start_here(self, run, activity, duration, end):
        if is_open(run, activity):
            self.start(run, activity)
            end_of = self.server.world.activity_end
            self.server.clock.at(duration, lambda: self.end(run, activity, *end_of(activity, end)))

    def start(self, run, activity):
        """Starts an activity. The event of its start is written at once, or else with its end."""
        activity.started_at = self.server.clock.now
        if self.troubles.happens("late"):
            self.write_start(run, activity)

    def write_start(self, run, activity):
        def note(number):
            activity.started = number

        activity.started = 0
        made = {"scheduledEventId": str(activity.scheduled), "attempt": activity.attempt}
        run.come_in("ActivityTaskStarted", made, note)

    def give(self, poll, run, activity):
        """Returns an activity task to a poll."""
        token = activity.token = self.server.tokens.new("activity")
        activity.given_details = activity.details
        self.by_token[token] = (run, activity, poll.peer)
        self.start(run, activity)
        timeout = milliseconds_of(activity.timeout)
        self.server.clock.at(timeout, lambda: self.time_out(run, activity, token, "TIMEOUT_TYPE_START_TO_CLOSE"))
        self.wait_for_beat(run, activity, token)
        self.server.findings.counts["activities given"] += 1
        if self.troubles.happens("lost"):
            self.server.findings.counts["lost polls"] += 1
            poll.answer(None, (UNAVAILABLE, "the connection is lost"))
        else:
            poll.peer.counts["activities given"] += 1
            self.server.in_hand.add(token, poll.peer)
            poll.answer(self.task_of(run, activity))
        return True

    def task_of(self, run, activity):
        """Returns an activity task, as a poll's result."""
        result = {
            "taskToken": activity.token,
            "workflowExecution": run.execution,
            "workflowType": {"name": run.kind},
            "activityId": activity.id,
            "activityType": {"name": activity.kind},
            "header": activity.header,
            "input": activity.input,
            "attempt": activity.attempt,
            "scheduledTime": time_text(activity.first_scheduled_at),
            "currentAttemptScheduledTime": time_text(activity.scheduled_at),
            "startedTime": time_text(activity.started_at),
            "scheduleToCloseTimeout": activity.whole_timeout,
            "startToCloseTimeout": activity.timeout,
            "heartbeatTimeout": activity.heartbeat,
            "heartbeatDetails": activity.details,
            "retryPolicy": left_out(activity.policy),
        }
        return left_out(result)

    def time_out(self, run, activity, token, kind):
        if is_open(run, activity) and activity.token == token:
            self.server.in_hand.forget(token)
            self.server.findings.counts["activities timed out"] += 1
            failure = {"message": "timeout", "timeoutFailureInfo": {"timeoutType": kind}}
            if not self.try_again(run, activity, failure):
                self.end(run, activity, "ActivityTaskTimedOut", {"failure": failure})

    def try_again(self, run, activity, failure):
        """Retries a failed activity if it may be retried, and returns whether it is."""
        if not activity.may_be_tried_again(failure):
            return False
        activity.attempt += 1
        activity.token = activity.beaten_at = None
        self.schedule(run, activity)
        return True

    def end(self, run, activity, kind, attributes):
        """Ends an activity."""
        if not is_open(run, activity):
            return
        if activity.started is None:
            self.write_start(run, activity)
        if is_open(run, activity):
            del run.activities[activity.scheduled]
            numbers = {"scheduledEventId": str(activity.scheduled)}
            run.come_in(kind, lambda: {**numbers, "startedEventId": str(activity.started), **attributes})

    # Answers of workers.

    def completed(self, peer, params):
        run, activity = self.answered(peer, params)
        self.end(run, activity, "ActivityTaskCompleted", left_out({"result": params.get("result")}))
        return self.taken()

    def failed(self, peer, params):
        run, activity = self.answered(peer, params)
        if not self.try_again(run, activity, params["failure"]):
            self.end(run, activity, "ActivityTaskFailed", {"failure": params["failure"]})
        return self.taken()

    def canceled(self, peer, params):
        run, activity = self.answered(peer, params)
        if not activity.canceled:
            self.server.findings.blame(peer, f"the activity {activity.id} is canceled, which nobody asked for")
            raise Refused(INVALID, "no cancellation was requested")
        self.server.findings.counts["activities canceled"] += 1
        made = {"details": params.get("details"), "latestCancelRequestedEventId": str(activity.cancel_requested)}
        self.end(run, activity, "ActivityTaskCanceled", left_out(made))
        return self.taken()

    def answered(self, peer, params):
        """Returns the run and the activity of an answer that is still expected."""
        token = params["taskToken"]
        peer.counts["activity answers"] += 1
        self.check_token(peer, token, "an answer to")
        self.server.in_hand.discard(token, peer)
        self.over.add(token)
        return self.waited_for(token)

    def check_token(self, peer, token, what):
        """Blames a worker that names an activity which it was not given, or which it has answered already."""
        if token not in self.by_token or self.by_token[token][2] is not peer:
            self.server.findings.blame(peer, f"{what} the activity {readable(token)}, which it was not given")
            raise Refused(NOT_FOUND, "no such activity")
        if token in self.over and not peer.is_disturbed:
            self.server.findings.blame(peer, f"{what} the activity {readable(token)}, which it has answered")

    def waited_for(self, token):
        """Returns the run and the activity of a token, as long as its answer is expected."""
        run, activity, _ = self.by_token[token]
        if not is_open(run, activity) or activity.token != token:
            raise Refused(NOT_FOUND, "activity not found")
        return run, activity

    # Heartbeats.

    def beat(self, peer, params):
        """Records a heartbeat of an activity, and returns whether its cancellation is requested."""
        token = params["taskToken"]
        self.check_token(peer, token, "a beat of")
        peer.counts["beats"] += 1
        self.server.findings.counts["beats"] += 1
        run, activity = self.waited_for(token)
        activity.details, activity.beaten_at = params.get("details"), self.server.clock.now
        self.wait_for_beat(run, activity, token)
        if self.troubles.happens("beaten"):
            self.server.world.bring_forward(run)
        if not activity.canceled:
            return {}
        self.server.findings.counts["cancels heard"] += 1
        return {"cancelRequested": True}

    def wait_for_beat(self, run, activity, token):
        """Lets an activity time out if no heartbeat comes in time, if it has a heartbeat timeout."""
        limit = milliseconds_of(activity.heartbeat)
        if not limit:
            return
        beaten_at = activity.beaten_at

        def look():
            if activity.beaten_at == beaten_at:
                self.time_out(run, activity, token, "TIMEOUT_TYPE_HEARTBEAT")

        self.server.clock.at(limit, look)

    def taken(self):
        """Returns the response to an accepted answer, unless it is lost."""
        if self.troubles.happens("lost"):
            self.server.findings.counts["lost answers"] += 1
            raise Refused(NOT_FOUND, "activity not found")
        return {}
