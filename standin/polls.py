"""Polls: those that wait, and what becomes of a new one. A queue is a pair: whether it is one of activities, and its
name."""

from collections import deque

from peers import CANCELLED, DEADLINE, INVALID, OUTAGE_CODES

# Within how many milliseconds the open polls of a process are ended with code 1, and for how many all are refused.
CANCEL_WITHIN, OUTAGE = 5_000, 60_000


class Poll:
    """A poll that waits."""

    def __init__(self, peer, reply):
        self.peer, self.reply = peer, reply
        peer.begin_poll()

    def answer(self, result, error=None):
        self.peer.polls -= 1
        self.reply(result, error)


class Polls:
    """The polls that wait, by their queues."""

    def __init__(self, dice):
        self.dice, self.waiting = dice, {}

    def add(self, queue, poll):
        self.waiting.setdefault(queue, deque()).append(poll)

    def take(self, queue):
        """Removes and returns a poll that waits for tasks of a queue, or returns None if there is none."""
        polls = self.waiting.get(queue)
        if not polls:
            return None
        polls.rotate(self.dice.randrange(len(polls)))
        return polls.popleft()

    def take_all(self, peer):
        """Removes and returns the polls of a process."""
        taken = []
        for polls in self.waiting.values():
            for poll in [poll for poll in polls if poll.peer is peer]:
                polls.remove(poll)
                taken.append(poll)
        return taken

    def close(self, peer, message):
        """Ends the polls of a process with code 1."""
        for poll in self.take_all(peer):
            poll.answer(None, (CANCELLED, message))

    def drop(self, peer, reply):
        """Drops a poll that its caller has given up."""
        for polls in self.waiting.values():
            for poll in [poll for poll in polls if poll.peer is peer and poll.reply is reply]:
                polls.remove(poll)
                peer.polls -= 1


class Polling:
    """What becomes of a new poll: it waits, unless it is refused, empty or invalid."""

    def __init__(self, server):
        self.server, self.troubles, self.polls = server, server.troubles, server.polls
        self.refused_until = 0

    def take(self, peer, is_activity, params, reply):
        fault = self.fault(peer, is_activity, params["taskQueue"])
        if fault:
            self.server.findings.blame(peer, fault)
            return reply(None, (INVALID, fault))
        peer.counts["polls"] += 1
        if self.is_refused():
            code = self.troubles.dice.choice(OUTAGE_CODES)
            peer.counts["late polls"] += code == DEADLINE
            return reply(None, (code, "the server can't answer now"))
        if self.troubles.happens("empty"):
            peer.counts["empty"] += 1
            return reply({}, None)
        if self.troubles.happens("cancelled"):
            delay = self.troubles.dice.randrange(CANCEL_WITHIN)
            self.server.clock.at(delay, lambda: self.polls.close(peer, "the stream was reset"))
        queue = is_activity, params["taskQueue"]["name"]
        self.polls.add(queue, Poll(peer, reply))
        self.server.queues.dispatch(queue)

    def is_refused(self):
        """Returns whether a poll is refused for now, alone or as all are."""
        now = self.server.clock.now
        if now >= self.refused_until and self.troubles.happens("outage"):
            self.refused_until = now + OUTAGE
        return now < self.refused_until or self.troubles.happens("codes")

    def fault(self, peer, is_activity, queue):
        """Returns what is wrong with the queue of a poll, or an empty text."""
        normal = self.server.settings.queues
        if queue["kind"] == "TASK_QUEUE_KIND_NORMAL":
            good = queue["name"] in normal and "normalName" not in queue
        else:
            peer.sticky = peer.sticky or queue["name"]
            others = [other.sticky for other in self.server.peers if other is not peer]
            good = not is_activity and queue.get("normalName") in normal and queue["name"] == peer.sticky
            good = good and self.server.settings.is_sticky and queue["name"] not in (*normal, *others)
        return "" if good else f"a poll of {queue}"
