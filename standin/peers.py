"""Workers as the server sees them, what it gave them, and what it knows of how they were started."""

from collections import Counter

CANCELLED, INVALID, DEADLINE, NOT_FOUND, EXHAUSTED, UNAVAILABLE = 1, 3, 4, 5, 8, 14
# The codes of a server that can't answer at the moment.
OUTAGE_CODES = (2, DEADLINE, EXHAUSTED, 10, 13, UNAVAILABLE)


class Refused(Exception):
    """A call is refused with a code."""

    def __init__(self, code, message):
        super().__init__(message)
        self.code, self.message = code, message


class Settings:
    """How the workers were started, as far as their requests show it. If they have policies of their own, the options
    of commands are not checked, except for their form and the Task Queues."""

    def __init__(self, namespace="default", queues=("q",), activity_timeout=60, activity_attempts=1, is_sticky=True, has_policies=False):
        self.namespace, self.queues, self.has_policies = namespace, queues, has_policies
        self.activity_timeout = f"{activity_timeout}s"
        self.activity_attempts = activity_attempts
        self.is_sticky = is_sticky


class Peer:
    """A worker process, as the server sees it."""

    def __init__(self, name, pollers):
        self.name, self.pollers = name, pollers
        self.is_gone = self.is_cut = self.is_disturbed = False
        self.identity = self.sticky = None
        self.polls = 0
        # By run: the number of the last event that the run had when the server last acknowledged one of this worker's
        # answers for it, but none once it discarded a later task (`discard`). The worker may only have cached such a run,
        # and only if no other answer was accepted since.
        self.cached = {}
        # The runs of the answers that were acknowledged since all its pollers polled: perhaps it has not read the response
        # yet, and caches the run later.
        self.unread = set()
        # By run: the tasks of it that were given.
        self.has = {}
        self.counts = Counter()

    def begin_poll(self):
        """Counts a poll that waits. Whoever polls has read the response to each answer before."""
        self.polls += 1
        if 0 < self.pollers <= self.polls:
            self.unread.clear()

    def acknowledge(self, given):
        """Notes that it may cache the run of a task, once it has read the response to its answer."""
        self.cached[given.run] = given.task.started
        self.unread.add(given.run)

    def discard(self, given):
        """Notes that the task of an answer was discarded, and with it the run that was cached before. But if the task came
        ahead of the response to the answer before, and was answered from its history, that answer's run is cached later."""
        if given.is_from_cache or not given.is_ahead:
            self.cached.pop(given.run, None)

    def lose_connection(self):
        """Notes that its connection is lost: it may have missed the response to each answer that it sent, and send it
        again."""
        self.is_disturbed = True
        for given in (given for all_given in self.has.values() for given in all_given):
            given.repeats += 1


class Given:
    """A task that was given to a peer, perhaps twice."""

    def __init__(self, peer, run, task, is_partial):
        self.peer, self.run, self.task, self.is_partial = peer, run, task, is_partial
        self.times, self.answers, self.hits, self.repeats = 1, 0, 0, 0
        self.before, self.last_cached = run.before, peer.cached.get(run)
        # Whether the worker may read the response to the answer before after this task.
        self.is_ahead = peer.is_disturbed or run in peer.unread
        self.is_speculative, self.has_fetched, self.is_stale = task.is_speculative, False, False
        # The histories that the worker has fetched since.
        self.fetched = []
        peer.has.setdefault(run, []).append(self)

    @property
    def is_from_cache(self):
        """Whether it is answered from a cached run, if it is answered now."""
        return self.is_partial and not self.has_fetched

    def __str__(self):
        words = [f"at attempt {self.task.attempt} after event {self.before if self.is_partial else 0}", f"has cached {self.last_cached}"]
        words += ["has perhaps not read the last response"] * self.is_ahead + ["speculative"] * self.is_speculative
        return ", ".join(words)


class InHand:
    """The tasks that workers are processing. While there are some, the clock is not moved."""

    def __init__(self):
        self.held = set()

    def __bool__(self):
        return bool(self.held)

    def add(self, token, peer):
        self.held.add((token, peer))

    def discard(self, token, peer):
        self.held.discard((token, peer))

    def forget(self, token):
        """Forgets a task: no worker is waited for because of it."""
        self.held = {one for one in self.held if one[0] != token}

    def leave(self, peer):
        """Forgets the tasks of a worker that is gone."""
        self.held = {one for one in self.held if one[1] is not peer}

    def clear(self):
        self.held.clear()

    def tokens_of(self, peer):
        return [token for token, other in self.held if other is peer]
