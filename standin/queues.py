"""Tasks that wait in their queues, and how they come to polls."""

from collections import deque
from contextlib import contextmanager


class Offer:
    """A task that waits in a queue."""

    def __init__(self, is_waiting, give, leave=None):
        """`is_waiting()` returns whether it still waits, `give(poll)` gives it to a poll and returns whether the poll
        took it, and `leave()` is called for a task of a queue that is given up."""
        self.is_waiting, self.give, self.leave = is_waiting, give, leave


class Queues:
    """The tasks that wait, by their queues."""

    def __init__(self, polls):
        self.polls, self.offers = polls, {}
        self.is_held, self.held = False, deque()

    def add(self, queue, offer):
        self.offers.setdefault(queue, deque()).append(offer)
        self.dispatch(queue)

    def take_all(self, queue):
        """Removes and returns the tasks of a queue."""
        return self.offers.pop(queue, deque())

    def dispatch(self, queue):
        """Gives tasks of a queue to polls of it, as long as there are both; within `hold`, after it."""
        if self.is_held:
            return self.held.append(queue)
        offers = self.offers.get(queue)
        while offers:
            if not offers[0].is_waiting():
                offers.popleft()
                continue
            poll = self.polls.take(queue)
            if poll is None:
                return
            offer = offers.popleft()
            if not offer.give(poll):
                return offers.appendleft(offer)

    @contextmanager
    def hold(self):
        """Gives no task until what is done within it is over: a response comes before the task that it allows."""
        self.is_held = True
        try:
            yield
        finally:
            self.is_held = False
            while self.held:
                self.dispatch(self.held.popleft())
