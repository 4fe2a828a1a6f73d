"""The time of the stand-in."""

import heapq
import itertools


class Clock:
    """A clock in milliseconds. It stands still until it is moved to the next planned action."""

    def __init__(self):
        self.now, self.planned, self.order = 0, [], itertools.count()

    def at(self, delay, action):
        """Plans an action after this many milliseconds."""
        heapq.heappush(self.planned, (self.now + delay, next(self.order), action))

    def jump(self):
        """Moves on to the next planned action and runs it; returns whether there was one."""
        if not self.planned:
            return False
        time, _, action = heapq.heappop(self.planned)
        self.now = max(self.now, time)
        action()
        return True

    def run_to(self, time):
        """Runs all actions that are planned up to a time, which the clock then shows."""
        while self.planned and self.planned[0][0] <= time:
            self.jump()
        self.now = max(self.now, time)
