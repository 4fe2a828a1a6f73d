"""Trouble that is planned: what becomes of the calls of some methods, in place of what the server would answer.

A fault is a function of a `Call` that returns its result and its error, of which one is None. It may let the server handle the
call, before or after it waits, or not at all.
"""

import math
import threading
import time
from collections import Counter
from itertools import cycle

from peers import CANCELLED, UNAVAILABLE

# For how many seconds a call hangs at most.
MOST_SECONDS = 120


class Call:
    """A call: its method, its context in gRPC, and its request, in whichever form the server takes it. `handle()` lets the
    server handle it, and returns the result and the error; `lose()` tells the server that its response may be lost."""

    def __init__(self, method, request, context, handle, lose=lambda: None):
        self.method, self.request, self.context, self.handle, self.lose = method, request, context, handle, lose


class Row:
    """A fault of the calls of some methods: of those that `picks` accepts, the first `times` of each key."""

    def __init__(self, methods, fault, times, key, picks):
        self.methods, self.fault, self.times, self.key, self.picks = methods.split(), fault, times, key, picks
        self.seen = Counter()

    def takes(self, call):
        if call.method not in self.methods or not self.picks(call):
            return False
        key = self.key(call)
        self.seen[key] += 1
        return self.seen[key] <= self.times


class Plan:
    """The faults that are planned, and how many calls of each method there were."""

    def __init__(self):
        self.rows, self.calls, self.lock = [], Counter(), threading.Lock()

    def add(self, methods, fault, times=math.inf, key=lambda call: None, picks=lambda call: True):
        """Plans a fault of the calls of some methods, given as words. The rows are looked at in their order."""
        with self.lock:
            self.rows.append(Row(methods, fault, times, key, picks))

    def clear(self):
        """Ends all faults that are planned."""
        with self.lock:
            self.rows.clear()

    def answer(self, call):
        """Returns the result and the error of a call."""
        with self.lock:
            self.calls[call.method] += 1
            fault = next((row.fault for row in self.rows if row.takes(call)), None)
        return call.handle() if fault is None else fault(call)


# Faults.


def refused(code, text="not now"):
    """The server refuses the call, which has no effect."""
    return lambda call: (None, (code, text))


def in_turn(*faults):
    """Each of the faults in turn, call by call."""
    rest = cycle(faults)
    return lambda call: next(rest)(call)


def by_key(key, *faults):
    """A fault for each key: the first key that is seen has the first fault, and so on, round and round."""
    found, lock = {}, threading.Lock()

    def fault(call):
        with lock:
            number = found.setdefault(key(call), len(found))
        return faults[number % len(faults)](call)

    return fault


def lost(call):
    """The server handles the call, and its response is lost."""
    call.handle()
    call.lose()
    return None, (UNAVAILABLE, "the connection is lost")


def slow(seconds):
    """The server takes so many seconds."""

    def fault(call):
        time.sleep(seconds)
        return call.handle()

    return fault


def late(event):
    """The server handles the call, and the response waits for an event."""

    def fault(call):
        answered = call.handle()
        event.wait(MOST_SECONDS)
        return answered

    return fault


def hangs(call):
    """There is no response until the caller gives up."""
    wait_for_caller(call.context)
    return None, (CANCELLED, "nobody waits")


def empty(call):
    """The response has nothing in it, and comes at once."""
    return {}, None


def changed(change):
    """The server handles the call, and its result is changed on the way."""

    def fault(call):
        result, error = call.handle()
        return (change(result) if error is None else result), error

    return fault


def wait_for_caller(context):
    """Waits until the caller has given up."""
    gone = threading.Event()
    if context.add_callback(gone.set):
        gone.wait(MOST_SECONDS)
