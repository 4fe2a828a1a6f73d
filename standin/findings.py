"""What the stand-in has found."""

import base64
import itertools
import time
from collections import Counter, deque

# How many of the last lines of an account are kept.
KEPT = 12


class Findings:
    """The faults of workers, and how often things happened."""

    def __init__(self):
        self.wrong, self.counts = [], Counter()

    def blame(self, peer, what):
        """Notes a fault of a worker, or of the stand-in if there is no worker."""
        self.wrong.append(f"{peer.name if peer else 'server'}: {what}")


class Account:
    """What came of one run's tasks lately: who was given them, who fetched the history, and how each answer ended. It stands
    below what is wrong with an answer."""

    def __init__(self, clock):
        self.clock, self.lines = clock, deque(maxlen=KEPT)

    def note(self, peer, what):
        self.lines.append(f"\n    {time.monotonic():.3f} s, {self.clock.now} ms: {peer.name} {what}")

    def __str__(self):
        return "".join(self.lines)


class Tokens:
    """Makes task tokens, none of them twice."""

    def __init__(self):
        self.numbers = itertools.count(1)

    def new(self, what):
        return token_of(f"{what} {next(self.numbers)}")


def token_of(text):
    """Returns the token of a text."""
    return base64.b64encode(text.encode()).decode()


def text_of(token):
    """Returns the text of a token."""
    return base64.b64decode(token).decode()


def readable(token):
    """Returns a token as a message shows it, whatever it is."""
    return repr(base64.b64decode(token))
