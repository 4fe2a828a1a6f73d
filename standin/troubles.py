"""The kinds of trouble that the stand-in can make, each by its name, and how often."""

import random

# By name: how often it happens where it may happen, and what it is.
KINDS = {
    "twice": (0.06, "a workflow task is given to two polls"),
    "timeouts": (0.05, "a workflow task times out while it is in hand"),
    "jumps": (0.002, "the clock jumps by up to an hour, over all that is planned, while a task is in hand"),
    "sticky": (0.10, "a sticky queue is dropped without an event, or nobody takes a task from it in time"),
    "pages": (0.40, "a history comes in pages, some of them empty"),
    "empty": (0.05, "a poll gets no task"),
    "codes": (0.01, "a poll is refused for now, by one of the codes of an outage"),
    "outage": (0.0002, "for a minute of the clock each poll is refused, by the codes of an outage"),
    "cancelled": (0.01, "a server or proxy ends the open polls of a process by code 1, in the middle of work"),
    "calls": (0.005, "an answer or the call for a page fails for good, taken or not"),
    "lost": (0.03, "an answer is taken and its response lost, or the result of a poll is lost"),
    "hostile": (0.03, "a line that is no response to a call that waits (pipes alone)"),
    "order": (0.50, "responses come in another order than they were made (pipes alone)"),
    "unanswered": (0.50, "at a shutdown open polls end without code 1, and later ones are never answered (pipes alone)"),
    "open": (1.00, "at a shutdown open polls are never answered, which docs/use/WIRE.md excludes (pipes alone; not in `all`)"),
    "queries": (0.03, "a query on its own, or beside a task"),
    "during": (0.15, "a signal, a cancel or a timer comes while the task is in hand"),
    "beaten": (0.40, "a signal or a cancel comes as an activity beats"),
    "late": (0.30, "the event of an activity's start is written at once, and not only with that of its end"),
    "speculative": (0.50, "an update gives a run a task whose events are not written"),
    "metadata": (0.30, "a payload that comes to a run has metadata of a codec, or its start or a signal a header: a worker has to hand both on"),
    "strangers": (0.03, "a run of a type that the workers have no code for"),
    "outside": (0.10, "a run is terminated, times out or is asked to be canceled"),
    "busy": (0.03, "an answer or a call for a page gets code 8 and is not taken, so that it is tried again (gRPC alone)"),
    "refused": (0.02, "a poll is refused in passing, by a code that would end a worker (gRPC alone)"),
    "dead": (0.01, "a second in which a connection goes dead: nothing goes through, and nobody closes it (gRPC alone)"),
    "away": (0.05, "a second after which the server is away for some (gRPC alone)"),
}
# Not in `all`: what a bridge never does.
NOT_IN_ALL = ("open",)


class Troubles:
    """The kinds that are turned on, and the dice."""

    def __init__(self, seed, names):
        self.names = set(names)
        self.dice = random.Random(seed)
        self.met = dict.fromkeys(sorted(self.names), 0)

    def happens(self, name):
        """Returns whether a kind of trouble happens now."""
        if name not in self.names or self.dice.random() >= KINDS[name][0]:
            return False
        self.met[name] += 1
        return True


def names_of(text):
    """Returns the kinds that a text names: `none`, or words with commas between, each a name, `all`, or `-` and a name
    that is removed from those before. Raises a ValueError if there is no such kind."""
    names = []
    for word in text.split(",") if text != "none" else []:
        name = word.lstrip("-")
        if name not in KINDS and word != "all":
            raise ValueError(f"no kind of trouble: {word}")
        if word == "all":
            names += [one for one in KINDS if one not in NOT_IN_ALL]
        elif word == name:
            names.append(name)
        else:
            names = [one for one in names if one != name]
    return names
