"""What workflows compute, written independently, for `courses.Course`: from the tables in docs and comments, not from
their code."""

import copy


def plain_text(payload):
    """Returns the text of a payload that is its plain JSON, without an escape, or None."""
    content = payload.decode("utf-8", "replace")
    inner = content[1:-1]
    is_quoted = len(content) > 2 and content[0] == content[-1] == '"'
    is_plain = '"' not in inner and "\\" not in inner and all(ord(letter) >= 32 for letter in inner)
    return inner if is_quoted and is_plain else None


class Program:
    """A workflow that issues no commands, knows no query and declares no signals."""

    known, signals = "none", ()

    def copy(self):
        return copy.copy(self)

    def query(self, kind, values):
        return False, f"unknown query type {kind}; known: {self.known}"

    def step(self, job):
        return []


class Nap(Program):
    def step(self, job):
        if job[0] == "start":
            return [("StartTimer", "nap", 60)]
        return [("Complete", [])] if job == ("fired", "nap") else []


class Ending(Program):
    """The run ends as the thing of this kind and id ends."""

    thing, message, passes_on_cancels, has_ended = None, None, True, False

    def ending(self, job):
        self.has_ended = True
        if job[2] == "completed":
            return [("Complete", job[3])]
        return [("Cancel",)] if job[2] == "canceled" and self.passes_on_cancels else [("Fail", self.message)]


class Greet(Ending):
    thing, message, is_asked = ("activity", "1"), "greet", False

    def step(self, job):
        if job[0] == "start":
            return [("StartActivity", "1", "greet", job[1])]
        if job[:2] == self.thing:
            return self.ending(job)
        if job[0] == "cancel" and not self.is_asked and not self.has_ended:
            self.is_asked = True
            return [("CancelActivity", "1")]
        return []


class Family(Ending):
    thing, message, is_stopped = ("child", "kid"), "kid", False

    def step(self, job):
        if job[0] == "start":
            return [("StartChild", "kid", "Nap", [])]
        if job[:2] == self.thing:
            return self.ending(job)
        if job[:2] == ("signal", "stop") and not self.is_stopped and not self.has_ended:
            self.is_stopped = True
            return [("CancelChild", "kid")]
        return []


class Branch(Ending):
    thing, message, passes_on_cancels = ("activity", "1"), "branch", False

    def step(self, job):
        if job[0] == "start":
            return [("Ask", "chg", -1, 1)]
        if job[:2] == ("version", "chg"):
            return [("StartActivity", "1", "old" if job[2] == -1 else "new", [])]
        return self.ending(job) if job[:2] == self.thing else []


class Racer(Program):
    known, phase = "phase", "racing"

    def query(self, kind, values):
        return (True, self.phase) if kind == "phase" else super().query(kind, values)

    def step(self, job):
        if self.phase == "racing" and job[0] == "start":
            return [("StartActivity", "1", "race", []), ("StartTimer", "t", 30)]
        if self.phase == "racing" and job == ("fired", "t"):
            self.phase = "late"
            return [("CancelActivity", "1"), ("StartTimer", "u", 5)]
        if self.phase == "racing" and job[:2] == ("activity", "1"):
            self.phase = "done"
            return [("CancelTimer", "t"), ("Complete", job[3]) if job[2] == "completed" else ("Fail", "race")]
        if self.phase == "late" and job == ("fired", "u"):
            self.phase = "done"
            return [("Complete", [])]
        return []


class Caller(Program):
    def step(self, job):
        given = {"start": ("SignalExternal", "other", "go", []), "sent": ("Complete", []), "unsent": ("Fail", "signal")}
        return [given[job[0]]] if job[0] in given else []


class Relay(Program):
    def step(self, job):
        if job[0] == "start":
            self.rest = job[1][1:]
            return [("StartTimer", "leg", 5)] if job[1] else [("Complete", [])]
        return [("ContinueAsNew", "Relay", self.rest)] if job == ("fired", "leg") else []


class Order(Program):
    """An order, by the table above `Order` in crates/order/src/workflow.rt."""

    known, signals, state, parcel = "status", ("cancel",), "charging", "parcel"

    def query(self, kind, values):
        return (True, self.state) if kind == "status" else super().query(kind, values)

    def step(self, job):
        return getattr(self, self.state)(job)

    def charging(self, job):
        if job[0] == "start":
            name = plain_text(job[1][1]) if len(job[1]) > 1 else None
            self.parcel = "parcel" if name is None else f"parcel-{name}"
            return [("StartActivity", "charge", "ChargeCard", job[1])]
        if job[:2] != ("activity", "charge"):
            return []
        self.state = "held" if job[2] == "completed" else "closed"
        return [("StartTimer", "hold", 86_400)] if job[2] == "completed" else [("Fail", "charge")]

    def held(self, job):
        if job[:2] == ("signal", "cancel"):
            self.state = "closed"
            return [("CancelTimer", "hold"), ("Complete", [])]
        if job == ("fired", "hold"):
            self.state = "shipping"
            return [("Ask", "tracked", -1, 1)]
        return []

    def shipping(self, job):
        if job[:2] == ("version", "tracked"):
            return [("StartChild", self.parcel, "Ship" if job[2] == -1 else "ShipTracked", [])]
        if job[:2] != ("child", self.parcel):
            return []
        self.state = "closed"
        return [("Complete", job[3])] if job[2] == "completed" else [("Fail", "parcel")]

    def closed(self, job):
        return []


PROGRAMS = {one.__name__: one for one in (Nap, Greet, Family, Branch, Racer, Caller, Relay, Order)}
