"""Histories as a worker fetches them: whole or in pages."""

import base64

from history import left_out
from peers import INVALID, NOT_FOUND, Refused


class Pages:
    """The pages that are still to come of the histories that were given in part."""

    def __init__(self, troubles):
        self.troubles, self.rest = troubles, {}
        # How many events the next pages have, if that is planned: an endless iterator.
        self.lengths = None

    def first(self, execution, events):
        """Returns the first page of a list of events, and the token of the next one, or an empty text."""
        if self.lengths or self.troubles.happens("pages"):
            return self.cut(execution, events)
        return events, ""

    def next(self, execution, token):
        """Returns the page of a token, as `first` does, or None if there is no such token for this run."""
        found = self.rest.get(token)
        if found is None or found[0] != execution:
            return None
        return self.cut(execution, found[1])

    def cut(self, execution, events):
        dice = self.troubles.dice
        length = next(self.lengths) if self.lengths else dice.choice([0, 1, 2, 3, 5, 8, 100])
        if length >= len(events) and (self.lengths or dice.random() < 0.8):
            return events, ""
        token = base64.b64encode(f"page {len(self.rest) + 1}".encode()).decode()
        self.rest[token] = (execution, events[length:])
        return events[:length], token


def page_of(page):
    """Returns a page and the token of the next one, as members of a response."""
    events, token = page
    return left_out({"history": left_out({"events": events}), "nextPageToken": token})


class Histories:
    """What the server does with calls for a history."""

    def __init__(self, server):
        self.server, self.pages = server, Pages(server.troubles)

    def fetch(self, peer, params):
        """Returns the first page of a run's history, or the one of a token."""
        execution, token = params["execution"], params.get("nextPageToken")
        run = self.server.runs.find(execution)
        if run is None:
            self.server.findings.blame(peer, f"the history of {execution} is asked for")
            raise Refused(NOT_FOUND, "no such run")
        page = self.first(peer, run) if token is None else self.pages.next(run.execution, token)
        if page is None:
            self.server.findings.blame(peer, f"a page that is not there: {token}")
            raise Refused(INVALID, "no such page")
        return page_of(page)

    def first(self, peer, run):
        """Returns the first page. The events of a task that follows a failed one are included, those of a speculative
        one are not."""
        is_shown = run.task is not None and not run.task.is_speculative
        events = run.events + (run.unwritten() if is_shown else [])
        for given in peer.has.get(run, []):
            given.has_fetched = True
            given.is_stale = given.is_stale or run.task is not given.task
            given.fetched.append(events)
        self.server.queries.saw(peer, run, events)
        return self.pages.first(run.execution, events)
