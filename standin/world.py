"""What happens around the workflows: when runs start, what their activities do, and what comes from outside."""

from workflows import DAY, SAID_OF_STRANGE, SECOND, STRANGE, payloads


class Once:
    """Something that is done once, now or later."""

    def __init__(self, action):
        self.action, self.is_done = action, False

    def __call__(self):
        if not self.is_done:
            self.is_done = True
            self.action()


class World:
    """All that is not the server and not the workers."""

    def __init__(self, troubles, workflows, runs, most_open, has_activity_workers=False):
        self.dice, self.troubles, self.workflows = troubles.dice, troubles, workflows
        self.runs, self.most_open, self.has_activity_workers = runs, most_open, has_activity_workers
        self.server, self.started, self.coming, self.stuck, self.open = None, 0, 0, 0, set()
        self.planned, self.failures, self.handlers = {}, [], None
        # How many queries each run gets at most, and how many of them are still to come.
        self.most_queries, self.asking = 0, 0

    # Runs.

    def begin(self):
        """Plans the start of runs, as long as not too many are open and not all are started."""
        while self.started < self.runs and len(self.open) + self.coming < self.most_open:
            self.started += 1
            self.coming += 1
            number = self.started
            self.server.clock.at(self.dice.randrange(self.workflows.spread), lambda number=number: self.start(number))

    def start(self, number):
        kind = STRANGE if self.troubles.happens("strangers") else self.workflows.next_kind(self.open)
        self.coming -= 1
        companion = self.workflows.companion(kind)
        if companion:
            self.watch(self.server.runs.start(*companion))
        workflow_id = f"{kind.lower()}-{number}"
        input, header = self.workflows.input(kind, number, workflow_id), self.server.runs.traced(f"run {number}")
        carried = {**self.workflows.carried(), **({"header": header} if header else {})}
        self.watch(self.server.runs.start(kind, workflow_id, input, carried=carried))

    def watch(self, run):
        """Plans what comes to a run from outside. A run that nobody serves is terminated in the end."""
        if run is None or run.closed is not None or self.is_outside(run.kind):
            return
        self.open.add(run)
        if run.kind == STRANGE:
            return self.server.clock.at(120 * SECOND, lambda: self.server.runs.terminate(run))
        for chance, action in self.from_outside(run):
            if self.dice.random() < chance:
                once = Once(action)
                self.planned.setdefault(run, []).append(once)
                self.server.clock.at(self.dice.randrange(self.workflows.lifetime), once)
        self.plan_queries(run)
        if not self.workflows.goes_on(run):
            return self.server.runs.terminate(run)
        if self.workflows.ends_after is not None:
            self.server.clock.at(self.workflows.ends_after, lambda: self.server.runs.terminate(run))
        self.signal_again(run, 0)

    def plan_queries(self, run):
        """Plans the queries of a run, soon or late, open or closed."""
        for _ in range(self.dice.randrange(self.most_queries + 1) if self.most_queries else 0):
            self.asking += 1
            self.server.clock.at(self.dice.randrange(self.dice.choice((100, 30 * SECOND, self.workflows.lifetime))), lambda: self.ask(run))

    def ask(self, run):
        self.asking -= 1
        self.server.queries.plan(run)

    def from_outside(self, run):
        """Returns what may come to a run, and how often."""
        runs = self.server.runs
        for chance, name, values in self.workflows.signals(run):
            yield chance, lambda name=name, values=values: runs.signal(run, name, payloads(*values) if values else None)
        yield self.workflows.cancels(run), lambda: runs.request_cancel(run)
        yield 1, lambda: runs.update(run)
        if self.troubles.happens("outside"):
            yield 1, self.dice.choice(
                [lambda: runs.terminate(run), lambda: runs.time_out(run), lambda: runs.request_cancel(run)]
            )

    def signal_again(self, run, count):
        """Plans the next of the signals that come to a run until it closes."""
        found = self.workflows.next_signal(run, count)
        if found is None or run.closed is not None:
            return
        delay, name = found

        def signal():
            self.server.runs.signal(run, name)
            self.signal_again(run, count + 1)

        self.server.clock.at(delay, signal)

    def continued(self, run):
        """Watches a run that has begun in place of one that continued as new."""
        self.watch(run)

    def closed(self, run):
        """Notes that a run has closed."""
        self.open.discard(run)
        self.planned.pop(run, None)
        self.workflows.closed(run)

    def end_stuck(self):
        """Terminates the runs that can't close, once nothing else is to come."""
        for run in [run for run in self.server.runs.open if self.workflows.cannot_close(run)]:
            self.stuck += 1
            if self.workflows.must_close:
                self.failures.append(f"{run.kind} {run.workflow_id} waits for nothing")
            self.server.runs.terminate(run)

    def is_over(self):
        """Returns whether all runs were started and are closed."""
        are_answered = self.asking == 0 and self.server.queries.open == 0
        return self.started == self.runs and self.coming == 0 and not self.server.runs.open and are_answered

    # Answers.

    def failed(self, given, message):
        """Judges a worker's failure of a task. It may fail one if the run's type is not registered, if the task has to
        be failed, and if the task was over by the time that the worker asked for the history: that may end in a later
        task, or in none."""
        run = given.run
        right = SAID_OF_STRANGE if run.kind == STRANGE else self.workflows.failure(run, run.events[: given.task.started])
        is_later = given.is_stale and message in ("not a task", *(self.workflows.failure(run, one) for one in given.fetched))
        if message == right or is_later:
            return self.workflows.failed(run)
        what = "a speculative task" if given.is_speculative else "a task"
        self.failures.append(f"{what} of {run.kind} {run.workflow_id} was failed: {message}" + (f", not {right}" if right else ""))

    def completed(self, run, commands):
        """Returns what is wrong with a worker's completion of a task, or an empty text."""
        return "it is of a type that there is no code for" if run.kind == STRANGE else self.workflows.fault(run, commands)

    def is_answered(self, run, attempt):
        """Returns whether a worker answers a task of a run at an attempt: it only fails a task at the first one."""
        return attempt == 1 or (run.kind != STRANGE and not self.workflows.fails(run))

    # Timers, and runs that another worker would serve.

    def timer(self, name, delay):
        return self.workflows.timer(name, delay)

    def is_outside(self, kind):
        return self.workflows.is_outside(kind)

    def outside_time(self):
        return self.dice.randrange(DAY // 48)

    def outside_end(self, run):
        """Returns how such a run closes."""
        if self.dice.random() < 0.15:
            return "WorkflowExecutionFailed", {"failure": {"message": "lost on its way"}}
        return "WorkflowExecutionCompleted", {"result": payloads({"parcel": run.run_id})}

    # Activities.

    def serves(self, activity):
        """Returns whether an activity is served here, and not by the workers."""
        return not self.has_activity_workers

    def activity(self, activity):
        """Returns after what time an activity starts, how long it takes, and how it ends."""
        end = self.dice.choices(["Completed", "Failed", "TimedOut"], [8, 1, 1])[0]
        start = self.dice.randrange(40 * SECOND if self.dice.random() < 0.2 else 3 * SECOND)
        return start, self.dice.randrange(60 * SECOND if activity.kind == "race" else 20 * SECOND), end

    def activity_end(self, activity, end):
        """Returns the event of the end of an activity."""
        if activity.canceled and self.dice.random() < 0.7:
            return "ActivityTaskCanceled", {}
        if end == "Completed":
            result = self.server.runs.coded(activity.input or payloads(activity.kind))
            return "ActivityTaskCompleted", {"result": result} if self.dice.random() < 0.9 else {}
        return "ActivityTask" + end, {"failure": {"message": "as it was planned"}}

    def short(self):
        """Returns the time that a server takes to pass something on from one run to another."""
        return self.dice.randrange(50)

    # What comes while a task is being processed.

    def bring_forward(self, run):
        """Lets a signal or a cancel come now that would have come later, if there is one."""
        left = [once for once in self.planned.get(run, []) if not once.is_done]
        if left:
            self.dice.choice(left)()

    def disturb(self, run):
        """Lets something come to a run now that would have come later."""
        what = self.dice.randrange(4)
        soon = self.server.clock.now + 60 * SECOND
        timers = sorted((name, number) for name, number in run.timers.items() if name in run.due and run.due[name] <= soon)
        started = [one for one in run.activities.values() if one.started_at is not None and one.token is None]
        if what == 0 and self.planned.get(run):
            self.dice.choice(self.planned[run])()
        elif what == 1 and timers:
            name, number = self.dice.choice(timers)
            self.server.clock.now = max(self.server.clock.now, run.due[name])
            self.server.runs.fire(run, name, number)
        elif what == 2 and started:
            activity = self.dice.choice(started)
            self.server.activities.end(run, activity, *self.activity_end(activity, "Completed"))
        elif what == 3:
            self.server.runs.signal(run, "noise")
