"""The folders and files that are tried, and the histories that most of them are made of."""

import json
import shutil
from itertools import count
from pathlib import Path

TOP = Path(__file__).resolve().parent.parent.parent
EXAMPLES = TOP / "examples/histories"
NAP = (EXAMPLES / "nap.json").read_bytes()
RACER = (EXAMPLES / "racer.json").read_bytes()


def up_to(history, number, *others):
    """A history up to the event of this number, and other events after it."""
    events = json.loads(history)["events"][:number]
    return json.dumps({"events": events + list(others)}).encode()


def padded(size):
    """The history of a nap with blanks after it, so many bytes in all."""
    return NAP + b" " * (size - len(NAP))


NOT_JSON = b'{"events":\n[ ,]}'


class Room:
    """A folder in which folders are made, and the program that is tried."""

    def __init__(self, path, program):
        self.path, self.numbers = Path(path), count(1)
        self.path.chmod(0o755)
        self.program = self.path / "wfhost"
        shutil.copyfile(program, self.program)
        self.program.chmod(0o755)

    def new(self):
        """A path that is not there."""
        return self.path / str(next(self.numbers))

    def folder(self, files):
        """A folder with these files: each by its bytes, or by a call that makes it at its path."""
        made = self.new()
        made.mkdir()
        for name, file in files.items():
            if isinstance(file, bytes):
                (made / name).write_bytes(file)
            else:
                file(made / name)
        return str(made)


def link_to(target):
    """What makes a link to a path."""
    return lambda path: path.symlink_to(target)


def long_nap(tasks):
    """The history of a nap with so many workflow tasks."""
    events = ["WorkflowExecutionStarted"]
    for number in range(tasks):
        events += ["WorkflowTaskScheduled", "WorkflowTaskStarted", "WorkflowTaskCompleted"]
        events += ["TimerStarted"] * (number == 0)
    told = {
        "WorkflowExecutionStarted": {"workflowExecutionStartedEventAttributes": {"workflowType": {"name": "Nap"}}},
        "TimerStarted": {"timerStartedEventAttributes": {"timerId": "nap"}},
    }
    numbered = [
        {"eventId": str(number), "eventTime": "2024-05-01T10:00:01Z", "eventType": kind} | told.get(kind, {})
        for number, kind in enumerate(events, 1)
    ]
    return json.dumps({"events": numbered}).encode()
