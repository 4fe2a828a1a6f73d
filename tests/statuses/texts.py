"""What the program writes in rows of more than one table."""

VERSION = "wfhost 0.2.0\n"
NO_COMMAND = "error: a command is needed\n\nUsage: wfhost [COMMAND]\n\nFor more information, try '--help'.\n"
FEW_SLOTS = "wfhost: slots must be at least workers\n"
NOT_TAKEN = "wfhost: cannot write\n"
KNOWN_TYPES = "Table, Table:NAME, Nap, Greet, Branch, Family, Racer, Caller, Relay"
OTHER_TYPE = f"wfhost: there is code for the workflow types {KNOWN_TYPES}\n"
NO_MEMORY = "wfhost: out of memory\n"
UNCOMPARED = "wfhost: the last task of a recorded history is not compared with its record; replay does that\n"
REPLAYED = "nap.json: ok, 2 tasks\n1 files, 1 ok\n"
SERVED = "nap.json: 2 tasks, 2 completed, 0 failed\ntaken 2, completed 2, failed 0, in hand 0\n"
EXPLAINED = """task at 3
  told Time 2024-05-01T10:00:03Z (event 3)
  told Start Nap (event 1)
    gives StartTimer nap (60 s)
  sends StartTimer nap (60 s), recorded 5 TimerStarted nap
task at 8
  told Time 2024-05-01T10:01:07Z (event 8)
  told TimerFired nap (event 6)
    gives Complete
  sends Complete, recorded 10 WorkflowExecutionCompleted
nap.json: ok, 2 tasks
"""
MISSING = "no such file or folder"
FORBIDDEN = "permission denied"
IS_FOLDER = "is a folder"
IS_LINK = "is a link"
NO_FOLDER = "is no folder"
NO_FILE = "is no file"


def cannot_read(path, why, entry=None):
    """What is said of a path that can't be read, or of a folder where an entry of it can't be."""
    return f"wfhost: cannot read {path if entry is None else f'{path}/{entry}'}: {why}\n"


def long_report(files, tasks):
    """The report of a service of so many long naps."""
    served = "".join(f"{number}.json: {tasks} tasks, {tasks} completed, 0 failed\n" for number in range(100, 100 + files))
    return f"{served}taken {files * tasks}, completed {files * tasks}, failed 0, in hand 0\n"
