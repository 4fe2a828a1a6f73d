"""The children of a process."""

import os
import signal
import subprocess


def children_of(process):
    """Returns the numbers of the processes that a process has started, and that are there still."""
    found = subprocess.run(["ps", "-o", "pid=", "--ppid", str(process)], capture_output=True, text=True)
    return [int(word) for word in found.stdout.split()]


def kill(process):
    """Kills a process, if it is there still."""
    try:
        os.kill(process, signal.SIGKILL)
    except ProcessLookupError:
        pass


def is_there(process):
    """Returns whether a process runs still."""
    try:
        with open(f"/proc/{process}/stat", encoding="utf-8") as file:
            return file.read().rpartition(")")[2].split()[0] != "Z"
    except OSError:
        return False
