"""What the bridge reports on standard error."""

import sys


class Unusable(Exception):
    """The options, the files that they name, or this Python can't be used; says why."""


def say(text: str) -> None:
    try:
        print(f"temporal_bridge: {text}", file=sys.stderr, flush=True)
    except OSError:
        pass  # Standard error is closed.
